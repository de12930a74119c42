//! Heights over the places of a survey, and levels at equal steps between a lowest and a highest height.

use crate::SEED;
use compare::random::Random;
use compare::surveys::{Survey, MOST_COORDINATE, MOST_HEIGHT};

/// The height of every station, and the heights between which the levels stand.
pub struct Ground {
    pub z: Vec<i32>,
    lowest: i32,
    highest: i32,
}

impl Ground {
    /// So many levels, at equal steps.
    pub fn levels(&self, count: usize) -> Vec<i32> {
        let count = count as i32;
        let apart = (self.highest - self.lowest) / (count + 1);
        (1..=count)
            .map(|level| apart * level + self.lowest)
            .collect()
    }
}

/// Puts heights over the places of a survey.
type Maker = fn(&Survey) -> Ground;

pub const GROUNDS: [(&str, Maker); 2] = [("uniform", uniform), ("hills", hills)];

/// Heights from end to end of the range, in no order.
fn uniform(survey: &Survey) -> Ground {
    Ground {
        z: (0..survey.x.len() as i32)
            .map(|station| station * 7919 % 65535 - MOST_HEIGHT)
            .collect(),
        lowest: -MOST_HEIGHT,
        highest: MOST_HEIGHT,
    }
}

/// Round hills and hollows, as land has them, and on top of them what differs from place to place.
fn hills(survey: &Survey) -> Ground {
    const HILLS: usize = 12;
    const NOISE: i64 = 1500;
    let random = &mut Random::of_case(SEED, "hills", survey.x.len() as u64);
    let hills: Vec<Hill> = (0..HILLS).map(|_| Hill::anywhere(random)).collect();
    let height = |(&x, &y): (&u32, &u32)| {
        let ground: i64 = hills.iter().map(|hill| hill.height_at(x, y)).sum();
        let most = i64::from(MOST_HEIGHT);
        (ground + random.within(-NOISE, NOISE)).clamp(-most, most) as i32
    };
    let z: Vec<i32> = survey.x.iter().zip(&survey.y).map(height).collect();
    let lowest = *z.iter().min().expect("a survey has stations");
    let highest = *z.iter().max().expect("a survey has stations");
    Ground { z, lowest, highest }
}

/// A round hill, or a hollow where its top is below 0.
struct Hill {
    x: i64,
    y: i64,
    top: i64,
    /// How far from the top half of it is left.
    width: i64,
}

impl Hill {
    fn anywhere(random: &mut Random) -> Hill {
        let most = i64::from(MOST_COORDINATE);
        Hill {
            x: random.within(0, most),
            y: random.within(0, most),
            top: random.within(-30_000, 30_000),
            width: random.within(600, 2_400),
        }
    }

    /// It falls with the square of the distance d from its top, as width² / (width² + d²), in whole numbers.
    fn height_at(&self, x: u32, y: u32) -> i64 {
        let (dx, dy) = (i64::from(x) - self.x, i64::from(y) - self.y);
        let square = self.width * self.width;
        self.top * square / (square + dx * dx + dy * dy)
    }
}
