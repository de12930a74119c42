//! Families of surveys in which many sides are swapped for the mesh of kind 1, or in which ties decide what comes of the order of
//! the swaps: where no four stations lie on one circle, any order ends at one mesh.

use crate::random::Random;
use crate::run::Maker;
use crate::surveys::{listed, on_circle, sound, Place, Survey, MOST_COORDINATE};

pub const SWAPS: &[Maker<Survey>] = &[
    ("crowded", crowded),
    ("near one circle", near_circle),
    ("rows", rows),
    ("columns", |random| turned(rows(random))),
    ("two clusters far apart", far_clusters),
    ("near a parabola", near_parabola),
    ("two columns", two_columns),
];

/// Many places of a small square: nearly every four neighbours are on one circle.
fn crowded(random: &mut Random) -> Survey {
    let most = random.natural(2, 11);
    let width = u64::from(most + 1);
    let n = random.within(4, (width * width) as i64) as usize;
    let step = random.pick(&[1, 1, 7, 700]);
    let places = listed(n, || {
        (
            random.natural(0, most) * step,
            random.natural(0, most) * step,
        )
    });
    sound(random, places)
}

/// Places on one circle, large ones among them, some of them a unit off it, with some inside.
fn near_circle(random: &mut Random) -> Survey {
    let (radius, scale) = random.pick(&[
        (5, 800),
        (25, 1),
        (65, 60),
        (325, 12),
        (1105, 3),
        (1625, 2),
        (2665, 1),
        (3145, 1),
        (3485, 1),
    ]);
    let mut places = on_circle(radius, scale);
    random.shuffle(&mut places);
    places.truncate(random.within(4, 108) as usize);
    let moved_in = random.pick(&[4, 10, 1000]);
    for (x, y) in &mut places {
        if random.once_in(moved_in) {
            *(if random.once_in(2) { x } else { y }) ^= 1;
        }
    }
    let centre = (radius * scale) as u32;
    let near = random.pick(&[1, 2, centre / 2]);
    let inner = random.pick(&[0, 1, 1, 4, 30]);
    let mut within = || random.natural(centre - near, centre + near);
    places.extend(listed(inner, || (within(), within())));
    sound(random, places)
}

/// Stations along level fences, at nearly equal steps: the sweep leaves slivers between the rows.
fn rows(random: &mut Random) -> Survey {
    let rows = random.natural(2, 9);
    let n = random.natural(4, 30);
    let step = random.natural(1, MOST_COORDINATE / n - 1);
    let apart = random.natural(1, MOST_COORDINATE / rows - 8);
    let off = random.pick(&[0, 0, 1, 7]).min(step - 1);
    let mut places = Vec::new();
    for row in 0..rows {
        for along in 0..n {
            let (off_x, off_y) = (random.natural(0, off), random.natural(0, off));
            places.push((along * step + off_x, row * apart + off_y));
        }
    }
    sound(random, places)
}

/// The same survey with x and y in each other's place.
fn turned(survey: Survey) -> Survey {
    let Survey { x, y, .. } = survey;
    Survey {
        x: y,
        y: x,
        ..survey
    }
}

/// Two small clusters at two corners of the range: the triangles between them are long.
fn far_clusters(random: &mut Random) -> Survey {
    let width = random.pick(&[2, 9, 60]);
    let far = MOST_COORDINATE - width;
    let (across, up) = random.pick(&[(far, far), (far, 0), (0, far), (far, 11)]);
    let mut cluster = |x: u32, y: u32| {
        let n = random.within(3, 60) as usize;
        listed(n, || {
            (x + random.natural(0, width), y + random.natural(0, width))
        })
    };
    let places = [cluster(0, 0), cluster(across, up)].concat();
    sound(random, places)
}

/// Stations near a parabola that opens upward: nearly every side of the sweep is swapped, and most of those that come in its place
/// are swapped in their turn.
fn near_parabola(random: &mut Random) -> Survey {
    let half = random.within(2, 60);
    let off = random.pick(&[0, 1, 20]);
    let places = parabola(half, || random.natural(0, off));
    sound(random, places)
}

/// Places near a parabola, so many on either side of its axis.
pub fn parabola(half: i64, mut off: impl FnMut() -> u32) -> Vec<Place> {
    let most = i64::from(MOST_COORDINATE) - 20;
    let place = |i: i64| {
        let (along, up) = ((i + half) * most / (2 * half), i * i * most / (half * half));
        (along as u32, up as u32 + off())
    };
    (-half..half).map(place).collect()
}

/// Two upright columns, some of them long: the swaps are some eighth of the square of the count of stations.
fn two_columns(random: &mut Random) -> Survey {
    let n = if random.once_in(60) {
        300
    } else {
        random.natural(4, 120)
    };
    let step = random.natural(1, MOST_COORDINATE / n);
    let apart = random.natural(1, MOST_COORDINATE);
    sound(random, columns(n, step, apart))
}

/// Places by turns in one column and in another.
pub fn columns(n: u32, step: u32, apart: u32) -> Vec<Place> {
    (0..n).map(|i| (i % 2 * apart, i * step)).collect()
}
