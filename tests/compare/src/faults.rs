//! Faults that meet in one call of a job: every subset of them is a kind of input, and the order of the refusals says which of them
//! is answered.

use crate::random::Random;
use crate::run::Kind;
use crate::spoiled::{WRONG_COORDINATES, WRONG_HEIGHTS, WRONG_KINDS, WRONG_STYLES};
use crate::surveys::{
    distinct, measured, on_line, on_one_line, scattered, Place, Survey, MOST_COORDINATE,
    MOST_HEIGHT, MOST_STATIONS,
};
use second::{Refused, FATTER, SWEPT};
use Fault::*;

/// The faults of the jobs over a survey, in the order of their refusals, 1 to 6. Both the kind of mesh and what else is asked
/// for are 5.
#[derive(Clone, Copy, Debug, PartialEq)]
pub enum Fault {
    Count,
    Range,
    SamePlace,
    OneLine,
    MeshKind,
    Asked,
    Room,
}

pub const CHECK: &[Fault] = &[Count, Range, SamePlace, OneLine];

/// The slopes take nothing beside the survey.
pub const BARE: &[Fault] = &[Count, Range, SamePlace, OneLine, Room];

/// The mesh takes its kind, and no level, place or style.
pub const MESH: &[Fault] = &[Count, Range, SamePlace, OneLine, MeshKind, Room];

pub const WHOLE: &[Fault] = &[Count, Range, SamePlace, OneLine, MeshKind, Asked, Room];

/// Every subset of the faults of a job, the empty one too, each named by the faults in it.
pub fn subsets<F: Copy + std::fmt::Debug>(faults: &[F]) -> Vec<Kind<Vec<F>>> {
    (0..1usize << faults.len())
        .map(|chosen| {
            let subset: Vec<F> = (0..faults.len())
                .filter(|fault| chosen >> fault & 1 == 1)
                .map(|fault| faults[fault])
                .collect();
            (format!("{subset:?}"), subset)
        })
        .collect()
}

/// What a job is called with, and what the order of the refusals then gives.
#[derive(Clone, Debug, PartialEq)]
pub struct Call {
    pub survey: Survey,
    pub kind: u32,
    pub place: Place,
    pub rooms: Rooms,
    pub expected: Result<(), Refused>,
}

/// How long the rooms are lent.
#[derive(Clone, Debug, PartialEq)]
pub enum Rooms {
    /// So many entries longer than needed.
    Longer(usize),
    /// One of them one entry too short, the others longer.
    OneShort(usize),
    /// One of them without an entry.
    OneEmpty(usize),
    AllShort,
    AllEmpty,
}

/// How much longer than needed a room is lent.
const LONGER: usize = 3;

impl Rooms {
    pub fn chosen(random: &mut Random, short: bool) -> Rooms {
        if !short {
            return Rooms::Longer(random.pick(&[0, 0, 1, LONGER]));
        }
        let which = random.below(60);
        match random.below(6) {
            0..=2 => Rooms::OneShort(which),
            3 => Rooms::OneEmpty(which),
            4 => Rooms::AllShort,
            _ => Rooms::AllEmpty,
        }
    }

    pub fn lengths<const ROOMS: usize>(&self, needed: [usize; ROOMS]) -> [usize; ROOMS] {
        let one = |which: usize, length: fn(usize) -> usize| {
            let mut lengths = needed.map(|needed| needed + LONGER);
            lengths[which % ROOMS] = length(needed[which % ROOMS]);
            lengths
        };
        match *self {
            Rooms::Longer(longer) => needed.map(|needed| needed + longer),
            Rooms::OneShort(which) => one(which, |needed| needed.saturating_sub(1)),
            Rooms::OneEmpty(which) => one(which, |_| 0),
            Rooms::AllShort => needed.map(|needed| needed.saturating_sub(1)),
            Rooms::AllEmpty => [0; ROOMS],
        }
    }
}

/// A call of a job with these faults. 'The four jobs test 1, 2, 3, 4, 5, 6 in that order. The first that applies is given.'
pub fn call(faults: &Vec<Fault>, random: &mut Random) -> Call {
    let has = |fault: Fault| faults.contains(&fault);
    let count = has(Count).then(|| random.pick(&COUNTS));
    let n = match count {
        Some(count) => count.stations(random),
        None => stations(random),
    };
    let way = random.pick(&[Way::Level, Way::Upright, Way::Sloping]);
    let places = if has(OneLine) {
        way.places(random, n)
    } else {
        apart(random, n)
    };
    let mut survey = measured(random, &places, None);
    let pair = has(SamePlace)
        .then(|| put_at_one_place(random, &mut survey))
        .flatten();
    let beyond = has(Range)
        .then(|| put_beyond(random, &mut survey, has(OneLine).then_some(way), pair))
        .flatten();
    if let Some(Wrong::Lengths) = count {
        put_lengths(random, &mut survey);
    }
    let place = asked(random, &mut survey, has(Asked));
    let refused = |number: u32, at: usize| Refused {
        number,
        at: at as u32,
    };
    Call {
        rooms: Rooms::chosen(random, has(Room)),
        kind: if has(MeshKind) {
            random.pick(&WRONG_KINDS)
        } else {
            random.pick(&[SWEPT, FATTER])
        },
        survey,
        place,
        expected: match faults.first() {
            None => Ok(()),
            Some(Count) => Err(refused(1, 0)),
            Some(Range) => Err(refused(2, beyond.unwrap_or(0))),
            Some(SamePlace) => Err(refused(3, pair.map_or(0, |(_, later)| later))),
            Some(OneLine) => Err(refused(4, 0)),
            Some(MeshKind | Asked) => Err(refused(5, 0)),
            Some(Room) => Err(refused(6, 0)),
        },
    }
}

/// 1: 'x, y, z lists differ in length, or the count isn't 3 to 1,024'.
#[derive(Clone, Copy, Debug, PartialEq)]
pub enum Wrong {
    Lengths,
    Few,
    Many,
}

pub const COUNTS: [Wrong; 3] = [Wrong::Lengths, Wrong::Few, Wrong::Many];

impl Wrong {
    pub fn stations(self, random: &mut Random) -> usize {
        match self {
            Wrong::Lengths => stations(random),
            Wrong::Few => random.pick(&[0, 1, 2, 2]),
            Wrong::Many => MOST_STATIONS + random.pick(&[1, 1, 2, 40]),
        }
    }
}

/// Few stations, so that many calls are made; at times the fewest or the most.
fn stations(random: &mut Random) -> usize {
    match random.below(80) {
        0 => MOST_STATIONS,
        1..=9 => 3,
        _ => random.within(4, 11) as usize,
    }
}

/// Makes one list, or two of them, longer.
pub fn put_lengths(random: &mut Random, survey: &mut Survey) {
    let length = survey.x.len() + 1 + random.below(3);
    let longer = random.within(1, 6);
    if longer & 1 != 0 {
        survey.x.resize(length, 7);
    }
    if longer & 2 != 0 {
        survey.y.resize(length, 9);
    }
    if longer & 4 != 0 {
        survey.z.resize(length, 1);
    }
}

/// So many different places, which are not all on one line if there are three.
fn apart(random: &mut Random, n: usize) -> Vec<Place> {
    if n > FEW {
        let mut places: Vec<Place> = (0..n as u32)
            .map(|i| (3 * (i % 64), 5 * (i / 64)))
            .collect();
        random.shuffle(&mut places);
        return places;
    }
    loop {
        let places = distinct(scattered(random, n));
        if places.len() == n && (n < 3 || !on_one_line(&places)) {
            return places;
        }
    }
}

/// Up to so many stations have places of any kind; more stand on a grid.
const FEW: usize = 20;

/// Which way a line of stations goes.
#[derive(Clone, Copy, Debug, PartialEq)]
enum Way {
    Level,
    Upright,
    Sloping,
}

impl Way {
    /// So many different places on one line.
    fn places(self, random: &mut Random, n: usize) -> Vec<Place> {
        let across = random.natural(0, MOST_COORDINATE);
        let step = random.pick(&[1, 2, 7]);
        let mut along: Vec<u32> = (0..=MOST_COORDINATE).step_by(step).take(2 * n).collect();
        random.shuffle(&mut along);
        along.truncate(n);
        match self {
            Way::Level => along.into_iter().map(|x| (x, across)).collect(),
            Way::Upright => along.into_iter().map(|y| (across, y)).collect(),
            Way::Sloping if n <= 9 => on_line(random, n),
            Way::Sloping => along
                .into_iter()
                .map(|c| (c, MOST_COORDINATE - c))
                .collect(),
        }
    }
}

/// 3: 'two stations at one place', and its 'lowest station equal to an earlier one', the second of the pair: those before it stand
/// apart, and some after it are moved to earlier ones too.
fn put_at_one_place(random: &mut Random, survey: &mut Survey) -> Option<(usize, usize)> {
    let n = survey.x.len();
    if n < 2 {
        return None;
    }
    let (earlier, later) = pair_below(random, n);
    let mut put = |from: usize, to: usize| {
        survey.x[to] = survey.x[from];
        survey.y[to] = survey.y[from];
    };
    put(earlier, later);
    if later + 1 < n && random.once_in(2) {
        put(
            random.below(later),
            random.within(later as i64 + 1, n as i64 - 1) as usize,
        );
    }
    Some((earlier, later))
}

/// Two different numbers below n, the lower first; the first and the last are often among them.
pub fn pair_below(random: &mut Random, n: usize) -> (usize, usize) {
    let later = match random.below(4) {
        0 => n - 1,
        1 => 1,
        _ => 1 + random.below(n - 1),
    };
    let earlier = random.below(later);
    let earlier = random.pick(&[0, later - 1, earlier]);
    (earlier, later)
}

/// `put_beyond` where no station is on a line or at the place of another.
pub fn put_beyond_any(random: &mut Random, survey: &mut Survey) -> Option<usize> {
    put_beyond(random, survey, None, None)
}

/// 2: 'a coordinate or height out of range', and the 'lowest such station'. Stations on one line stay there, and a pair at one
/// place stays together.
fn put_beyond(
    random: &mut Random,
    survey: &mut Survey,
    way: Option<Way>,
    pair: Option<(usize, usize)>,
) -> Option<usize> {
    let n = survey.x.len();
    if n == 0 {
        return None;
    }
    let mut lowest = n;
    for _ in 0..random.within(1, 3) {
        let station = match random.below(4) {
            0 => 0,
            1 => n - 1,
            _ => random.below(n),
        };
        let paired = pair.is_some_and(|(earlier, later)| station == earlier || station == later);
        let list = match way {
            _ if paired => 2,
            Some(Way::Level) => random.pick(&[0, 2]),
            Some(Way::Upright) => random.pick(&[1, 2]),
            Some(Way::Sloping) => 2,
            None => random.below(3),
        };
        match list {
            0 => survey.x[station] = random.pick(&WRONG_COORDINATES),
            1 => survey.y[station] = random.pick(&WRONG_COORDINATES),
            _ => survey.z[station] = random.pick(&WRONG_HEIGHTS),
        }
        lowest = lowest.min(station);
    }
    Some(lowest)
}

/// What a job is asked for beside the survey. 5: 'level, place, level list or style out of range': one number alone, or both
/// that a job takes. What is not to be wrong is often at an end of its range.
fn asked(random: &mut Random, survey: &mut Survey, wrong: bool) -> Place {
    if random.once_in(3) {
        survey.level = random.pick(&[-MOST_HEIGHT, MOST_HEIGHT]);
    }
    for height in &mut survey.z {
        if height.unsigned_abs() <= MOST_HEIGHT.unsigned_abs() && random.once_in(8) {
            *height = random.pick(&[-MOST_HEIGHT, MOST_HEIGHT]);
        }
    }
    let mut coordinate = |list: &[u32]| match random.below(3) {
        0 => random.pick(&[0, MOST_COORDINATE]),
        1 if !list.is_empty() => random.pick(list).min(MOST_COORDINATE),
        _ => random.natural(0, MOST_COORDINATE),
    };
    let mut place = (coordinate(&survey.x), coordinate(&survey.y));
    if wrong {
        let which = random.pick(&[1, 1, 2, 2, 3]);
        if which & 1 != 0 {
            survey.level = random.pick(&WRONG_HEIGHTS);
            place.0 = random.pick(&WRONG_COORDINATES);
        }
        if which & 2 != 0 {
            survey.style = random.pick(&WRONG_STYLES);
            place.1 = random.pick(&WRONG_COORDINATES);
        }
    }
    place
}
