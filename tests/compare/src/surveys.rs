//! Families of surveys that every job accepts. `spoiled` has those that some job refuses.

use crate::random::Random;
use crate::run::Maker;
use std::collections::HashSet;

/// The numbers handed to a job: the lists of a survey, a level and a style.
#[derive(Clone, Debug, PartialEq)]
pub struct Survey {
    pub x: Vec<u32>,
    pub y: Vec<u32>,
    pub z: Vec<i32>,
    pub level: i32,
    pub style: u32,
    /// Which of 0 to 4 the lists give, where the way they were made decides it.
    pub number: Option<u32>,
}

pub type Place = (u32, u32);

/// The limits of document 01.
pub const MOST_STATIONS: usize = 1024;
pub const MOST_COORDINATE: u32 = 8191;
pub const MOST_HEIGHT: i32 = 32767;

pub const SOUND: &[Maker<Survey>] = &[
    ("uniform", uniform),
    ("lattice", lattice),
    ("equal x", columns),
    ("slivers", slivers),
    ("middles of hull sides", middles),
    ("powers of two", powers_of_two),
    ("slopes at a half", half_slopes),
    ("on one circle", circle),
    ("equal heights", flat),
    ("heights at the level", at_level),
    ("steep clusters far apart", clusters),
    ("sums past a power of two", past_a_power),
    ("extremes", extremes),
    ("all but one on a line", all_but_one),
    ("3 to 6 stations", few),
    ("1,024 stations", full),
];

fn uniform(random: &mut Random) -> Survey {
    let n = count(random);
    let places = scattered(random, n);
    sound(random, places)
}

/// A grid of equal steps with some of its places left out: many stations in line, whichever way one looks.
fn lattice(random: &mut Random) -> Survey {
    let (columns, rows) = (random.natural(2, 16), random.natural(2, 16));
    let (step_x, step_y) = (random.natural(1, 500), random.natural(1, 500));
    let kept_in = random.natural(1, 8) as usize;
    let mut places = Vec::new();
    for column in 0..columns {
        for row in 0..rows {
            if kept_in == 1 || !random.once_in(kept_in) {
                places.push((column * step_x, row * step_y));
            }
        }
    }
    sound(random, places)
}

/// Few different x, so that the first run of the mesh is long.
fn columns(random: &mut Random) -> Survey {
    let n = count(random);
    let first = random.natural(0, MOST_COORDINATE - 3);
    let last = first + random.natural(0, 3);
    let high = random.natural(n as u32, MOST_COORDINATE);
    let places = listed(n, || (random.natural(first, last), random.natural(0, high)));
    sound(random, places)
}

/// Places within a unit of a sloping line.
fn slivers(random: &mut Random) -> Survey {
    let n = count(random);
    let (dx, dy) = (random.natural(0, 20), random.natural(1, 20));
    let most = MOST_COORDINATE / 20 - 2;
    let places = listed(n, || {
        let step = random.natural(0, most);
        let (off_x, off_y) = (random.natural(0, 1), random.natural(0, 1));
        (step * dx + off_x, step * dy + off_y)
    });
    sound(random, places)
}

/// A parallelogram with stations along its sides, and some within.
fn middles(random: &mut Random) -> Survey {
    let most = random.pick(&[3, 30, 200]);
    let mut step = || (random.natural(0, most), random.natural(0, most));
    let (u, v) = (step(), step());
    let (rows, columns) = (random.natural(1, 12), random.natural(1, 12));
    let mut places = Vec::new();
    for i in 0..=rows {
        for j in 0..=columns {
            let on_edge = i == 0 || i == rows || j == 0 || j == columns;
            if on_edge || random.once_in(10) {
                places.push((i * u.0 + j * v.0, i * u.1 + j * v.1));
            }
        }
    }
    sound(random, places)
}

/// Few places of a grid whose steps are powers of two: quotients over their areas are often halves.
fn powers_of_two(random: &mut Random) -> Survey {
    let n = random.within(3, 12) as usize;
    let (step_x, step_y) = (1 << random.below(11), 1 << random.below(11));
    let places = listed(n, || {
        (random.natural(0, 7) * step_x, random.natural(0, 7) * step_y)
    });
    sound(random, places)
}

/// Three stations in a plane whose q, or whose p, is an odd half of either sign: the first at (0, 0) with height 0, from which NZ =
/// dx1·dy2 - dy1·dx2 is a multiple of 2^17, and NY = dz1·dx2 - dx1·dz2 an odd multiple of NZ/2^17, so that 65,536·NY/NZ is half of that
/// odd number.
fn half_slopes(random: &mut Random) -> Survey {
    const UNIT: i64 = 1 << 17;
    loop {
        let mut odd = |most: i64| 2 * random.within(0, most / 2) + 1;
        let (dx1, dx2, half) = (odd(8190), odd(8190), odd(2000) - 1000);
        let dy2 = random.within(0, i64::from(MOST_COORDINATE));
        let Some(dy1) = factor(dx1 * dy2, dx2, UNIT) else {
            continue;
        };
        let ny = (dx1 * dy2 - dy1 * dx2) / UNIT * half;
        let Some(dz2) = factor(-ny, dx1, dx2) else {
            continue;
        };
        let dz1 = (ny + dx1 * dz2) / dx2;
        if ny == 0 || dz1.abs() > i64::from(MOST_HEIGHT) {
            continue;
        }
        let mut places = [(0, 0), (dx1 as u32, dy1 as u32), (dx2 as u32, dy2 as u32)];
        if random.once_in(2) {
            places = places.map(|(x, y)| (y, x));
        }
        let mut survey = measured(random, &places, Some(0));
        survey.z = vec![0, dz1 as i32, dz2 as i32];
        return survey;
    }
}

/// The least number up to 8,191 that, times b, is a but for a multiple of m.
fn factor(a: i64, b: i64, m: i64) -> Option<i64> {
    (0..=i64::from(MOST_COORDINATE)).find(|&number| (b * number - a) % m == 0)
}

/// Whole places at one whole distance from a centre, exactly; the radii are those with many such places. The centre
/// itself joins them at times.
fn circle(random: &mut Random) -> Survey {
    let radius: i64 = random.pick(&[5, 25, 65, 85, 325, 1105]);
    let scale = random.within(1, 3);
    let far = radius * scale;
    let mut places = on_circle(radius, scale);
    if random.once_in(4) {
        places.push((far as u32, far as u32));
    }
    random.shuffle(&mut places);
    places.truncate(random.within(3, 120) as usize);
    sound(random, places)
}

/// The whole places at a whole distance from a centre, the scale times as far: the circle touches both axes.
pub fn on_circle(radius: i64, scale: i64) -> Vec<Place> {
    let far = radius * scale;
    let mut places = Vec::new();
    for a in -radius..=radius {
        let b = ((radius * radius - a * a) as f64).sqrt().round() as i64;
        if a * a + b * b == radius * radius {
            places.push(((far + a * scale) as u32, (far + b * scale) as u32));
            places.push(((far + a * scale) as u32, (far - b * scale) as u32));
        }
    }
    places
}

fn flat(random: &mut Random) -> Survey {
    let mut survey = uniform(random);
    let height = random.pick(&[0, 1, -1, 500, MOST_HEIGHT, -MOST_HEIGHT]);
    survey.z.fill(height);
    survey.level = (height + random.whole(-1, 1)).clamp(-MOST_HEIGHT, MOST_HEIGHT);
    survey
}

/// Every height is the level or next to it.
fn at_level(random: &mut Random) -> Survey {
    let mut survey = uniform(random);
    survey.level = random.whole(1 - MOST_HEIGHT, MOST_HEIGHT - 1);
    for height in &mut survey.z {
        *height = survey.level + random.whole(-1, 1);
    }
    survey
}

/// The ends of every range.
fn extremes(random: &mut Random) -> Survey {
    let n = count(random);
    const ENDS: [u32; 5] = [0, 1, 4096, MOST_COORDINATE - 1, MOST_COORDINATE];
    const HEIGHTS: [i32; 5] = [
        -MOST_HEIGHT,
        1 - MOST_HEIGHT,
        0,
        MOST_HEIGHT - 1,
        MOST_HEIGHT,
    ];
    let places = listed(n, || (random.pick(&ENDS), random.pick(&ENDS)));
    let mut survey = sound(random, places);
    for height in &mut survey.z {
        *height = random.pick(&HEIGHTS);
    }
    survey.level = random.pick(&HEIGHTS);
    survey
}

/// Few stations close together in three or four corners of the range: the slopes are steep, some up to their cut, and the triangles
/// between the corners as wide as they can be, so that a height needs more digits than an f64 has, and each rounding shows.
fn clusters(random: &mut Random) -> Survey {
    const WIDTH: u32 = 2;
    const FAR: u32 = MOST_COORDINATE - WIDTH;
    let mut corners = [(0, 0), (FAR, 0), (0, FAR), (FAR, FAR)];
    random.shuffle(&mut corners);
    let mut places = Vec::new();
    for &(x, y) in &corners[..random.within(3, 4) as usize] {
        for _ in 0..random.within(5, 7) {
            places.push((x + random.natural(0, WIDTH), y + random.natural(0, WIDTH)));
        }
    }
    let mut survey = sound(random, places);
    let most = random.pick(&[2500, 4000, 8000, MOST_HEIGHT]);
    for height in &mut survey.z {
        *height = random.whole(-most, most);
    }
    survey
}

/// A steep cluster and one station far off, which takes the sum p00 + p10 + p20 of the station that it is joined to just past a power of
/// two, by less than its own height: z2 less that sum, and z2 less its parts one by one, are then rounded at different places.
fn past_a_power(random: &mut Random) -> Survey {
    const WIDTH: u32 = 3;
    loop {
        let place = || (random.natural(0, WIDTH), random.natural(0, WIDTH));
        let mut places = distinct(listed(8, place));
        if places.len() < 5 || on_one_line(&places) {
            continue;
        }
        // The first station is the rightmost, which every station further right is joined to.
        places.sort_by(|a, b| b.cmp(a));
        let mut survey = measured(random, &places, Some(0));
        let most = random.pick(&[500, 1000, 2000, 4000]);
        for height in &mut survey.z {
            *height = random.whole(-most, most);
        }
        let slopes = second::slopes_of(&survey.x, &survey.y, &survey.z)[0];
        let (a, c, z) = step_past_a_power(random, slopes, survey.z[0]);
        survey.x.push(survey.x[0] + a);
        survey.y.push(survey.y[0] + c);
        survey.z.push(z);
        return survey;
    }
}

/// A step (a, c) from a station, and a height there, that take the sum past a power of two; any step, if these slopes have none soon. In
/// halves of a 65,536th the sum is a whole number, of which an f64 has all to 2^53.
fn step_past_a_power(random: &mut Random, slopes: [i64; 5], z: i32) -> (u32, u32, i32) {
    const MOST_STEP: i64 = MOST_COORDINATE as i64 - 3;
    const HEIGHT: i64 = 2 * 65536;
    let [p, q, r, s, t] = slopes;
    let sum = |a: i64, c: i64| {
        let second = r * a * a + 2 * s * a * c + t * c * c;
        second + 2 * (p * a + q * c) + HEIGHT * i64::from(z)
    };
    for _ in 0..20_000 {
        let a = random.within(1, MOST_STEP);
        let power = 1 << random.within(53, 56);
        let sign = random.pick(&[-1, 1]);
        let past = |c: i64| sign * sum(a, c) - power;
        // Between a step that is not past the power and one that is, two in a row.
        let (mut before, mut after) = (0, MOST_STEP);
        if past(before) >= 0 || past(after) < 0 {
            continue;
        }
        while after - before > 1 {
            let middle = (before + after) / 2;
            if past(middle) < 0 {
                before = middle;
            } else {
                after = middle;
            }
        }
        let least = (past(after) / HEIGHT + 1) as i32;
        if least <= MOST_HEIGHT {
            let height = random.whole(least, MOST_HEIGHT);
            return (a as u32, after as u32, sign as i32 * height);
        }
    }
    (1, 1, 0)
}

/// One station off a line, with any number: only the whole list tells this from refusal 4.
fn all_but_one(random: &mut Random) -> Survey {
    let n = count(random) - 1;
    let mut places = on_line(random, n);
    let (x, y) = random.pick(&places);
    let next = |c: u32| if c < MOST_COORDINATE { c + 1 } else { c - 1 };
    places.push((next(x), y));
    if on_one_line(&places) {
        *places.last_mut().expect("the station just put") = (x, next(y));
    }
    sound(random, places)
}

fn few(random: &mut Random) -> Survey {
    let n = random.within(3, 6) as usize;
    let most = random.pick(&[2, 3, 10]);
    let places = listed(n, || (random.natural(0, most), random.natural(0, most)));
    sound(random, places)
}

fn full(random: &mut Random) -> Survey {
    uniform_of(random, MOST_STATIONS)
}

/// A survey of n stations anywhere.
pub fn uniform_of(random: &mut Random, n: usize) -> Survey {
    let mut places = distinct(listed(2 * n, || anywhere(random)));
    places.truncate(n);
    sound(random, places)
}

/// How many stations a survey has: mostly few, so that many cases are run.
pub fn count(random: &mut Random) -> usize {
    match random.below(8) {
        0..=3 => random.within(3, 6) as usize,
        4..=6 => random.within(7, 40) as usize,
        _ => random.within(41, 300) as usize,
    }
}

/// So many entries.
pub fn listed<T>(n: usize, mut entry: impl FnMut() -> T) -> Vec<T> {
    (0..n).map(|_| entry()).collect()
}

fn anywhere(random: &mut Random) -> Place {
    (
        random.natural(0, MOST_COORDINATE),
        random.natural(0, MOST_COORDINATE),
    )
}

/// n places in a box of some width.
pub fn scattered(random: &mut Random, n: usize) -> Vec<Place> {
    let width = random.pick(&[20, 100, 1000, MOST_COORDINATE]);
    let corner = random.natural(0, MOST_COORDINATE - width);
    let place = || {
        (
            random.natural(0, width) + corner,
            random.natural(0, width) + corner,
        )
    };
    listed(n, place)
}

/// n places on one line, or as many as it has: upright, level or sloping, in any order.
pub fn on_line(random: &mut Random, n: usize) -> Vec<Place> {
    let (dx, dy) = random.pick(&[(0, 1), (1, 0), (1, 1), (2, 3), (7, 1), (1, 1000), (0, 40)]);
    let falling = random.once_in(2);
    let mut places: Vec<Place> = (0..=MOST_COORDINATE / dx.max(dy))
        .map(|step| (step * dx, step * dy))
        .map(|(x, y)| (x, if falling { MOST_COORDINATE - y } else { y }))
        .collect();
    random.shuffle(&mut places);
    places.truncate(n);
    places
}

/// The places, each once.
pub fn distinct(mut places: Vec<Place>) -> Vec<Place> {
    let mut earlier = HashSet::new();
    places.retain(|&place| earlier.insert(place));
    places
}

pub fn on_one_line(places: &[Place]) -> bool {
    let step = |from: Place, to: Place| {
        let along = |from: u32, to: u32| i64::from(to) - i64::from(from);
        (along(from.0, to.0), along(from.1, to.1))
    };
    places.iter().skip(2).all(|&place| {
        let (dx1, dy1) = step(places[0], places[1]);
        let (dx2, dy2) = step(places[0], place);
        dx1 * dy2 == dy1 * dx2
    })
}

/// An accepted survey at these places: repeated ones are left out, and others join them until there are three that are
/// not on one line.
pub fn sound(random: &mut Random, places: Vec<Place>) -> Survey {
    let mut places = distinct(places);
    places.truncate(MOST_STATIONS);
    while places.len() < 3 || on_one_line(&places) {
        places.push(anywhere(random));
        places = distinct(places);
    }
    random.shuffle(&mut places);
    measured(random, &places, Some(0))
}

/// The places with heights, and a level that some of them may have.
pub fn measured(random: &mut Random, places: &[Place], number: Option<u32>) -> Survey {
    let most = random.pick(&[3, 100, MOST_HEIGHT]);
    let z: Vec<i32> = places.iter().map(|_| random.whole(-most, most)).collect();
    let level = match random.below(3) {
        0 if !z.is_empty() => random.pick(&z),
        _ => random.whole(-most, most),
    };
    Survey {
        x: places.iter().map(|place| place.0).collect(),
        y: places.iter().map(|place| place.1).collect(),
        z,
        level,
        style: random.natural(0, 1),
        number,
    }
}
