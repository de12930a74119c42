//! Families of meshes that are handed in over accepted surveys: right ones, and those with one damage or two.

use crate::random::Random;
use crate::run::{Kind, Maker};
use crate::spoiled::SPOILED;
use crate::surveys::{listed, measured, Survey, SOUND};
use crate::swaps::SWAPS;
use second::{FATTER, SWEPT};
use std::collections::HashMap;

/// A survey and the list of triangles that is handed in with it.
#[derive(Clone, Debug, PartialEq)]
pub struct Supplied {
    pub survey: Survey,
    pub triangles: Vec<u16>,
    /// Whether it is a mesh of the survey, where the way it was made decides it.
    pub right: Option<bool>,
}

pub type Triangle = [u16; 3];

/// Triangles one after another.
pub type List = Vec<Triangle>;

/// Changes the triangles of a right mesh and answers whether it did: then they are none.
type Damage = fn(&mut Random, &Survey, &mut List) -> bool;

const RIGHT: [Maker<Supplied>; 6] = [
    ("ours of kind 0", |random| ours(any(random), SWEPT)),
    ("ours of kind 1", |random| ours(any(random), FATTER)),
    ("other first corners", |random| made(random, turned)),
    ("in another order", |random| made(random, shuffled)),
    ("other diagonals", |random| made(random, flipped)),
    ("all of these", |random| made(random, remade)),
];

const DAMAGES: [(&str, Damage); 17] = [
    ("a number out of range", beyond),
    ("a triangle twice", twice),
    ("a triangle for another", twice_instead),
    ("turned over", turned_over),
    ("equal corners", equal_corners),
    ("three in line", in_line),
    ("three in line between right sides", flat),
    ("a station left out", left_out),
    ("a triangle left out", taken_out),
    ("a hull side left out", hull_side_out),
    ("an overlap of the same area", overlap),
    ("a side over a station", over_station),
    ("another corner", other_corner),
    ("the wrong diagonal", wrong_diagonal),
    ("one too many", one_too_many),
    ("many too many", many_too_many),
    ("as many as may be", as_many_as_may_be),
];

const OTHERS: [Maker<Supplied>; 4] = [
    ("two damages", two_damages),
    ("no whole triangles", no_whole_triangles),
    ("any numbers", any_numbers),
    ("no survey", no_survey),
];

/// How the meshes of a family are made.
#[derive(Clone, Copy)]
pub enum Made {
    By(fn(&mut Random) -> Supplied),
    Damaged(Damage),
}

fn by((name, make): Maker<Supplied>) -> Kind<Made> {
    (name.to_string(), Made::By(make))
}

/// Every family: right meshes, those of one damage each, and others.
pub fn kinds() -> Vec<Kind<Made>> {
    let damaged = DAMAGES.map(|(name, damage)| (name.to_string(), Made::Damaged(damage)));
    let right = RIGHT.into_iter().map(by);
    right.chain(damaged).chain(OTHERS.map(by)).collect()
}

/// The right meshes: for the quick test.
pub fn right_kinds() -> Vec<Kind<Made>> {
    RIGHT.map(by).to_vec()
}

/// Those of many sides that it cannot tell apart by their keys.
pub fn crowded_kinds() -> Vec<Kind<Made>> {
    vec![by(("rungs of one key", rungs))]
}

/// Those of which it depends on their order whether it can.
pub fn mixed_kinds() -> Vec<Kind<Made>> {
    vec![by(("rungs of one key in no order", |random| {
        let n = random.pick(&[300, 700, 1024]);
        let mut supplied = rungs_of(random, n);
        let mut triangles: Vec<&[u16]> = supplied.triangles.chunks(3).collect();
        random.shuffle(&mut triangles);
        supplied.triangles = triangles.concat();
        supplied
    }))]
}

/// The right meshes, and one family of all others: for the jobs, which make the same check.
pub fn few_kinds() -> Vec<Kind<Made>> {
    let others: Maker<Supplied> = ("no mesh", |random| {
        let kinds = kinds();
        let (_, made) = &kinds[RIGHT.len() + random.below(kinds.len() - RIGHT.len())];
        supplied(made, random)
    });
    RIGHT.into_iter().chain([others]).map(by).collect()
}

/// One mesh of a family. Not every survey has what a damage needs: others are tried, and few stations often have it.
pub fn supplied(made_by: &Made, random: &mut Random) -> Supplied {
    match *made_by {
        Made::By(make) => make(random),
        Made::Damaged(damage) => loop {
            if let Some(supplied) = damaged(random, damage) {
                return supplied;
            }
        },
    }
}

/// One of the damages; none where the survey does not have what it needs.
fn damaged_somehow(random: &mut Random) -> Supplied {
    let (_, damage) = random.pick(&DAMAGES);
    damaged(random, damage).unwrap_or_else(|| made(random, remade))
}

fn damaged(random: &mut Random, damage: Damage) -> Option<Supplied> {
    let survey = any(random);
    let mut triangles = triangles_of(&survey, random.pick(&[SWEPT, FATTER]));
    if random.once_in(2) {
        remade(random, &survey, &mut triangles);
    }
    damage(random, &survey, &mut triangles).then(|| Supplied {
        survey,
        triangles: triangles.concat(),
        right: Some(false),
    })
}

/// An accepted survey of any family, seldom with many stations.
fn any(random: &mut Random) -> Survey {
    loop {
        let makers = random.pick(&[SOUND, SWAPS]);
        let (_, make) = random.pick(makers);
        let survey = make(random);
        if survey.x.len() <= FEW || random.once_in(40) {
            return survey;
        }
    }
}

const FEW: usize = 60;

/// Above so many stations the mesh of kind 1 is not made, which takes long.
const MANY: usize = 130;

/// The triangles of our mesh of a kind.
pub fn triangles_of(survey: &Survey, kind: u32) -> List {
    let kind = if survey.x.len() <= MANY { kind } else { SWEPT };
    second::triangles_of(&survey.x, &survey.y, kind)
        .into_iter()
        .map(|corners| corners.map(|corner| corner as u16))
        .collect()
}

fn ours(survey: Survey, kind: u32) -> Supplied {
    let triangles = triangles_of(&survey, kind).concat();
    Supplied {
        survey,
        triangles,
        right: Some(true),
    }
}

/// A mesh of ours, of either kind, put another way.
fn made(random: &mut Random, put: fn(&mut Random, &Survey, &mut List)) -> Supplied {
    let survey = any(random);
    let mut triangles = triangles_of(&survey, random.pick(&[SWEPT, FATTER]));
    put(random, &survey, &mut triangles);
    Supplied {
        survey,
        triangles: triangles.concat(),
        right: Some(true),
    }
}

fn turned(random: &mut Random, _: &Survey, triangles: &mut List) {
    for triangle in triangles {
        triangle.rotate_left(random.below(3));
    }
}

fn shuffled(random: &mut Random, _: &Survey, triangles: &mut List) {
    random.shuffle(triangles);
}

/// Two triangles of a side that make a convex quadrilateral, cut by its other diagonal; some times over.
fn flipped(random: &mut Random, survey: &Survey, triangles: &mut List) {
    for _ in 0..random.within(1, 20) {
        if let Some(pair) = pair_of(random, triangles) {
            let (one, other) = pair.by_other_diagonal();
            if turn(survey, one) > 0 && turn(survey, other) > 0 {
                (triangles[pair.left], triangles[pair.right]) = (one, other);
            }
        }
    }
}

fn remade(random: &mut Random, survey: &Survey, triangles: &mut List) {
    flipped(random, survey, triangles);
    turned(random, survey, triangles);
    shuffled(random, survey, triangles);
}

fn rungs(random: &mut Random) -> Supplied {
    let n = random.pick(&[500, 700, 1024]);
    rungs_of(random, n)
}

/// The proved program looks for the sides that run back along a side from station a to station b by a + KEY b, up to multiples of KEYS. Here
/// two rows of stations, hundreds of them, are joined by rungs that all have the same such number, upward; the stations that have no rung go
/// on along the lower row. All triangles with a rung upward come first, so that all of these wait for those that run them back.
pub fn rungs_of(random: &mut Random, n: usize) -> Supplied {
    const KEY: usize = 509;
    const KEYS: usize = 2048;
    let shared = random.below(KEYS);
    let above: HashMap<usize, usize> = (0..n)
        .map(|b| ((shared + KEYS * KEY - KEY * b) % KEYS, b))
        .collect();
    let mut stations: Vec<usize> = (0..n).collect();
    random.shuffle(&mut stations);
    let mut free = vec![true; n];
    let (mut lower, mut upper) = (Vec::new(), Vec::new());
    for &a in &stations {
        if let Some(&b) = above.get(&a) {
            if a != b && free[a] && free[b] {
                (free[a], free[b]) = (false, false);
                lower.push(a);
                upper.push(b);
            }
        }
    }
    lower.extend(stations.into_iter().filter(|&station| free[station]));
    let mut places = vec![(0, 0); n];
    for (row, y) in [(&lower, 0), (&upper, 100)] {
        for (along, &station) in row.iter().enumerate() {
            places[station] = (4 * along as u32, y);
        }
    }
    let at = |row: &[usize], along: usize| row[along] as u16;
    let rungs = upper.len();
    let upward = (1..rungs).map(|j| [at(&lower, j), at(&upper, j), at(&upper, j - 1)]);
    let others = (1..n - rungs).map(|j| {
        [
            at(&lower, j - 1),
            at(&lower, j),
            at(&upper, (j - 1).min(rungs - 1)),
        ]
    });
    let triangles: List = upward.chain(others).collect();
    Supplied {
        survey: measured(random, &places, None),
        triangles: triangles.concat(),
        right: Some(true),
    }
}

/// Twice the area of a triangle, negative where its corners go clockwise.
fn turn(survey: &Survey, corners: Triangle) -> i64 {
    let [a, b, c] = corners.map(|corner| {
        let station = usize::from(corner);
        (i64::from(survey.x[station]), i64::from(survey.y[station]))
    });
    (b.0 - a.0) * (c.1 - a.1) - (b.1 - a.1) * (c.0 - a.0)
}

/// Two triangles, by their places in the list, on either side of the side from a to b; their far corners are c and d.
struct Pair {
    left: usize,
    right: usize,
    a: u16,
    b: u16,
    c: u16,
    d: u16,
}

impl Pair {
    fn by_other_diagonal(&self) -> (Triangle, Triangle) {
        let &Pair { a, b, c, d, .. } = self;
        ([a, d, c], [d, b, c])
    }
}

/// The three ways to write a triangle.
fn around([a, b, c]: Triangle) -> [Triangle; 3] {
    [[a, b, c], [b, c, a], [c, a, b]]
}

/// All pairs of triangles that have a side in common, each from either side.
fn pairs_of(triangles: &[Triangle]) -> Vec<Pair> {
    let mut sides = HashMap::new();
    for (number, &triangle) in triangles.iter().enumerate() {
        for [a, b, c] in around(triangle) {
            sides.insert((a, b), (number, c));
        }
    }
    let pair = |(number, &triangle): (usize, &Triangle)| {
        let sides = &sides;
        around(triangle).into_iter().filter_map(move |[a, b, c]| {
            let &(right, d) = sides.get(&(b, a))?;
            Some(Pair {
                left: number,
                right,
                a,
                b,
                c,
                d,
            })
        })
    };
    triangles.iter().enumerate().flat_map(pair).collect()
}

fn pair_of(random: &mut Random, triangles: &[Triangle]) -> Option<Pair> {
    one_of(random, pairs_of(triangles))
}

/// One entry of a list, if it has one.
fn one_of<T>(random: &mut Random, mut list: Vec<T>) -> Option<T> {
    if list.is_empty() {
        return None;
    }
    Some(list.swap_remove(random.below(list.len())))
}

/// The place of some triangle in the list.
fn some(random: &mut Random, triangles: &[Triangle]) -> usize {
    random.below(triangles.len())
}

fn beyond(random: &mut Random, survey: &Survey, triangles: &mut List) -> bool {
    let n = survey.x.len() as u16;
    let triangle = some(random, triangles);
    let corner = random.below(3);
    let number = triangles[triangle][corner];
    triangles[triangle][corner] = random.pick(&[
        n,
        n + 1,
        n + number,
        1024 + number,
        number | 1 << 15,
        u16::MAX - 1,
        u16::MAX,
    ]);
    true
}

fn twice(random: &mut Random, _: &Survey, triangles: &mut List) -> bool {
    let again = around(triangles[some(random, triangles)])[random.below(3)];
    triangles.insert(random.below(triangles.len() + 1), again);
    true
}

fn twice_instead(random: &mut Random, _: &Survey, triangles: &mut List) -> bool {
    let (one, other) = (some(random, triangles), some(random, triangles));
    triangles[one] = triangles[other];
    one != other
}

fn turned_over(random: &mut Random, _: &Survey, triangles: &mut List) -> bool {
    let triangle = some(random, triangles);
    triangles[triangle].swap(random.below(2), 2);
    true
}

fn equal_corners(random: &mut Random, _: &Survey, triangles: &mut List) -> bool {
    let triangle = some(random, triangles);
    let [a, b, c] = triangles[triangle];
    triangles[triangle] = random.pick(&[[a, a, c], [a, b, a], [a, b, b], [c, c, c]]);
    true
}

/// Three stations in line for a triangle, or beside all triangles.
fn in_line(random: &mut Random, survey: &Survey, triangles: &mut List) -> bool {
    let n = survey.x.len();
    for _ in 0..100 {
        let corners = [(); 3].map(|()| random.below(n) as u16);
        let [a, b, c] = corners;
        if a != b && b != c && c != a && turn(survey, corners) == 0 {
            let triangle = some(random, triangles);
            if random.once_in(2) {
                triangles[triangle] = corners;
            } else {
                triangles.insert(triangle, corners);
            }
            return true;
        }
    }
    false
}

/// Two triangles (p,s,q) and (s,r,q) with p, s and r in line, by their places in the list, and p, s, r, q.
fn straight_pairs(survey: &Survey, triangles: &[Triangle]) -> Vec<(usize, usize, [u16; 4])> {
    let straight = |pair: Pair| {
        // The pair's side runs from s to q, with p on its left and r on its right.
        let corners = [pair.c, pair.a, pair.d, pair.b];
        let in_line = turn(survey, [pair.c, pair.a, pair.d]) == 0;
        in_line.then_some((pair.left, pair.right, corners))
    };
    pairs_of(triangles)
        .into_iter()
        .filter_map(straight)
        .collect()
}

/// One triangle for two, with a station on its edge: the side passes over it.
fn over_station(random: &mut Random, survey: &Survey, triangles: &mut List) -> bool {
    let Some((one, other, [p, _, r, q])) = one_of(random, straight_pairs(survey, triangles)) else {
        return false;
    };
    triangles[one] = [p, r, q];
    triangles.remove(other);
    true
}

/// The same, with a triangle of no area between that side and the two that it takes the place of: each side is run once each way, or
/// is a side along the hull.
fn flat(random: &mut Random, survey: &Survey, triangles: &mut List) -> bool {
    let Some((one, other, [p, s, r, q])) = one_of(random, straight_pairs(survey, triangles)) else {
        return false;
    };
    triangles[one] = [p, r, q];
    triangles[other] = [p, s, r];
    turned(random, survey, triangles);
    true
}

/// One triangle for the three around a station.
fn left_out(random: &mut Random, survey: &Survey, triangles: &mut List) -> bool {
    let mut stations: Vec<u16> = (0..survey.x.len() as u16).collect();
    random.shuffle(&mut stations);
    for station in stations {
        let ends: Vec<(u16, u16)> = triangles
            .iter()
            .flat_map(|&triangle| around(triangle))
            .filter(|&[corner, ..]| corner == station)
            .map(|[_, from, to]| (from, to))
            .collect();
        let next = |from: u16| ends.iter().find(|end| end.0 == from).map(|end| end.1);
        if ends.len() == 3 && ends.iter().all(|&(_, to)| next(to).is_some()) {
            triangles.retain(|triangle| !triangle.contains(&station));
            let (a, b) = ends[0];
            let place = random.below(triangles.len() + 1);
            triangles.insert(place, [a, b, next(b).unwrap_or(a)]);
            return true;
        }
    }
    false
}

fn taken_out(random: &mut Random, _: &Survey, triangles: &mut List) -> bool {
    triangles.remove(some(random, triangles));
    true
}

fn hull_side_out(random: &mut Random, _: &Survey, triangles: &mut List) -> bool {
    let pairs = pairs_of(triangles);
    let beside = |number: usize| pairs.iter().filter(|pair| pair.left == number).count();
    let at_hull = (0..triangles.len()).filter(|&number| beside(number) < 3);
    let Some(number) = one_of(random, at_hull.collect()) else {
        return false;
    };
    triangles.remove(number);
    true
}

/// Another triangle of the same area, so that the sum is the hull's.
fn overlap(random: &mut Random, survey: &Survey, triangles: &mut List) -> bool {
    let n = survey.x.len();
    let triangle = some(random, triangles);
    let area = turn(survey, triangles[triangle]);
    for _ in 0..100 {
        let corners = [(); 3].map(|()| random.below(n) as u16);
        let is_same = corners
            .iter()
            .all(|corner| triangles[triangle].contains(corner));
        if !is_same && turn(survey, corners) == area {
            triangles[triangle] = corners;
            return true;
        }
    }
    false
}

fn other_corner(random: &mut Random, survey: &Survey, triangles: &mut List) -> bool {
    let triangle = some(random, triangles);
    let corner = random.below(3);
    let station = random.below(survey.x.len()) as u16;
    let changed = triangles[triangle][corner] != station;
    triangles[triangle][corner] = station;
    changed
}

/// Two triangles of a side cut by the other diagonal where they do not make a convex quadrilateral: one of them turns over, or has no
/// area.
fn wrong_diagonal(random: &mut Random, survey: &Survey, triangles: &mut List) -> bool {
    let not_convex = |pair: &Pair| {
        let (one, other) = pair.by_other_diagonal();
        turn(survey, one) <= 0 || turn(survey, other) <= 0
    };
    let pairs = pairs_of(triangles).into_iter().filter(not_convex);
    let Some(pair) = one_of(random, pairs.collect()) else {
        return false;
    };
    (triangles[pair.left], triangles[pair.right]) = pair.by_other_diagonal();
    true
}

/// 'at most 2n-5'
fn most(survey: &Survey) -> usize {
    2 * survey.x.len() - 5
}

fn one_too_many(random: &mut Random, survey: &Survey, triangles: &mut List) -> bool {
    repeat(random, triangles, most(survey) + 1)
}

fn many_too_many(random: &mut Random, survey: &Survey, triangles: &mut List) -> bool {
    let more = random.pick(&[2, 3, 100, 5000, 70_000]);
    repeat(random, triangles, most(survey) + more)
}

fn as_many_as_may_be(random: &mut Random, survey: &Survey, triangles: &mut List) -> bool {
    let more = triangles.len() < most(survey);
    repeat(random, triangles, most(survey)) && more
}

/// Puts some of the triangles again at the end, until there are so many.
fn repeat(random: &mut Random, triangles: &mut List, count: usize) -> bool {
    let made = triangles.len();
    while triangles.len() < count {
        triangles.push(triangles[random.below(made)]);
    }
    true
}

/// Two damages may undo each other.
fn two_damages(random: &mut Random) -> Supplied {
    let survey = any(random);
    let mut triangles = triangles_of(&survey, random.pick(&[SWEPT, FATTER]));
    remade(random, &survey, &mut triangles);
    for _ in 0..2 {
        let (_, damage) = random.pick(&DAMAGES);
        if !triangles.is_empty() && within(&survey, &triangles) {
            damage(random, &survey, &mut triangles);
        }
    }
    Supplied {
        survey,
        triangles: triangles.concat(),
        right: None,
    }
}

/// Are all numbers stations?
fn within(survey: &Survey, triangles: &[Triangle]) -> bool {
    let n = survey.x.len();
    triangles
        .iter()
        .flatten()
        .all(|&corner| usize::from(corner) < n)
}

/// Some numbers at the end too many or too few.
fn no_whole_triangles(random: &mut Random) -> Supplied {
    let mut supplied = if random.once_in(2) {
        made(random, remade)
    } else {
        damaged_somehow(random)
    };
    let triangles = &mut supplied.triangles;
    match random.below(3) {
        0 => triangles.truncate(
            triangles
                .len()
                .saturating_sub(random.natural(1, 2) as usize),
        ),
        1 => triangles.push(random.pick(&[0, 1, u16::MAX])),
        _ => triangles.extend([0, 1]),
    }
    supplied.right = Some(false);
    supplied
}

/// Numbers of stations, and some that no station has, in no order; also none at all.
fn any_numbers(random: &mut Random) -> Supplied {
    let survey = any(random);
    let n = survey.x.len();
    let length = random.below(3 * most(&survey) + 6);
    let stray = random.pick(&[5, 50, 1000]);
    let triangles = listed(length, || {
        if random.once_in(stray) {
            random.bits() as u16
        } else {
            random.below(n) as u16
        }
    });
    Supplied {
        survey,
        triangles,
        right: None,
    }
}

/// A survey that is refused, with numbers below its count.
fn no_survey(random: &mut Random) -> Supplied {
    let (_, make) = random.pick(SPOILED);
    let survey = make(random);
    let n = survey.x.len();
    let length = random.below(3 * n + 3);
    Supplied {
        triangles: listed(length, || random.below(n.max(1)) as u16),
        survey,
        right: None,
    }
}
