//! All lists of few triangles over a few stations, handed in as meshes.

use crate::agree::holds;
use crate::over::check_mesh;
use crate::run::{compared, Difference, Outcome, Part};
use crate::supplied::{Supplied, Triangle};
use crate::surveys::{Place, Survey};

/// The places of a few stations, and the lists over them.
type Lists = (&'static [Place], fn() -> Vec<Vec<u16>>);

const LISTS: [(&str, Lists); 9] = [
    ("three", (&[(0, 0), (8, 0), (0, 8)], numbers)),
    (
        "a square",
        (&[(0, 0), (8, 0), (0, 8), (8, 8)], lists_over_four),
    ),
    (
        "one inside three",
        (&[(3, 3), (9, 0), (0, 9), (0, 0)], lists_over_four),
    ),
    (
        "one between two of three",
        (&[(0, 0), (8, 0), (4, 0), (0, 8)], lists_over_four),
    ),
    (
        "one inside a square",
        (&[(0, 0), (8, 0), (0, 8), (8, 8), (4, 4)], lists_over_five),
    ),
    (
        "three in line, two beside",
        (&[(0, 8), (4, 8), (8, 8), (4, 16), (4, 0)], lists_over_five),
    ),
    (
        "two inside three",
        (&[(0, 0), (30, 0), (0, 30), (5, 7), (8, 6)], lists_over_five),
    ),
    (
        "two between two of three",
        (&[(0, 9), (6, 3), (9, 0), (3, 6), (0, 0)], lists_over_five),
    ),
    (
        "five around",
        (&[(3, 0), (7, 1), (8, 6), (4, 9), (0, 5)], lists_over_five),
    ),
];

pub fn meshes(between: String) -> Part {
    Part::once("every-list", between, &LISTS, tried)
}

/// All lists of up to seven numbers, of which 3 and the last one are no stations.
fn numbers() -> Vec<Vec<u16>> {
    lists(7, &[[0], [1], [2], [3], [u16::MAX]])
}

/// All lists of up to two triangles of any numbers to 4, which is no station, and of three triangles of stations.
fn lists_over_four() -> Vec<Vec<u16>> {
    let all: Vec<Triangle> = triples(5).collect();
    let stations: Vec<Triangle> = triples(4).collect();
    let mut made = lists(2, &all);
    made.extend(
        lists(3, &stations)
            .into_iter()
            .filter(|list| list.len() == 9),
    );
    made
}

/// The twenty triangles of five stations, clockwise ones too, each from its lowest station: all lists of up to three of them, and all sets
/// of four and of five, in one order and in the other.
fn lists_over_five() -> Vec<Vec<u16>> {
    let lowest_first = |&[a, b, c]: &Triangle| a < b && a < c && b != c;
    let triangles: Vec<Triangle> = triples(5).filter(lowest_first).collect();
    let mut made = lists(3, &triangles);
    for set in 0..1u32 << triangles.len() {
        if (4..=5).contains(&set.count_ones()) {
            let has = |triangle: &usize| set >> triangle & 1 == 1;
            let members = (0..triangles.len())
                .filter(has)
                .map(|member| triangles[member]);
            let members: Vec<Triangle> = members.collect();
            made.push(members.concat());
            made.push(members.into_iter().rev().collect::<Vec<_>>().concat());
        }
    }
    made
}

/// All triples of numbers below the bound.
fn triples(bound: u16) -> impl Iterator<Item = Triangle> {
    let below = move || 0..bound;
    below().flat_map(move |a| below().flat_map(move |b| below().map(move |c| [a, b, c])))
}

/// All lists of up to so many members, the empty one too.
fn lists<const LENGTH: usize>(most: usize, members: &[[u16; LENGTH]]) -> Vec<Vec<u16>> {
    let mut made = vec![vec![]];
    let mut from = 0;
    for _ in 0..most {
        let longer: Vec<Vec<u16>> = made[from..]
            .iter()
            .flat_map(|list| members.iter().map(|member| [list, &member[..]].concat()))
            .collect();
        from = made.len();
        made.extend(longer);
    }
    made
}

/// Compares what is said of each list, of which some have to be accepted and some not.
fn tried((places, lists): Lists) -> Outcome {
    let mut supplied = Supplied {
        survey: Survey {
            x: places.iter().map(|place| place.0).collect(),
            y: places.iter().map(|place| place.1).collect(),
            z: vec![0; places.len()],
            level: 0,
            style: 0,
            number: Some(0),
        },
        triangles: Vec::new(),
        right: None,
    };
    let mut accepted = 0;
    let all = lists();
    let count = all.len();
    for list in all {
        supplied.triangles = list;
        compared(&supplied, check_mesh)?;
        let Survey { x, y, z, .. } = &supplied.survey;
        accepted += usize::from(second::check_mesh(x, y, z, &supplied.triangles).is_ok());
    }
    holds(
        0 < accepted && accepted < count,
        "no list is accepted, or each is",
    )
    .map_err(|said| Difference {
        input: "all lists of the family".to_string(),
        said,
    })
}
