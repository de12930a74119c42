//! Faults that meet in a call that hands in a mesh: those of `faults` but a wrong kind, each set of them with a right mesh and with a
//! wrong one, whose refusal 9 'comes after 4'.

use crate::faults::{call, subsets, Call, Fault, CHECK};
use crate::random::Random;
use crate::run::Kind;
use crate::supplied::{triangles_of, List, Supplied, Triangle};
use second::Refused;
use Fault::*;

/// The faults of a job beside its mesh.
pub const WHOLE: &[Fault] = &[Count, Range, SamePlace, OneLine, Asked, Room];

/// The faults of a call beside its mesh, and whether that is right.
pub type Faults = (Vec<Fault>, bool);

pub fn kinds(faults: &[Fault]) -> Vec<Kind<Faults>> {
    let with_meshes = |(name, faults): Kind<Vec<Fault>>| {
        [
            (format!("{name}, a right mesh"), (faults.clone(), true)),
            (format!("{name}, a wrong mesh"), (faults, false)),
        ]
    };
    subsets(faults).into_iter().flat_map(with_meshes).collect()
}

/// A call, with the mesh that is handed in.
#[derive(Clone, Debug, PartialEq)]
pub struct Handing {
    pub call: Call,
    pub supplied: Supplied,
}

/// A call with these faults. A survey that is refused has no mesh: a fan of triangles is handed in with it.
pub fn handing((faults, right): &Faults, random: &mut Random) -> Handing {
    let mut call = call(faults, random);
    let survey = call.survey.clone();
    let n = survey.x.len();
    let is_survey = !faults.iter().any(|fault| CHECK.contains(fault));
    let mesh = if is_survey {
        triangles_of(&survey, call.kind)
    } else {
        (2..n as u16).map(|last| [0, last - 1, last]).collect()
    };
    let mut triangles = mesh.concat();
    if !right {
        let (spoiled, at) = spoiled(random, mesh, n);
        triangles = spoiled;
        if is_survey {
            let at = at as u32;
            call.expected = Err(Refused { number: 9, at });
        }
    }
    let supplied = Supplied {
        survey,
        triangles,
        right: None,
    };
    Handing { call, supplied }
}

/// The numbers of a wrong mesh, and what 9 carries for it: the count of whole triangles where that or the length is wrong, else the
/// first of the triangle that is changed and those that have a side with it.
fn spoiled(random: &mut Random, mut mesh: List, n: usize) -> (Vec<u16>, usize) {
    if mesh.is_empty() {
        return (vec![0], 0);
    }
    let most = 2 * n - 5;
    let changed = random.below(mesh.len());
    let corners = mesh[changed];
    match random.below(7) {
        0 => {
            let mut numbers = mesh.concat();
            numbers.resize(numbers.len() + random.pick(&[1, 2]), 0);
            return (numbers, mesh.len());
        }
        1 => mesh.resize(most + random.pick(&[1, 2, 50]), corners),
        2 => mesh.clear(),
        3 => mesh[changed] = [random.pick(&[n as u16, u16::MAX]); 3],
        4 => mesh[changed].swap(0, 2),
        5 => drop(mesh.remove(changed)),
        _ => mesh.insert(random.below(mesh.len() + 1), corners),
    }
    let beside = |triangle: &Triangle| {
        let shared = triangle.iter().filter(|corner| corners.contains(corner));
        shared.count() >= 2 || triangle.iter().any(|&corner| usize::from(corner) >= n)
    };
    let carried = match mesh.iter().position(beside) {
        Some(first) if mesh.len() <= most => first,
        _ => mesh.len(),
    };
    (mesh.concat(), carried)
}
