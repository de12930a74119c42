//! The mesh of either kind, beside the hull that is defined without it.

mod common;

use common::*;
use second::{hull_sides, twice_hull_area};
use std::collections::HashSet;

/// 'in run order' holds with c left of a run of three as well as right of it.
#[test]
fn the_first_triangles_come_in_run_order_on_both_sides_of_the_run() {
    let left = Survey::of(&[(0, 0), (1, 0), (2, 0), (2, 3)], &[0; 4]);
    assert_eq!(triangles(&left, 0), [[0, 1, 3], [1, 2, 3]]);
    let right = Survey::of(&[(0, 0), (0, 1), (0, 2), (3, 2)], &[0; 4]);
    assert_eq!(triangles(&right, 0), [[0, 3, 1], [1, 3, 2]]);
}

/// The order is by place, whatever the numbers: here the run is 3, 1, 2, and c is 0.
#[test]
fn stations_are_taken_by_rising_x_then_rising_y() {
    let s = Survey::of(&[(5, 0), (1, 4), (1, 9), (1, 2)], &[0; 4]);
    assert_eq!(triangles(&s, 0), [[0, 1, 3], [0, 2, 1]]);
}

/// After (0,0), (0,4), (4,0) and (4,4), the station (8,0) is in line with the side from (0,0) to (4,0):
/// only the side from (4,0) to (4,4) is seen. Then (8,4) sees the side from (8,0) to (4,4) and not the one
/// from (4,4) to (0,4).
#[test]
fn a_hull_side_in_line_with_the_next_station_is_not_seen() {
    let s = Survey::of(&[(0, 0), (0, 4), (4, 0), (4, 4), (8, 0), (8, 4)], &[0; 6]);
    let expected = [[0, 2, 1], [1, 2, 3], [2, 4, 3], [3, 4, 5]];
    assert_eq!(triangles(&s, 0), expected);
    assert_eq!(hull_sides(&s.x, &s.y).len(), 6);
}

/// The hull of (0,1), (1,0), (1,2) seen from (9,1): the two sides from (1,0) to (1,2) and no other if a
/// station stands at (1,1), and they come counterclockwise, the lower first.
#[test]
fn seen_sides_come_counterclockwise() {
    let s = Survey::of(&[(9, 1), (0, 1), (1, 0), (1, 1), (1, 2)], &[0; 5]);
    let expected = [[1, 2, 3], [1, 3, 4], [0, 3, 2], [0, 4, 3]];
    assert_eq!(triangles(&s, 0), expected);
}

#[test]
fn the_hull_counts_stations_in_the_middle_of_a_straight_side() {
    let s = Survey::of(
        &[(0, 0), (4, 0), (8, 0), (0, 8), (8, 8), (4, 4), (8, 3)],
        &[0; 7],
    );
    let expected = [(0, 1), (1, 2), (2, 6), (3, 0), (4, 3), (6, 4)];
    assert_eq!(hull_sides(&s.x, &s.y), expected);
    assert_eq!(twice_hull_area(&s.x, &s.y), 128);
}

#[test]
fn a_triangle_is_its_own_hull() {
    let s = example();
    assert_eq!(hull_sides(&s.x, &s.y), [(0, 1), (1, 2), (2, 0)]);
    assert_eq!(twice_hull_area(&s.x, &s.y), 64);
}

/// Each survey with each kind of mesh.
fn both_kinds(surveys: Vec<Survey>) -> Vec<(Survey, u32)> {
    let with_kinds = |s: Survey| KINDS.map(|kind| (s.clone(), kind));
    surveys.into_iter().flat_map(with_kinds).collect()
}

#[test]
fn twice_the_areas_are_positive_and_sum_to_twice_the_hulls() {
    for (s, kind) in both_kinds(Random::new(3).surveys(400)) {
        let areas: Vec<i64> = triangles(&s, kind)
            .iter()
            .map(|&[a, b, c]| station_turn(&s, a, b, c))
            .collect();
        assert!(areas.iter().all(|&area| area > 0), "{s:?}");
        assert_eq!(
            areas.iter().sum::<i64>(),
            twice_hull_area(&s.x, &s.y),
            "{s:?}"
        );
    }
}

/// 'With b stations on the hull's edge there are 2n-b-2 triangles and 3n-b-3 sides'.
#[test]
fn triangles_and_sides_are_counted_by_n_and_b() {
    for (s, kind) in both_kinds(Random::new(4).surveys(400)) {
        let (n, b) = (s.n(), hull_sides(&s.x, &s.y).len());
        let triangles = triangles(&s, kind);
        assert_eq!(triangles.len(), 2 * n - b - 2, "{s:?}");
        let sides: HashSet<(usize, usize)> = directed(&triangles)
            .into_iter()
            .map(|(a, b)| (a.min(b), a.max(b)))
            .collect();
        assert_eq!(sides.len(), 3 * n - b - 3, "{s:?}");
    }
}

fn directed(triangles: &[[usize; 3]]) -> Vec<(usize, usize)> {
    triangles
        .iter()
        .flat_map(|&[a, b, c]| [(a, b), (b, c), (c, a)])
        .collect()
}

/// The sides that only one triangle has are the hull's; every other side has a triangle on either hand.
#[test]
fn each_side_goes_once_each_way_and_hull_sides_once() {
    for (s, kind) in both_kinds(Random::new(5).surveys(400)) {
        let list = directed(&triangles(&s, kind));
        let set: HashSet<(usize, usize)> = list.iter().copied().collect();
        assert_eq!(set.len(), list.len(), "{s:?}");
        let mut single: Vec<(usize, usize)> = list
            .into_iter()
            .filter(|&(a, b)| !set.contains(&(b, a)))
            .collect();
        single.sort();
        assert_eq!(single, hull_sides(&s.x, &s.y), "{s:?}");
    }
}

#[test]
fn the_lowest_station_comes_first_and_every_station_is_a_corner() {
    for (s, kind) in both_kinds(Random::new(6).surveys(400)) {
        let triangles = triangles(&s, kind);
        assert!(triangles.iter().all(|t| t[0] < t[1] && t[0] < t[2]));
        let corners: HashSet<usize> = triangles.iter().flatten().copied().collect();
        assert_eq!(corners.len(), s.n());
    }
}

#[test]
fn the_mesh_does_not_depend_on_heights() {
    for (s, kind) in both_kinds(Random::new(7).surveys(60)) {
        let flat = Survey {
            z: vec![0; s.n()],
            ..s.clone()
        };
        assert_eq!(triangles(&flat, kind), triangles(&s, kind));
    }
}

#[test]
fn the_largest_survey_is_meshed() {
    let s = Random::new(8).survey(1024, 8192, 32767);
    let b = hull_sides(&s.x, &s.y).len();
    for kind in KINDS {
        let triangles = triangles(&s, kind);
        assert_eq!(triangles.len(), 2 * 1024 - b - 2);
        let sum: i64 = triangles
            .iter()
            .map(|&[a, b, c]| station_turn(&s, a, b, c))
            .sum();
        assert_eq!(sum, twice_hull_area(&s.x, &s.y));
    }
}
