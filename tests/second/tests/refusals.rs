//! Refusals 1 to 6 of the jobs: when each is given, what it carries, and which comes first.

mod common;

use common::*;

/// The refusal, or done, of every job on one survey, in rooms that would be long enough for any survey.
fn every_job(s: &Survey, expected: Result<(), second::Refused>) {
    for (job, kind) in jobs_and_kinds() {
        let mut rooms = Rooms::new(1100, 0);
        let before = rooms.clone();
        assert_eq!(rooms.run(job, s, kind), expected, "{job:?} {kind}");
        if expected.is_err() {
            assert_eq!(rooms, before, "{job:?} leaves all lent memory untouched");
        }
    }
    assert_eq!(second::check(&s.x, &s.y, &s.z), expected);
}

#[test]
fn a_survey_of_3_to_1024_stations_is_accepted_and_any_other_count_is_1() {
    every_job(&Survey::of(&[], &[]), refused(1, 0));
    every_job(&Survey::of(&[(0, 0)], &[0]), refused(1, 0));
    every_job(&Survey::of(&[(0, 0), (1, 0)], &[0, 0]), refused(1, 0));
    every_job(&example(), Ok(()));
    every_job(&grid(1024), Ok(()));
    every_job(&grid(1025), refused(1, 0));
}

#[test]
fn lists_of_different_lengths_are_1() {
    for (short_x, short_y, short_z) in [
        (1, 0, 0),
        (0, 1, 0),
        (0, 0, 1),
        (1, 1, 0),
        (1, 0, 1),
        (0, 1, 1),
    ] {
        let mut s = q5([0; 5]);
        s.x.truncate(5 - short_x);
        s.y.truncate(5 - short_y);
        s.z.truncate(5 - short_z);
        every_job(&s, refused(1, 0));
    }
    let mut s = grid(1024);
    s.z.push(0);
    every_job(&s, refused(1, 0));
}

#[test]
fn coordinates_from_0_to_8191_are_in_range_and_others_are_2() {
    for (wrong, expected) in [
        (8191, Ok(())),
        (8192, refused(2, 3)),
        (70000, refused(2, 3)),
        (u32::MAX, refused(2, 3)),
    ] {
        let mut s = q([0; 4]);
        s.x[3] = wrong;
        every_job(&s, expected);
        let mut s = q([0; 4]);
        s.y[3] = wrong;
        every_job(&s, expected);
    }
}

#[test]
fn heights_within_32767_are_in_range_and_others_are_2() {
    for (wrong, expected) in [
        (32767, Ok(())),
        (-32767, Ok(())),
        (32768, refused(2, 1)),
        (-32768, refused(2, 1)),
        (i32::MAX, refused(2, 1)),
        (i32::MIN, refused(2, 1)),
    ] {
        every_job(&q([0, wrong, 0, 0]), expected);
    }
}

#[test]
fn two_carries_the_lowest_station_out_of_range() {
    let mut s = q5([0; 5]);
    s.z[4] = 40000;
    every_job(&s, refused(2, 4));
    s.x[2] = 9000;
    every_job(&s, refused(2, 2));
    s.y[0] = 8192;
    every_job(&s, refused(2, 0));
}

#[test]
fn three_carries_the_lowest_station_equal_to_an_earlier_one() {
    // The pairs 0 and 5, 1 and 3, 2 and 4: the second uses are 5, 3 and 4.
    let places = [(0, 0), (1, 0), (0, 1), (1, 0), (0, 1), (0, 0)];
    every_job(&Survey::of(&places, &[0; 6]), refused(3, 3));
    let places = [(0, 0), (1, 0), (0, 1), (0, 1)];
    every_job(&Survey::of(&places, &[0; 4]), refused(3, 3));
    let places = [(0, 0), (0, 0), (0, 1)];
    every_job(&Survey::of(&places, &[0; 3]), refused(3, 1));
}

#[test]
fn one_coordinate_in_common_is_not_one_place() {
    let places = [(5, 7), (7, 5), (5, 5), (7, 7)];
    every_job(&Survey::of(&places, &[0; 4]), Ok(()));
}

#[test]
fn all_stations_on_one_line_are_4_and_one_off_it_is_enough() {
    for places in [
        [(0, 0), (1, 1), (2, 2), (8191, 8191)],
        [(3, 9), (3, 1), (3, 8191), (3, 0)],
        [(0, 4), (9, 4), (8191, 4), (1, 4)],
        [(0, 8190), (2730, 5460), (4095, 4095), (8190, 0)],
    ] {
        every_job(&Survey::of(&places, &[0, 1, 2, 3]), refused(4, 0));
    }
    for places in [
        [(0, 0), (1, 1), (2, 2), (8191, 8190)],
        [(0, 0), (8191, 8190), (8190, 8189), (8189, 8188)],
    ] {
        every_job(&Survey::of(&places, &[0, 1, 2, 3]), Ok(()));
    }
}

#[test]
fn a_level_or_style_out_of_range_is_5_in_the_lines_job_and_for_served_ground() {
    let s = q([0, 10, 10, 0]);
    for (level, style, right) in [
        (32767, 0, true),
        (-32767, 0, true),
        (32767, 1, true),
        (-32767, 1, true),
        (32768, 0, false),
        (-32768, 0, false),
        (i32::MAX, 1, false),
        (i32::MIN, 1, false),
        (5, 2, false),
        (5, u32::MAX, false),
        (32768, 2, false),
    ] {
        let mut rooms = Rooms::new(4, 3);
        let before = rooms.clone();
        let answer = rooms.lines(&s, 0, level, style).map(|_| ());
        let counted = Rooms::new(4, 3).served(&s, 0, level, style).map(|_| ());
        assert_eq!(counted, answer, "{level} {style}");
        if right {
            assert!(answer.is_ok(), "{level} {style}");
        } else {
            assert_eq!(answer, refused(5, 0), "{level} {style}");
            assert_eq!(rooms, before);
        }
    }
}

#[test]
fn a_place_out_of_range_is_5_in_the_height_job() {
    let s = q([0, 10, 10, 0]);
    for (px, py, right) in [
        (0, 0, true),
        (8191, 8191, true),
        (8191, 0, true),
        (8192, 0, false),
        (0, 8192, false),
        (u32::MAX, u32::MAX, false),
    ] {
        let mut rooms = Rooms::new(4, 3);
        let before = rooms.clone();
        let answer = rooms.height(&s, 0, px, py);
        if right {
            assert!(answer.is_ok(), "{px} {py}");
        } else {
            assert_eq!(answer, refused(5, 0), "{px} {py}");
            assert_eq!(rooms, before);
        }
    }
}

/// 'Kind 0 is the old mesh, 1 this one; another number is refusal 5.' The slopes take no kind.
#[test]
fn a_kind_other_than_0_and_1_is_5_in_every_job_over_a_mesh() {
    let s = q([0, 10, 10, 0]);
    for kind in [0, 1, 2, 3, 256, 65536, 65537, u32::MAX - 1, u32::MAX] {
        for job in JOBS {
            let mut rooms = Rooms::new(4, 3);
            let before = rooms.clone();
            let answer = rooms.run(job, &s, kind);
            if kind <= 1 || job == Job::Slopes {
                assert_eq!(answer, Ok(()), "{job:?} {kind}");
            } else {
                assert_eq!(answer, refused(5, 0), "{job:?} {kind}");
                assert_eq!(rooms, before, "{job:?} {kind}");
            }
        }
    }
}

/// A survey with any of the faults 1 to 4, and a level and place with fault 5.
fn faulty(faults: &[bool; 7]) -> (Survey, i32, u32) {
    let mut s = q5([0, 1, 2, 3, 4]);
    if faults[4] {
        s = Survey::of(&[(0, 0), (1, 1), (2, 2), (3, 3), (4, 4)], &s.z);
    }
    if faults[3] {
        s.x[4] = s.x[1];
        s.y[4] = s.y[1];
    }
    if faults[2] {
        s.z[2] = 32768;
    }
    if faults[1] {
        s.y.push(9);
    }
    let (level, px) = if faults[5] { (32768, 8192) } else { (0, 0) };
    (s, level, px)
}

/// 'The four jobs test 1, 2, 3, 4, 5, 6 in that order. The first that applies is given.' Every set of
/// faults is tried, so every pair of refusals competes in every job; what is carried is that of the fault
/// given.
#[test]
fn the_first_refusal_that_applies_is_given() {
    let carried = [0, 0, 2, 4, 0, 0, 0];
    for set in 0..64u32 {
        let faults: [bool; 7] = std::array::from_fn(|i| i > 0 && set >> (i - 1) & 1 == 1);
        let (s, level, px) = faulty(&faults);
        for job in JOBS {
            let fifth = matches!(job, Job::Height | Job::Lines | Job::Served);
            for kind in [0, 1, 2, u32::MAX] {
                let wrong_kind = kind > 1 && job != Job::Slopes;
                let has = |i: usize| match i {
                    5 => faults[5] && fifth || wrong_kind,
                    _ => faults[i],
                };
                let mut rooms = Rooms::new(5, 0);
                if faults[6] {
                    rooms.work.pop();
                    rooms.slopes.pop();
                }
                let before = rooms.clone();
                let answer = match job {
                    Job::Height => rooms.height(&s, kind, px, 0).map(|_| ()),
                    Job::Lines => rooms.lines(&s, kind, level, 0).map(|_| ()),
                    Job::Served => rooms.served(&s, kind, level, 0).map(|_| ()),
                    _ => rooms.run(job, &s, kind),
                };
                match (1..7).find(|&i| has(i)) {
                    None => assert_eq!(answer, Ok(()), "{job:?} {kind} {faults:?}"),
                    Some(number) => {
                        let expected = refused(number as u32, carried[number]);
                        assert_eq!(answer, expected, "{job:?} {kind} {faults:?}");
                        assert_eq!(rooms, before, "{job:?} {kind} {faults:?}");
                    }
                }
            }
        }
    }
}
