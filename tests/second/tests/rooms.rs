//! Lent rooms: how long they must be, and what they hold after each job.

mod common;

use common::*;

/// Surveys of 3, 4 and 5 stations; (3n-6)/2 is 1, 3 and 4, so n = 3 and 5 round down.
fn surveys() -> [Survey; 3] {
    [example(), q([0, 10, 10, 0]), q5([0, 0, 0, 0, 10])]
}

/// The rooms of a job, by name, as a way to shorten one of them by one entry.
type Shorten = (&'static str, fn(&mut Rooms));

fn rooms_of(job: Job) -> Vec<Shorten> {
    let triangles: Shorten = ("triangles", |r| {
        r.triangles.pop();
    });
    let slopes: Shorten = ("slopes", |r| {
        r.slopes.pop();
    });
    let vertex_x: Shorten = ("vertex_x", |r| {
        r.vertex_x.pop();
    });
    let vertex_y: Shorten = ("vertex_y", |r| {
        r.vertex_y.pop();
    });
    let records: Shorten = ("records", |r| {
        r.records.pop();
    });
    let work: Shorten = ("work", |r| {
        r.work.pop();
    });
    match job {
        Job::Mesh => vec![triangles, work],
        Job::Slopes => vec![slopes],
        Job::Height | Job::Served => vec![slopes, work],
        Job::Lines => vec![vertex_x, vertex_y, records, slopes, work],
    }
}

/// `Rooms::new` has the lengths of document 01; here they stand as numbers for n = 3, 4, 5.
#[test]
fn the_rooms_asked_for_are_those_of_the_document() {
    let expected = [
        (3, [3, 15, 3, 1, 48]),
        (4, [9, 20, 6, 3, 64]),
        (5, [15, 25, 9, 4, 80]),
    ];
    for (n, lengths) in expected {
        let r = Rooms::new(n, 0);
        let [triangles, slopes, vertices, records, work] = lengths;
        assert_eq!(r.triangles.len(), triangles);
        assert_eq!(r.slopes.len(), slopes);
        assert_eq!(r.vertex_x.len(), vertices);
        assert_eq!(r.vertex_y.len(), vertices);
        assert_eq!(r.records.len(), records);
        assert_eq!(r.work.len(), work);
    }
}

#[test]
fn room_just_long_enough_is_accepted_and_one_entry_less_is_6() {
    for s in surveys() {
        for (job, kind) in jobs_and_kinds() {
            assert_eq!(Rooms::new(s.n(), 0).run(job, &s, kind), Ok(()));
            for (name, shorten) in rooms_of(job) {
                let mut rooms = Rooms::new(s.n(), 0);
                shorten(&mut rooms);
                let before = rooms.clone();
                let answer = rooms.run(job, &s, kind);
                assert_eq!(answer, refused(6, 0), "{job:?} {kind} {name}");
                assert_eq!(rooms, before, "{job:?} {name}");
            }
        }
    }
}

#[test]
fn a_job_asks_for_no_room_but_its_own() {
    let s = q([0, 10, 10, 0]);
    let full = Rooms::new(4, 0);

    let mut rooms = Rooms::empty();
    rooms.triangles = full.triangles.clone();
    rooms.work = full.work.clone();
    assert_eq!(rooms.mesh(&s, 0), Ok(2));

    let mut rooms = Rooms::empty();
    rooms.slopes = full.slopes.clone();
    assert_eq!(rooms.slopes(&s), Ok(()));

    let mut rooms = Rooms::empty();
    rooms.slopes = full.slopes;
    rooms.work = full.work;
    assert!(rooms.height(&s, 0, 1, 1).is_ok());
    assert!(rooms.served(&s, 0, 5, 1).is_ok());
}

#[test]
fn rooms_of_no_length_are_6() {
    for (job, kind) in jobs_and_kinds() {
        assert_eq!(
            Rooms::empty().run(job, &example(), kind),
            refused(6, 0),
            "{job:?} {kind}"
        );
    }
}

/// 'Entries past what a done job writes are untouched too, and the work room asked for (not what is longer)
/// is all zero after it.' The square has 2 triangles in room for 3.
#[test]
fn the_mesh_job_touches_its_triangles_and_its_work_room_only() {
    for (s, kind) in surveys()
        .into_iter()
        .flat_map(|s| KINDS.map(|kind| (s.clone(), kind)))
    {
        let mut rooms = Rooms::new(s.n(), 7);
        let before = rooms.clone();
        let count = rooms.mesh(&s, kind).unwrap();
        assert_eq!(count, [1, 2, 4][s.n() - 3]);
        assert!(rooms.triangles[..3 * count]
            .iter()
            .all(|&t| usize::from(t) < s.n()));
        assert!(rooms.triangles[3 * count..]
            .iter()
            .all(|&t| t == CANARY_U16));
        zeroed_then_untouched(&rooms.work, 16 * s.n(), CANARY_U16);
        rooms.triangles = before.triangles.clone();
        rooms.work = before.work.clone();
        assert_eq!(rooms, before);
    }
}

#[test]
fn the_slopes_job_touches_its_slopes_only() {
    for s in surveys() {
        let mut rooms = Rooms::new(s.n(), 7);
        let before = rooms.clone();
        rooms.slopes(&s).unwrap();
        assert!(rooms.slopes[..5 * s.n()]
            .iter()
            .all(|&slope| slope != CANARY_I32));
        assert!(rooms.slopes[5 * s.n()..]
            .iter()
            .all(|&slope| slope == CANARY_I32));
        rooms.slopes = before.slopes.clone();
        assert_eq!(rooms, before);
    }
}

/// The places stand on a station, inside the hull, and outside it.
#[test]
fn the_height_job_zeroes_both_its_rooms_whatever_the_kind_of_answer() {
    for s in surveys() {
        for (kind, px, py) in [
            (0, 0, 0),
            (0, 1, 1),
            (0, 100, 100),
            (1, 0, 0),
            (1, 1, 1),
            (1, 100, 100),
        ] {
            let mut rooms = Rooms::new(s.n(), 7);
            let before = rooms.clone();
            rooms.height(&s, kind, px, py).unwrap();
            zeroed_then_untouched(&rooms.slopes, 5 * s.n(), CANARY_I32);
            zeroed_then_untouched(&rooms.work, 16 * s.n(), CANARY_U16);
            rooms.slopes = before.slopes.clone();
            rooms.work = before.work.clone();
            assert_eq!(rooms, before);
        }
    }
}

/// Levels with lines and without, in both styles, over either kind.
#[test]
fn the_lines_job_touches_its_vertices_and_records_and_zeroes_its_rooms() {
    for s in surveys() {
        for (level, style, kind) in [
            (5, 0, 0),
            (5, 1, 1),
            (-1, 0, 1),
            (-1, 1, 0),
            (10, 0, 1),
            (10, 1, 0),
        ] {
            let mut rooms = Rooms::new(s.n(), 7);
            let before = rooms.clone();
            let drawn = rooms.lines(&s, kind, level, style).unwrap();
            assert!(rooms.vertex_x[..drawn.vertices].iter().all(|&v| v <= 1024));
            assert!(rooms.vertex_y[..drawn.vertices].iter().all(|&v| v <= 1024));
            assert!(rooms.vertex_x[drawn.vertices..]
                .iter()
                .all(|&v| v == CANARY_U32));
            assert!(rooms.vertex_y[drawn.vertices..]
                .iter()
                .all(|&v| v == CANARY_U32));
            assert!(rooms.records[drawn.lines..]
                .iter()
                .all(|&r| r == CANARY_U16));
            let sum: usize = rooms.records[..drawn.lines]
                .iter()
                .map(|&r| usize::from(r / 2))
                .sum();
            assert_eq!(sum, drawn.vertices);
            zeroed_then_untouched(&rooms.slopes, 5 * s.n(), CANARY_I32);
            zeroed_then_untouched(&rooms.work, 16 * s.n(), CANARY_U16);
            assert_eq!(rooms.triangles, before.triangles);
        }
    }
}

/// Levels that cut triangles and that cut none, in both styles, over either kind.
#[test]
fn the_count_of_served_ground_zeroes_both_its_rooms() {
    for s in surveys() {
        for (level, style, kind) in [
            (5, 0, 0),
            (5, 1, 1),
            (-1, 0, 1),
            (-1, 1, 0),
            (11, 0, 1),
            (11, 1, 0),
        ] {
            let mut rooms = Rooms::new(s.n(), 7);
            let before = rooms.clone();
            rooms.served(&s, kind, level, style).unwrap();
            zeroed_then_untouched(&rooms.slopes, 5 * s.n(), CANARY_I32);
            zeroed_then_untouched(&rooms.work, 16 * s.n(), CANARY_U16);
            rooms.slopes = before.slopes.clone();
            rooms.work = before.work.clone();
            assert_eq!(rooms, before);
        }
    }
}

fn zeroed_then_untouched<T: Copy + Default + PartialEq>(room: &[T], asked: usize, canary: T) {
    assert!(room.len() > asked);
    assert!(room[..asked].iter().all(|&entry| entry == T::default()));
    assert!(room[asked..].iter().all(|&entry| entry == canary));
}

/// What a room holds beforehand never matters.
#[test]
fn answers_do_not_depend_on_what_the_rooms_held() {
    for s in Random::new(2).surveys(40) {
        let n = s.n();
        let mut canaries = Rooms::new(n, 0);
        let mut zeros = Rooms::new(n, 0);
        zeros.triangles.fill(0);
        zeros.slopes.fill(0);
        zeros.work.fill(0);
        for kind in KINDS {
            assert_eq!(canaries.mesh(&s, kind), zeros.mesh(&s, kind));
            canaries.work.fill(CANARY_U16);
            assert_eq!(canaries.lines(&s, kind, 0, 1), zeros.lines(&s, kind, 0, 1));
            canaries.work.fill(CANARY_U16);
            let of_canaries = canaries.served(&s, kind, 0, 1);
            assert_eq!(of_canaries, zeros.served(&s, kind, 0, 1));
            canaries.work.fill(CANARY_U16);
        }
        assert_eq!(canaries.vertex_x, zeros.vertex_x);
        assert_eq!(canaries.vertex_y, zeros.vertex_y);
        assert_eq!(canaries.records, zeros.records);
    }
}
