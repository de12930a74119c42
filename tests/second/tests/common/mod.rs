//! What several tests share: surveys, lent rooms filled with canaries, the jobs side by side, seeded numbers.

#![allow(dead_code)]

use second::{Drawn, Height, Refused, Served};

/// The survey of document 01's text section, as text.
pub const EXAMPLE: &str = "survey=1\nstyle=straight\npoints=3\n\
    tag=A7\nx=0\ny=0\nz=0\ntag=a7\nx=8\ny=0\nz=10\ntag=B1\nx=0\ny=8\nz=10\n\
    levels=1\nlevel=5\n";

#[derive(Clone, Debug, PartialEq, Eq)]
pub struct Survey {
    pub x: Vec<u32>,
    pub y: Vec<u32>,
    pub z: Vec<i32>,
}

impl Survey {
    pub fn of(places: &[(u32, u32)], z: &[i32]) -> Survey {
        Survey {
            x: places.iter().map(|place| place.0).collect(),
            y: places.iter().map(|place| place.1).collect(),
            z: z.to_vec(),
        }
    }

    pub fn n(&self) -> usize {
        self.x.len()
    }

    /// The survey with every height negated.
    pub fn negated(&self) -> Survey {
        Survey {
            z: self.z.iter().map(|z| -z).collect(),
            ..self.clone()
        }
    }
}

/// 'Square Q: (0,0), (8,0), (0,8), (8,8).'
pub fn q(z: [i32; 4]) -> Survey {
    Survey::of(&[(0, 0), (8, 0), (0, 8), (8, 8)], &z)
}

/// 'Q5 adds (4,4).'
pub fn q5(z: [i32; 5]) -> Survey {
    Survey::of(&[(0, 0), (8, 0), (0, 8), (8, 8), (4, 4)], &z)
}

/// The survey of `EXAMPLE`.
pub fn example() -> Survey {
    Survey::of(&[(0, 0), (8, 0), (0, 8)], &[0, 10, 10])
}

/// n stations on a grid of 33 columns; n over 33 fills more than one row.
pub fn grid(n: usize) -> Survey {
    let places: Vec<(u32, u32)> = (0..n as u32).map(|i| (i % 33, i / 33)).collect();
    let z: Vec<i32> = (0..n as i32).map(|i| i * 7919 % 1001 - 500).collect();
    Survey::of(&places, &z)
}

/// Both kinds of mesh.
pub const KINDS: [u32; 2] = [second::SWEPT, second::FATTER];

pub const CANARY_U16: u16 = 0xA5C3;
pub const CANARY_U32: u32 = 0xA5C3_96E1;
pub const CANARY_I32: i32 = -0x5A3C_691F;

/// Every room that one of the jobs takes, filled with canaries.
#[derive(Clone, Debug, PartialEq, Eq)]
pub struct Rooms {
    pub triangles: Vec<u16>,
    pub slopes: Vec<i32>,
    pub vertex_x: Vec<u32>,
    pub vertex_y: Vec<u32>,
    pub records: Vec<u16>,
    pub work: Vec<u16>,
}

impl Rooms {
    /// The rooms that a survey of n stations asks for, each longer by `extra`.
    pub fn new(n: usize, extra: usize) -> Rooms {
        Rooms {
            triangles: vec![CANARY_U16; 3 * (2 * n - 5) + extra],
            slopes: vec![CANARY_I32; 5 * n + extra],
            vertex_x: vec![CANARY_U32; 3 * n - 6 + extra],
            vertex_y: vec![CANARY_U32; 3 * n - 6 + extra],
            records: vec![CANARY_U16; (3 * n - 6) / 2 + extra],
            work: vec![CANARY_U16; 16 * n + extra],
        }
    }

    pub fn empty() -> Rooms {
        Rooms {
            triangles: vec![],
            slopes: vec![],
            vertex_x: vec![],
            vertex_y: vec![],
            records: vec![],
            work: vec![],
        }
    }

    pub fn mesh(&mut self, s: &Survey, kind: u32) -> Result<usize, Refused> {
        let Rooms {
            triangles, work, ..
        } = self;
        second::mesh(&s.x, &s.y, &s.z, kind, triangles, work)
    }

    pub fn slopes(&mut self, s: &Survey) -> Result<(), Refused> {
        second::slopes(&s.x, &s.y, &s.z, &mut self.slopes)
    }

    pub fn height(&mut self, s: &Survey, kind: u32, px: u32, py: u32) -> Result<Height, Refused> {
        let Rooms { slopes, work, .. } = self;
        second::height(&s.x, &s.y, &s.z, kind, px, py, slopes, work)
    }

    pub fn lines(
        &mut self,
        s: &Survey,
        kind: u32,
        level: i32,
        style: u32,
    ) -> Result<Drawn, Refused> {
        second::lines(
            &s.x,
            &s.y,
            &s.z,
            kind,
            level,
            style,
            &mut self.vertex_x,
            &mut self.vertex_y,
            &mut self.records,
            &mut self.slopes,
            &mut self.work,
        )
    }

    pub fn served(
        &mut self,
        s: &Survey,
        kind: u32,
        level: i32,
        style: u32,
    ) -> Result<Served, Refused> {
        let Rooms { slopes, work, .. } = self;
        second::served(&s.x, &s.y, &s.z, kind, level, style, slopes, work)
    }

    pub fn height_over(
        &mut self,
        s: &Survey,
        list: &[u16],
        px: u32,
        py: u32,
    ) -> Result<Height, Refused> {
        let Rooms { slopes, work, .. } = self;
        second::height_over(&s.x, &s.y, &s.z, list, px, py, slopes, work)
    }

    pub fn lines_over(
        &mut self,
        s: &Survey,
        list: &[u16],
        level: i32,
        style: u32,
    ) -> Result<Drawn, Refused> {
        second::lines_over(
            &s.x,
            &s.y,
            &s.z,
            list,
            level,
            style,
            &mut self.vertex_x,
            &mut self.vertex_y,
            &mut self.records,
            &mut self.slopes,
            &mut self.work,
        )
    }

    /// Runs one job on place (0,0), level 0, style 0, and keeps only whether it is done. The slopes take no
    /// kind.
    pub fn run(&mut self, job: Job, s: &Survey, kind: u32) -> Result<(), Refused> {
        match job {
            Job::Mesh => self.mesh(s, kind).map(|_| ()),
            Job::Slopes => self.slopes(s),
            Job::Height => self.height(s, kind, 0, 0).map(|_| ()),
            Job::Lines => self.lines(s, kind, 0, 0).map(|_| ()),
            Job::Served => self.served(s, kind, 0, 0).map(|_| ()),
        }
    }
}

#[derive(Clone, Copy, Debug, PartialEq, Eq)]
pub enum Job {
    Mesh,
    Slopes,
    Height,
    Lines,
    Served,
}

pub const JOBS: [Job; 5] = [Job::Mesh, Job::Slopes, Job::Height, Job::Lines, Job::Served];

/// Every job with every kind of mesh.
pub fn jobs_and_kinds() -> Vec<(Job, u32)> {
    let with_kinds = |job: Job| KINDS.map(|kind| (job, kind));
    JOBS.into_iter().flat_map(with_kinds).collect()
}

pub fn refused<T>(number: u32, at: u32) -> Result<T, Refused> {
    Err(Refused { number, at })
}

/// The triangles of a survey in the mesh of one kind.
pub fn triangles(s: &Survey, kind: u32) -> Vec<[usize; 3]> {
    let mut rooms = Rooms::new(s.n(), 0);
    let count = rooms.mesh(s, kind).expect("an accepted survey");
    rooms.triangles[..3 * count]
        .chunks(3)
        .map(|three| [three[0].into(), three[1].into(), three[2].into()])
        .collect()
}

/// A list of triangles as it is handed in: three numbers each.
pub fn list(triangles: &[[usize; 3]]) -> Vec<u16> {
    triangles
        .iter()
        .flatten()
        .map(|&corner| corner as u16)
        .collect()
}

/// p, q, r, s, t of each station.
pub fn slopes(s: &Survey) -> Vec<[i32; 5]> {
    let mut rooms = Rooms::new(s.n(), 0);
    rooms.slopes(s).expect("an accepted survey");
    rooms
        .slopes
        .chunks(5)
        .map(|five| five.try_into().expect("five slopes"))
        .collect()
}

pub fn height(s: &Survey, kind: u32, px: u32, py: u32) -> Height {
    Rooms::new(s.n(), 0)
        .height(s, kind, px, py)
        .expect("an accepted survey")
}

/// The ground served and unserved at a level.
pub fn served(s: &Survey, kind: u32, level: i32, style: u32) -> (u64, u64) {
    let Served { served, unserved } = Rooms::new(s.n(), 0)
        .served(s, kind, level, style)
        .expect("an accepted survey");
    (served, unserved)
}

pub const OPEN: bool = false;
pub const CLOSED: bool = true;

/// The lines of one level, each as whether it is closed and its vertices.
pub fn lines(s: &Survey, kind: u32, level: i32, style: u32) -> Vec<(bool, Vec<(u32, u32)>)> {
    let mut rooms = Rooms::new(s.n(), 0);
    let drawn = rooms
        .lines(s, kind, level, style)
        .expect("an accepted survey");
    listed(&rooms, drawn)
}

/// The same over a list of triangles that is handed in.
pub fn lines_over(
    s: &Survey,
    list: &[u16],
    level: i32,
    style: u32,
) -> Vec<(bool, Vec<(u32, u32)>)> {
    let mut rooms = Rooms::new(s.n(), 0);
    let drawn = rooms
        .lines_over(s, list, level, style)
        .expect("an accepted mesh");
    listed(&rooms, drawn)
}

/// The lines as they stand in their rooms.
fn listed(rooms: &Rooms, drawn: Drawn) -> Vec<(bool, Vec<(u32, u32)>)> {
    let mut listed = Vec::new();
    let mut at = 0;
    for &record in &rooms.records[..drawn.lines] {
        let end = at + usize::from(record / 2);
        let vertices = (at..end)
            .map(|i| (rooms.vertex_x[i], rooms.vertex_y[i]))
            .collect();
        listed.push((record % 2 == 1, vertices));
        at = end;
    }
    assert_eq!(at, drawn.vertices);
    listed
}

pub fn station_turn(s: &Survey, a: usize, b: usize, c: usize) -> i64 {
    let at = |i: usize| (i64::from(s.x[i]), i64::from(s.y[i]));
    let ((ax, ay), (bx, by), (cx, cy)) = (at(a), at(b), at(c));
    second::turn(ax, ay, bx, by, cx, cy)
}

/// Seeded numbers by three shifts.
pub struct Random(u64);

impl Random {
    pub fn new(seed: u64) -> Random {
        Random(seed.wrapping_mul(0x9E37_79B9_7F4A_7C15) | 1)
    }

    pub fn next(&mut self) -> u64 {
        self.0 ^= self.0 << 13;
        self.0 ^= self.0 >> 7;
        self.0 ^= self.0 << 17;
        self.0
    }

    /// From 0 to `count` - 1.
    pub fn below(&mut self, count: u64) -> u64 {
        (self.next() >> 11) % count
    }

    /// n distinct places, not all on one line, x and y under `extent`, heights within ± `relief`.
    pub fn survey(&mut self, n: usize, extent: u32, relief: i32) -> Survey {
        loop {
            let mut places: Vec<(u32, u32)> = Vec::new();
            while places.len() < n {
                let place = (
                    self.below(extent.into()) as u32,
                    self.below(extent.into()) as u32,
                );
                if !places.contains(&place) {
                    places.push(place);
                }
            }
            let z: Vec<i32> = (0..n)
                .map(|_| self.below(2 * relief as u64 + 1) as i32 - relief)
                .collect();
            let s = Survey::of(&places, &z);
            if (2..n).any(|i| station_turn(&s, 0, 1, i) != 0) {
                return s;
            }
        }
    }

    /// Surveys of many sizes: crowded ones full of stations in line, and wide ones.
    pub fn surveys(&mut self, count: usize) -> Vec<Survey> {
        let extents = [3, 4, 5, 7, 12, 60, 1000, 8192];
        (0..count)
            .map(|i| {
                let extent = extents[i % extents.len()];
                let most = u64::from(extent * extent).min(48) - 2;
                let n = 3 + self.below(most - 2) as usize;
                let relief = [1, 5, 100, 32767][self.below(4) as usize];
                self.survey(n, extent, relief)
            })
            .collect()
    }
}
