//! Refusals, the ranges that they guard and the rooms that the jobs ask for.

/// A refusal: its number in the table of refusal numbers, and the station, line or triangle that it carries.
#[derive(Clone, Copy, Debug, PartialEq, Eq)]
pub struct Refused {
    pub number: u32,
    pub at: u32,
}

/// The answer "refused", for a job of any result.
pub fn refuse<T>(number: u32, at: usize) -> Result<T, Refused> {
    let at = u32::try_from(at).expect("a station, a line of a text within its limit or a triangle");
    Err(Refused { number, at })
}

/// Refusal 6 unless the room is long enough: 'lent room too short', 'Longer room is accepted.'
pub fn room(lent: usize, needed: usize) -> Result<(), Refused> {
    if lent < needed {
        return refuse(6, 0);
    }
    Ok(())
}

/// 'A survey has 3 to 1,024 stations.'
pub const LEAST_STATIONS: usize = 3;
pub const MOST_STATIONS: usize = 1024;

/// 'A station has x and y from 0 to 8,191'; 'A place has the range of x and y.'
pub const MOST_COORDINATE: u32 = 8191;

/// 'a height z from -32,767 to 32,767'; 'A level is a whole number in the range of z.'
pub const MOST_HEIGHT: i32 = 32767;

/// 'levels (1 to 64)'
pub const LEAST_LEVELS: usize = 1;
pub const MOST_LEVELS: usize = 64;

/// 'Text is at most 65,535 bytes'
pub const MOST_BYTES: usize = 65535;

/// 'A tag is 1 to 8 ASCII letters, digits or hyphens'
pub const MOST_TAG: usize = 8;

/// 'Style is 0 straight, 1 smooth.'
pub const STRAIGHT: u32 = 0;
pub const SMOOTH: u32 = 1;

/// 'Kind 0 is the old mesh, 1 this one'
pub const SWEPT: u32 = 0;
pub const FATTER: u32 = 1;

pub fn coordinate_in_range(c: u32) -> bool {
    c <= MOST_COORDINATE
}

/// Both for heights and for levels, which have one range.
pub fn height_in_range(z: i32) -> bool {
    (-MOST_HEIGHT..=MOST_HEIGHT).contains(&z)
}

pub fn style_in_range(style: u32) -> bool {
    style == STRAIGHT || style == SMOOTH
}

/// 'another number is refusal 5'
pub fn kind_in_range(kind: u32) -> bool {
    kind == SWEPT || kind == FATTER
}

/// 'A level list is 5 if its count, order or a level is wrong.'
pub fn levels_in_range(levels: &[i32]) -> bool {
    (LEAST_LEVELS..=MOST_LEVELS).contains(&levels.len())
        && levels.iter().all(|&level| height_in_range(level))
        && levels.windows(2).all(|pair| pair[0] < pair[1])
}

/// 'whole triangles, at most 2n-5'
pub fn most_triangles(n: usize) -> usize {
    2 * n - 5
}

/// 'triangles 3(2n-5) numbers'
pub fn triangle_room(n: usize) -> usize {
    3 * most_triangles(n)
}

/// 'slopes 5n'; 'slope room 5n also for height and lines'
pub fn slope_room(n: usize) -> usize {
    5 * n
}

/// 'line vertices 3n-6 each for x and y'
pub fn vertex_room(n: usize) -> usize {
    3 * n - 6
}

/// 'line records (3n-6)/2 rounded down'
pub fn record_room(n: usize) -> usize {
    (3 * n - 6) / 2
}

/// 'work room 16n numbers of 16 bits, for the mesh, height and lines jobs'
pub fn work_room(n: usize) -> usize {
    16 * n
}

/// '8n bytes of tags'
pub fn tag_room(n: usize) -> usize {
    MOST_TAG * n
}
