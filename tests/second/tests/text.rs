//! Survey text: the reader and the writer.

mod common;

use common::*;
use second::{Read, Refused};

const CANARY_U8: u8 = 0xA5;

/// The rooms of the reader, filled with canaries.
#[derive(Clone, Debug, PartialEq, Eq)]
struct Lent {
    x: Vec<u32>,
    y: Vec<u32>,
    z: Vec<i32>,
    tags: Vec<u8>,
    levels: Vec<i32>,
}

impl Lent {
    fn new(n: usize, levels: usize) -> Lent {
        Lent {
            x: vec![CANARY_U32; n],
            y: vec![CANARY_U32; n],
            z: vec![CANARY_I32; n],
            tags: vec![CANARY_U8; 8 * n],
            levels: vec![CANARY_I32; levels],
        }
    }

    fn read(&mut self, text: &[u8]) -> Result<Read, Refused> {
        second::read(
            text,
            &mut self.x,
            &mut self.y,
            &mut self.z,
            &mut self.tags,
            &mut self.levels,
        )
    }
}

/// Reads into room enough for any survey; a refusal must leave it untouched.
fn read(text: impl AsRef<[u8]>) -> Result<Read, Refused> {
    let mut lent = Lent::new(1024, 64);
    let answer = lent.read(text.as_ref());
    if answer.is_err() {
        assert_eq!(lent, Lent::new(1024, 64));
    }
    answer
}

/// The example with some of its lines, counted from 1, replaced.
fn with(lines: &[(usize, &str)]) -> String {
    let mut all: Vec<&str> = EXAMPLE.lines().collect();
    for &(number, line) in lines {
        all[number - 1] = line;
    }
    all.join("\n") + "\n"
}

/// A survey as the writer takes it.
#[derive(Clone, Debug)]
struct Handed {
    style: u32,
    tags: Vec<u8>,
    survey: Survey,
    levels: Vec<i32>,
}

impl Handed {
    fn example() -> Handed {
        Handed {
            style: 0,
            tags: b"A7\0\0\0\0\0\0a7\0\0\0\0\0\0B1\0\0\0\0\0\0".to_vec(),
            survey: example(),
            levels: vec![5],
        }
    }

    fn write(&self, text: &mut [u8]) -> Result<usize, Refused> {
        let Survey { x, y, z } = &self.survey;
        second::write(self.style, &self.tags, x, y, z, &self.levels, text)
    }

    /// The written text, in room with a canary after it.
    fn text(&self) -> Vec<u8> {
        let mut room = vec![CANARY_U8; 70000];
        let length = self.write(&mut room).expect("a right survey");
        assert!(room[length..].iter().all(|&byte| byte == CANARY_U8));
        room.truncate(length);
        room
    }

    /// The refusal, in room that would be long enough, which must stay untouched.
    fn refusal(&self) -> Refused {
        let mut room = vec![CANARY_U8; 70000];
        let refusal = self.write(&mut room).expect_err("a refusal");
        assert!(room.iter().all(|&byte| byte == CANARY_U8));
        refusal
    }

    fn set_tag(&mut self, station: usize, tag: &[u8; 8]) {
        self.tags[8 * station..8 * station + 8].copy_from_slice(tag);
    }
}

fn at(number: u32, at: u32) -> Refused {
    Refused { number, at }
}

// The reader.

#[test]
fn the_example_is_read() {
    let mut lent = Lent::new(4, 2);
    let answer = lent.read(EXAMPLE.as_bytes());
    let expected = Read {
        style: 0,
        stations: 3,
        levels: 1,
    };
    assert_eq!(answer, Ok(expected));
    assert_eq!(lent.x, [0, 8, 0, CANARY_U32]);
    assert_eq!(lent.y, [0, 0, 8, CANARY_U32]);
    assert_eq!(lent.z, [0, 10, 10, CANARY_I32]);
    assert_eq!(
        lent.tags[..24],
        *b"A7\0\0\0\0\0\0a7\0\0\0\0\0\0B1\0\0\0\0\0\0"
    );
    assert_eq!(lent.tags[24..], [CANARY_U8; 8]);
    assert_eq!(lent.levels, [5, CANARY_I32]);
}

#[test]
fn both_styles_are_read() {
    assert_eq!(read(EXAMPLE).unwrap().style, 0);
    assert_eq!(read(with(&[(2, "style=smooth")])).unwrap().style, 1);
    for line in [
        "style=Smooth",
        "style=0",
        "style=",
        "style=straight ",
        "style",
    ] {
        assert_eq!(read(with(&[(2, line)])), refused(7, 2), "{line}");
    }
}

#[test]
fn text_that_ends_early_or_late_is_7_at_the_missing_or_leftover_line() {
    assert_eq!(read(""), refused(7, 1));
    assert_eq!(read(&EXAMPLE[..EXAMPLE.len() - 1]), refused(7, 17));
    assert_eq!(read(format!("{EXAMPLE}\n")), refused(7, 18));
    assert_eq!(read(format!("{EXAMPLE}x")), refused(7, 18));
    assert_eq!(read(format!("{EXAMPLE}level=6\n")), refused(7, 18));
    assert_eq!(
        read(format!("{EXAMPLE}level=6\nlevel=7\n\n")),
        refused(7, 18)
    );
    let without_level = EXAMPLE.strip_suffix("level=5\n").unwrap();
    assert_eq!(read(without_level), refused(7, 17));
}

/// After k right lines the next is missing, and a line cut short has its own number.
#[test]
fn every_shorter_text_is_7_at_the_line_it_breaks_off() {
    for length in 0..EXAMPLE.len() {
        let text = &EXAMPLE[..length];
        let line = 1 + text.matches('\n').count() as u32;
        assert_eq!(read(text), refused(7, line), "{length}");
    }
}

#[test]
fn carriage_returns_are_wrong_bytes() {
    assert_eq!(read(EXAMPLE.replace('\n', "\r\n")), refused(7, 1));
    assert_eq!(read(with(&[(17, "level=5\r")])), refused(7, 17));
}

#[test]
fn a_wrong_key_or_a_line_out_of_its_place_is_7() {
    let count = EXAMPLE.lines().count();
    for number in 1..=count {
        let line = EXAMPLE.lines().nth(number - 1).unwrap();
        for wrong in [
            line.replace('=', ""),
            line.replace('=', " ="),
            line.replace('=', "=="),
            line.replace('=', "= "),
            line.to_uppercase(),
            format!(" {line}"),
            format!("{line} "),
            format!("{line}\0"),
            String::new(),
            "key=1".to_string(),
        ] {
            let text = with(&[(number, &wrong)]);
            assert_eq!(read(&text), refused(7, number as u32), "{text}");
        }
    }
    assert_eq!(read(with(&[(5, "y=0"), (6, "x=0")])), refused(7, 5));
}

#[test]
fn the_first_line_is_exactly_survey_1() {
    for line in [
        "survey=2",
        "survey=01",
        "survey=",
        "survey=1 ",
        "Survey=1",
        "contours=1",
    ] {
        assert_eq!(read(with(&[(1, line)])), refused(7, 1), "{line}");
    }
}

#[test]
fn points_are_3_to_1024() {
    for line in [
        "points=2",
        "points=0",
        "points=1025",
        "points=5000",
        "points=-3",
        "points=03",
    ] {
        assert_eq!(read(with(&[(3, line)])), refused(7, 3), "{line}");
    }
    assert_eq!(read(with(&[(3, "points=4")])), refused(7, 16));
    assert_eq!(read(points(3)).unwrap().stations, 3);
    assert_eq!(read(points(1024)).unwrap().stations, 1024);
    assert_eq!(read(points(1025)), refused(7, 3));
}

/// Text of n stations with tags of their numbers.
fn points(n: usize) -> String {
    let mut text = format!("survey=1\nstyle=straight\npoints={n}\n");
    for i in 0..n {
        text += &format!("tag={i}\nx={}\ny={}\nz=-{}\n", i % 33, i / 33, i + 1);
    }
    text + "levels=1\nlevel=0\n"
}

#[test]
fn coordinates_and_heights_have_their_ranges() {
    for right in ["x=0", "x=8191", "x=1", "x=10"] {
        assert!(read(with(&[(5, right)])).is_ok(), "{right}");
    }
    for wrong in ["x=8192", "x=-1", "x=9999", "x=10000", "x=4294967296"] {
        assert_eq!(read(with(&[(5, wrong)])), refused(7, 5), "{wrong}");
    }
    assert!(read(with(&[(6, "y=8191")])).is_ok());
    assert_eq!(read(with(&[(6, "y=8192")])), refused(7, 6));
    for right in ["z=32767", "z=-32767", "z=0", "z=-1"] {
        assert!(read(with(&[(7, right)])).is_ok(), "{right}");
    }
    for wrong in ["z=32768", "z=-32768", "z=99999", "z=-99999", "z=100000"] {
        assert_eq!(read(with(&[(7, wrong)])), refused(7, 7), "{wrong}");
    }
}

#[test]
fn numbers_are_plain_decimal() {
    for wrong in [
        "z=",
        "z=-",
        "z=-0",
        "z=+5",
        "z=05",
        "z=-05",
        "z=00",
        "z= 5",
        "z=5 ",
        "z=5.0",
        "z=1e2",
        "z=--5",
        "z=5-",
        "z=0x5",
        "z=5\t",
        "z=\u{0665}",
        "z=1,000",
        "z=-00",
    ] {
        assert_eq!(read(with(&[(7, wrong)])), refused(7, 7), "{wrong}");
    }
    let digits = format!("x={}", "1".repeat(300));
    assert_eq!(read(with(&[(9, &digits)])), refused(7, 9));
    let zeros = format!("x={}5", "0".repeat(300));
    assert_eq!(read(with(&[(9, &zeros)])), refused(7, 9));
}

#[test]
fn tags_are_1_to_8_letters_digits_or_hyphens() {
    for right in [
        "tag=a",
        "tag=Z",
        "tag=-",
        "tag=0",
        "tag=aZ09-bY8",
        "tag=--------",
    ] {
        assert!(read(with(&[(4, right)])).is_ok(), "{right}");
    }
    for wrong in [
        "tag=",
        "tag=123456789",
        "tag=a_b",
        "tag=a b",
        "tag=a.b",
        "tag=a=b",
        "tag=\u{e4}",
        "tag=a\0",
        "tag=@",
        "tag=[",
        "tag=`",
        "tag={",
        "tag=/",
        "tag=:",
    ] {
        assert_eq!(read(with(&[(4, wrong)])), refused(7, 4), "{wrong}");
    }
    let mut bytes = EXAMPLE.as_bytes().to_vec();
    let place = EXAMPLE.find("A7").unwrap();
    bytes[place] = 0xE4;
    assert_eq!(read(bytes), refused(7, 4));
}

#[test]
fn tags_that_differ_in_case_are_two_tags() {
    assert!(read(EXAMPLE).is_ok());
    assert!(read(with(&[(4, "tag=abc"), (8, "tag=ABC"), (12, "tag=aBc")])).is_ok());
}

#[test]
fn a_tag_used_before_is_8_at_the_line_of_its_second_use() {
    assert_eq!(read(with(&[(8, "tag=A7")])), refused(8, 8));
    assert_eq!(read(with(&[(12, "tag=A7")])), refused(8, 12));
    assert_eq!(read(with(&[(12, "tag=a7")])), refused(8, 12));
    assert_eq!(read(with(&[(8, "tag=A7"), (12, "tag=A7")])), refused(8, 8));
}

#[test]
fn a_tag_that_begins_another_is_another() {
    assert!(read(with(&[(8, "tag=A"), (12, "tag=A77")])).is_ok());
}

#[test]
fn eight_competes_with_seven_by_line_number() {
    assert_eq!(read(with(&[(8, "tag=A7"), (9, "x=9999")])), refused(8, 8));
    assert_eq!(read(with(&[(8, "tag=A7"), (7, "z=-0")])), refused(7, 7));
    assert_eq!(read(with(&[(8, "tag=A7"), (17, "level=x")])), refused(8, 8));
    let cut_short = with(&[(8, "tag=A7")])
        .split_inclusive('\n')
        .take(8)
        .collect::<String>();
    assert_eq!(read(&cut_short), refused(8, 8));
    assert_eq!(read(&cut_short[..cut_short.len() - 1]), refused(7, 8));
}

#[test]
fn levels_are_1_to_64_and_strictly_rising() {
    let levels = |count: usize| {
        let mut text = EXAMPLE
            .strip_suffix("levels=1\nlevel=5\n")
            .unwrap()
            .to_string();
        text += &format!("levels={count}\n");
        for i in 0..count {
            text += &format!("level={}\n", i as i32 - 32);
        }
        text
    };
    assert_eq!(read(levels(1)).unwrap().levels, 1);
    assert_eq!(read(levels(64)).unwrap().levels, 64);
    assert_eq!(read(levels(0)), refused(7, 16));
    assert_eq!(read(levels(65)), refused(7, 16));
    let two = |first: &str, second: &str| {
        let text = with(&[(16, "levels=2"), (17, first)]);
        read(format!("{text}{second}\n"))
    };
    assert!(two("level=5", "level=6").is_ok());
    assert!(two("level=-32767", "level=32767").is_ok());
    assert_eq!(two("level=5", "level=5"), refused(7, 18));
    assert_eq!(two("level=5", "level=4"), refused(7, 18));
    assert_eq!(two("level=5", "level=-6"), refused(7, 18));
    assert_eq!(two("level=32767", "level=32768"), refused(7, 18));
    assert_eq!(two("level=-32768", "level=0"), refused(7, 17));
}

#[test]
fn text_over_65535_bytes_is_7_with_line_0() {
    assert_eq!(read("\n".repeat(65535)), refused(7, 1));
    assert_eq!(read("\n".repeat(65536)), refused(7, 0));
    let fill = |length: usize| format!("{EXAMPLE}{}", "x".repeat(length - EXAMPLE.len()));
    assert_eq!(read(fill(65535)), refused(7, 18));
    assert_eq!(read(fill(65536)), refused(7, 0));
    assert_eq!(read(fill(200000)), refused(7, 0));
}

#[test]
fn the_reader_tests_neither_3_nor_4() {
    assert!(read(with(&[(9, "x=0")])).is_ok());
    assert!(read(with(&[(14, "y=0")])).is_ok());
}

#[test]
fn the_readers_rooms_are_tested_last_each_by_one_entry() {
    let shorten: [fn(&mut Lent); 5] = [
        |lent| {
            lent.x.pop();
        },
        |lent| {
            lent.y.pop();
        },
        |lent| {
            lent.z.pop();
        },
        |lent| {
            lent.tags.pop();
        },
        |lent| {
            lent.levels.pop();
        },
    ];
    assert!(Lent::new(3, 1).read(EXAMPLE.as_bytes()).is_ok());
    for shorten in shorten {
        let mut lent = Lent::new(3, 1);
        shorten(&mut lent);
        let before = lent.clone();
        assert_eq!(lent.read(EXAMPLE.as_bytes()), refused(6, 0));
        assert_eq!(
            lent.read(with(&[(17, "level=x")]).as_bytes()),
            refused(7, 17)
        );
        assert_eq!(
            lent.read(with(&[(12, "tag=A7")]).as_bytes()),
            refused(8, 12)
        );
        assert_eq!(lent.read("\n".repeat(65536).as_bytes()), refused(7, 0));
        assert_eq!(lent, before);
    }
    let mut none = Lent::new(0, 0);
    assert_eq!(none.read(EXAMPLE.as_bytes()), refused(6, 0));
    assert_eq!(none.read(format!("{EXAMPLE}x").as_bytes()), refused(7, 18));
}

// The writer.

#[test]
fn the_example_is_written() {
    assert_eq!(Handed::example().text(), EXAMPLE.as_bytes());
    let mut smooth = Handed::example();
    smooth.style = 1;
    assert_eq!(smooth.text(), with(&[(2, "style=smooth")]).as_bytes());
}

#[test]
fn the_writer_needs_the_texts_bytes() {
    let handed = Handed::example();
    let mut room = vec![CANARY_U8; EXAMPLE.len()];
    assert_eq!(handed.write(&mut room), Ok(EXAMPLE.len()));
    assert_eq!(room, EXAMPLE.as_bytes());
    let mut room = vec![CANARY_U8; EXAMPLE.len() - 1];
    assert_eq!(handed.write(&mut room), refused(6, 0));
    assert!(room.iter().all(|&byte| byte == CANARY_U8));
    assert_eq!(handed.write(&mut []), refused(6, 0));
}

#[test]
fn the_writer_gives_1_for_lists_of_wrong_length_the_tags_too() {
    let wrong: [fn(&mut Handed); 7] = [
        |handed| {
            handed.survey.x.pop();
        },
        |handed| {
            handed.survey.y.pop();
        },
        |handed| {
            handed.survey.z.pop();
        },
        |handed| {
            handed.tags.pop();
        },
        |handed| handed.tags.push(0),
        |handed| handed.tags.extend([0; 8]),
        |handed| handed.tags.clear(),
    ];
    for wrong in wrong {
        let mut handed = Handed::example();
        wrong(&mut handed);
        assert_eq!(handed.refusal(), at(1, 0));
    }
    for n in [0, 1, 2, 1025] {
        assert_eq!(numbered(n).refusal(), at(1, 0), "{n}");
    }
    for n in [3, 1024] {
        assert_eq!(read(numbered(n).text()).unwrap().stations, n);
    }
}

/// n stations with tags of their numbers.
fn numbered(n: usize) -> Handed {
    let mut tags = vec![0; 8 * n];
    for i in 0..n {
        let tag = i.to_string();
        tags[8 * i..8 * i + tag.len()].copy_from_slice(tag.as_bytes());
    }
    Handed {
        style: 1,
        tags,
        survey: grid(n),
        levels: vec![-7, 0],
    }
}

#[test]
fn the_writer_gives_2_for_the_lowest_station_out_of_range() {
    type Wrong = (fn(&mut Survey), u32);
    let wrong: [Wrong; 6] = [
        (|s| s.x[1] = 8192, 1),
        (|s| s.y[2] = 8192, 2),
        (|s| s.z[0] = 32768, 0),
        (|s| s.z[2] = -32768, 2),
        (|s| s.x[2] = u32::MAX, 2),
        (
            |s| {
                s.z[2] = 40000;
                s.x[1] = 9000;
            },
            1,
        ),
    ];
    for (wrong, station) in wrong {
        let mut handed = Handed::example();
        wrong(&mut handed.survey);
        assert_eq!(handed.refusal(), at(2, station));
    }
    let mut handed = Handed::example();
    handed.survey.x[1] = 8191;
    handed.survey.z[1] = -32767;
    handed.survey.z[2] = 32767;
    let expected = with(&[(9, "x=8191"), (11, "z=-32767"), (15, "z=32767")]);
    assert_eq!(handed.text(), expected.as_bytes());
}

#[test]
fn the_writer_gives_7_for_the_lowest_station_with_a_wrong_tag() {
    for tag in [
        b"\0\0\0\0\0\0\0\0",
        b"A\0B\0\0\0\0\0",
        b"\0A\0\0\0\0\0\0",
        b"A\0\0\0\0\0\0B",
        b"A_\0\0\0\0\0\0",
        b"A B\0\0\0\0\0",
        b"1234567\n",
        b"1234567=",
        b"\xE4\0\0\0\0\0\0\0",
    ] {
        let mut handed = Handed::example();
        handed.set_tag(2, tag);
        assert_eq!(handed.refusal(), at(7, 2));
        handed.set_tag(1, tag);
        assert_eq!(handed.refusal(), at(7, 1));
    }
    let mut handed = Handed::example();
    handed.set_tag(0, b"aZ09-bY8");
    assert_eq!(handed.text(), with(&[(4, "tag=aZ09-bY8")]).as_bytes());
}

#[test]
fn the_writer_gives_8_for_the_station_of_the_second_use() {
    let mut handed = Handed::example();
    handed.set_tag(2, b"A7\0\0\0\0\0\0");
    assert_eq!(handed.refusal(), at(8, 2));
    handed.set_tag(1, b"A7\0\0\0\0\0\0");
    assert_eq!(handed.refusal(), at(8, 1));
}

/// All 7 come before all 8, whichever station is lower.
#[test]
fn the_writer_tests_every_tags_form_before_any_use() {
    let mut handed = Handed::example();
    handed.set_tag(1, b"A7\0\0\0\0\0\0");
    handed.set_tag(2, b"_\0\0\0\0\0\0\0");
    assert_eq!(handed.refusal(), at(7, 2));
}

#[test]
fn the_writer_gives_5_for_a_style_or_level_list_out_of_range() {
    for style in [2, u32::MAX] {
        let mut handed = Handed::example();
        handed.style = style;
        assert_eq!(handed.refusal(), at(5, 0));
    }
    for levels in [
        vec![],
        vec![5, 5],
        vec![5, 4],
        vec![1, 2, 2],
        vec![-32768],
        vec![32768],
        vec![i32::MIN, i32::MAX],
        (0..65).collect(),
    ] {
        let mut handed = Handed::example();
        handed.levels = levels;
        assert_eq!(handed.refusal(), at(5, 0), "{:?}", handed.levels);
    }
    for levels in [vec![-32767, 32767], (0..64).collect()] {
        let mut handed = Handed::example();
        handed.levels = levels.clone();
        assert_eq!(read(handed.text()).unwrap().levels, levels.len());
    }
}

/// 'The writer tests 1 (the tag list's length too), 2, 7, 8, 5, 6'. Every set of faults is tried, so every
/// pair competes.
#[test]
fn the_writer_gives_the_first_refusal_of_its_order() {
    let order = [(1, 0), (2, 2), (7, 3), (8, 4), (5, 0), (6, 0)];
    for set in 0..64 {
        let fault = |i: usize| set >> i & 1 == 1;
        let mut handed = numbered(5);
        let mut room = handed.text();
        if fault(0) {
            handed.tags.push(0);
        }
        if fault(1) {
            handed.survey.z[2] = 32768;
        }
        if fault(2) {
            handed.set_tag(3, b"a\0b\0\0\0\0\0");
        }
        if fault(3) {
            handed.set_tag(4, b"1\0\0\0\0\0\0\0");
        }
        if fault(4) {
            handed.levels = vec![];
        }
        if fault(5) {
            room.truncate(9);
        }
        let before = room.clone();
        let answer = handed.write(&mut room);
        match (0..6).find(|&i| fault(i)) {
            None => assert_eq!(answer, Ok(before.len())),
            Some(i) => assert_eq!(answer, Err(at(order[i].0, order[i].1)), "{set:06b}"),
        }
        assert_eq!(room, before);
    }
}

/// 1,024 stations of the longest lines, 64 levels: the text is far under 65,535 bytes, so it is readable.
#[test]
fn the_longest_text_is_37742_bytes_and_is_read_back() {
    let n = 1024;
    let mut handed = Handed {
        style: 0,
        tags: (0..n)
            .flat_map(|i| format!("tag-{i:04}").into_bytes())
            .collect(),
        survey: Survey {
            x: vec![8191; n],
            y: vec![8191; n],
            z: vec![-32767; n],
        },
        levels: (-32767..-32703).collect(),
    };
    let text = handed.text();
    // Lines of 9, 15, 12; 13, 7, 7, 9 for each station; 10; 13 for each level.
    assert_eq!(
        text.len(),
        9 + 15 + 12 + n * (13 + 7 + 7 + 9) + 10 + 64 * 13
    );
    assert_eq!(text.len(), 37742);
    assert!(read(&text).is_ok());
    handed.style = 1;
    assert_eq!(handed.text().len(), 37740);
}

// Round trips.

/// A random survey in range for the writer, two stations at one place allowed, some tags differing only in
/// case.
fn random_handed(random: &mut Random) -> Handed {
    let n = 3 + random.below(30) as usize;
    let mut tags: Vec<[u8; 8]> = Vec::new();
    while tags.len() < n {
        let letters = b"aAbBzZ09-";
        let mut tag = [0; 8];
        let length = 1 + random.below(8) as usize;
        for byte in &mut tag[..length] {
            *byte = letters[random.below(letters.len() as u64) as usize];
        }
        for tag in [tag, tag.map(|byte| byte.to_ascii_uppercase())] {
            if tags.len() < n && !tags.contains(&tag) {
                tags.push(tag);
            }
        }
    }
    let mut levels: Vec<i32> = (0..1 + random.below(20))
        .map(|_| random.below(65535) as i32 - 32767)
        .collect();
    levels.sort();
    levels.dedup();
    let coordinate = |random: &mut Random| (random.below(8192) >> random.below(14)) as u32;
    Handed {
        style: random.below(2) as u32,
        tags: tags.concat(),
        survey: Survey {
            x: (0..n).map(|_| coordinate(random)).collect(),
            y: (0..n).map(|_| coordinate(random)).collect(),
            z: (0..n)
                .map(|_| (random.below(65535) as i32 - 32767) >> random.below(16))
                .collect(),
        },
        levels,
    }
}

#[test]
fn what_is_written_is_read_to_the_same_survey_and_written_to_the_same_text() {
    let mut random = Random::new(23);
    for _ in 0..300 {
        let handed = random_handed(&mut random);
        let n = handed.survey.n();
        let text = handed.text();
        let mut lent = Lent::new(n, handed.levels.len());
        let expected = Read {
            style: handed.style,
            stations: n,
            levels: handed.levels.len(),
        };
        assert_eq!(lent.read(&text), Ok(expected));
        assert_eq!(lent.x, handed.survey.x);
        assert_eq!(lent.y, handed.survey.y);
        assert_eq!(lent.z, handed.survey.z);
        assert_eq!(lent.tags, handed.tags);
        assert_eq!(lent.levels, handed.levels);
    }
}

/// Texts with a byte changed, put in or taken out: whatever is still accepted is written back to itself.
#[test]
fn what_is_read_is_written_back_exactly() {
    let mut random = Random::new(24);
    let mut accepted = 0;
    for _ in 0..20000 {
        let mut text = EXAMPLE.as_bytes().to_vec();
        for _ in 0..1 + random.below(2) {
            let place = random.below(text.len() as u64) as usize;
            let byte = b"0123456789-aZ=\n\0"[random.below(16) as usize];
            match random.below(3) {
                0 => text[place] = byte,
                1 => text.insert(place, byte),
                _ => {
                    text.remove(place);
                }
            }
        }
        let mut lent = Lent::new(1024, 64);
        if let Ok(read) = lent.read(&text) {
            let n = read.stations;
            let handed = Handed {
                style: read.style,
                tags: lent.tags[..8 * n].to_vec(),
                survey: Survey {
                    x: lent.x[..n].to_vec(),
                    y: lent.y[..n].to_vec(),
                    z: lent.z[..n].to_vec(),
                },
                levels: lent.levels[..read.levels].to_vec(),
            };
            assert_eq!(handed.text(), text);
            accepted += 1;
        }
    }
    assert!(accepted > 1000, "{accepted} accepted");
}

#[test]
fn two_stations_at_one_place_make_the_round_trip() {
    let mut handed = Handed::example();
    handed.survey.x[1] = 0;
    let text = handed.text();
    assert!(read(&text).is_ok());
    assert_eq!(text, with(&[(9, "x=0")]).as_bytes());
}
