//! Ways to damage the lines of a survey text.

use crate::random::Random;
use crate::texts::Sheet;

/// A way to damage a text. It takes any text, also one that is damaged already.
pub type Damage = fn(&mut Random, &mut Sheet);

pub const ALL: [Damage; 11] = [
    lose_line,
    double_line,
    swap_lines,
    change_digit,
    change_byte,
    misshape_number,
    exceed_range,
    change_key,
    misshape_tag,
    repeat_tag,
    disorder_levels,
];

/// The lines with this key.
fn lines_of(sheet: &Sheet, key: &[u8]) -> Vec<usize> {
    let has_key = |line: &[u8]| {
        line.strip_prefix(key)
            .is_some_and(|rest| rest.starts_with(b"="))
    };
    (0..sheet.len())
        .filter(|&line| has_key(&sheet[line]))
        .collect()
}

/// Two different lines of tags, the earlier first, if there are two.
pub fn two_tags(random: &mut Random, sheet: &Sheet) -> Option<(usize, usize)> {
    let mut tags = lines_of(sheet, b"tag");
    random.shuffle(&mut tags);
    match tags[..] {
        [one, other, ..] => Some((one.min(other), one.max(other))),
        _ => None,
    }
}

/// A line with a number, and the number.
fn pick_number(random: &mut Random, sheet: &Sheet) -> Option<(usize, Vec<u8>)> {
    const KEYS: [&[u8]; 7] = [b"survey", b"points", b"x", b"y", b"z", b"levels", b"level"];
    let lines = lines_of(sheet, random.pick(&KEYS));
    let line = *lines.get(random.below(lines.len().max(1)))?;
    let (_, number) = parted(&sheet[line])?;
    Some((line, number.to_vec()))
}

/// The key and the value of a line.
fn parted(line: &[u8]) -> Option<(&[u8], &[u8])> {
    let equals = line.iter().position(|&byte| byte == b'=')?;
    Some((&line[..equals], &line[equals + 1..]))
}

fn put_value(line: &mut Vec<u8>, value: &[u8]) {
    let key = parted(line).map_or(0, |(key, _)| key.len());
    line.truncate(key);
    line.push(b'=');
    line.extend_from_slice(value);
}

pub fn lose_line(random: &mut Random, sheet: &mut Sheet) {
    sheet.remove(random.below(sheet.len()));
}

pub fn double_line(random: &mut Random, sheet: &mut Sheet) {
    let line = random.below(sheet.len());
    sheet.insert(line, sheet[line].clone());
}

pub fn swap_lines(random: &mut Random, sheet: &mut Sheet) {
    let (one, other) = (random.below(sheet.len()), random.below(sheet.len()));
    sheet.swap(one, other);
}

pub fn change_digit(random: &mut Random, sheet: &mut Sheet) {
    let line = random.below(sheet.len());
    let line = &mut sheet[line];
    let digits: Vec<usize> = (0..line.len())
        .filter(|&at| line[at].is_ascii_digit())
        .collect();
    if !digits.is_empty() {
        line[random.pick(&digits)] = random.pick(b"0123456789");
    }
}

/// One byte more, less or other, at any place.
pub fn change_byte(random: &mut Random, sheet: &mut Sheet) {
    let line = random.below(sheet.len());
    let line = &mut sheet[line];
    let at = random.below(line.len() + 1);
    let byte = random.bits() as u8;
    match random.below(3) {
        0 => line.insert(at, byte),
        1 if at < line.len() => line[at] = byte,
        _ if at < line.len() => drop(line.remove(at)),
        _ => line.push(byte),
    }
}

pub fn misshape_number(random: &mut Random, sheet: &mut Sheet) {
    if let Some((line, number)) = pick_number(random, sheet) {
        put_value(&mut sheet[line], &misshapen(random, &number));
    }
}

/// 'Numbers are plain decimal with no leading zeros, no plus and no -0.'
fn misshapen(random: &mut Random, number: &[u8]) -> Vec<u8> {
    let shapes = [
        [b"0", number].concat(),
        [b"+", number].concat(),
        [b" ", number].concat(),
        [number, b" "].concat(),
        [number, b"."].concat(),
        [number, b"\r"].concat(),
        [b"-0", number].concat(),
        [b"--", number].concat(),
        [number, b"\0"].concat(),
        [number, b"/"].concat(),
        [number, b":"].concat(),
        b"".to_vec(),
        b"-".to_vec(),
        b"-0".to_vec(),
        b"00".to_vec(),
        b"0x7".to_vec(),
        b"1e1".to_vec(),
        "\u{661}".as_bytes().to_vec(),
    ];
    shapes[random.below(shapes.len())].clone()
}

pub fn exceed_range(random: &mut Random, sheet: &mut Sheet) {
    if let Some((line, _)) = pick_number(random, sheet) {
        let number = exceeding(random, &sheet[line]);
        put_value(&mut sheet[line], &number);
    }
}

/// A number of the form that the line may not have: next to its range, or of many digits, some of which come into the range when
/// they are cut to 16, 32 or 64 bits.
fn exceeding(random: &mut Random, line: &[u8]) -> Vec<u8> {
    let many = [&b"1"[..], &[b'0'; 299]].concat();
    let numbers: [&[u8]; 10] = [
        b"32768",
        b"-32768",
        b"65541",
        b"65536",
        b"99999",
        b"100000",
        b"-4294967291",
        b"4294967301",
        b"18446744073709551621",
        &many,
    ];
    if random.once_in(2) {
        random.pick(next_to_range(line)).to_vec()
    } else {
        random.pick(&numbers).to_vec()
    }
}

/// The numbers next to the range of a line, and some behind them.
fn next_to_range(line: &[u8]) -> &'static [&'static [u8]] {
    match parted(line) {
        Some((b"survey", _)) => &[b"0", b"2", b"-1", b"11"],
        Some((b"points", _)) => &[b"0", b"2", b"-3", b"1025", b"5000"],
        Some((b"levels", _)) => &[b"0", b"-1", b"65"],
        Some((b"x" | b"y", _)) => &[b"8192", b"-1", b"9999"],
        _ => &[b"32768", b"-32768"],
    }
}

pub fn change_key(random: &mut Random, sheet: &mut Sheet) {
    let line = random.below(sheet.len());
    mistake_key(random, &mut sheet[line]);
}

fn mistake_key(random: &mut Random, line: &mut Vec<u8>) {
    match random.below(4) {
        0 => line.iter_mut().take(1).for_each(|first| *first ^= 0x20),
        1 => line.insert(0, b' '),
        2 => line.retain(|&byte| byte != b'='),
        _ => drop(line.splice(..0, *b"no")),
    }
}

/// Makes one line of a right text wrong, whatever the other lines are.
pub fn spoil_line(random: &mut Random, line: &mut Vec<u8>) {
    let Some((key, value)) = parted(line) else {
        return;
    };
    let value = match key {
        _ if random.once_in(4) => return mistake_key(random, line),
        b"style" => {
            let words: [&[u8]; 5] = [b"", b"Smooth", b"straigh", b"smooth ", b"0"];
            random.pick(&words).to_vec()
        }
        b"tag" => wrong_tag(random),
        _ if random.once_in(2) => exceeding(random, line),
        _ => misshapen(random, value),
    };
    put_value(line, &value);
}

/// Puts one wrong tag.
pub fn misshape_tag(random: &mut Random, sheet: &mut Sheet) {
    if let Some((line, _)) = two_tags(random, sheet) {
        put_value(&mut sheet[line], &wrong_tag(random));
    }
}

/// 'A tag is 1 to 8 ASCII letters, digits or hyphens'
fn wrong_tag(random: &mut Random) -> Vec<u8> {
    const TAGS: [&[u8]; 8] = [
        b"",
        b"ABCDEFGHI",
        b"ABCDEFGH-1234567890",
        b"A7\0",
        b"\0",
        "\u{e9}7".as_bytes(),
        b"A7=",
        b"A7\r",
    ];
    if random.once_in(2) {
        return random.pick(&TAGS).to_vec();
    }
    let mut tag = b"ABCDEFGH"[..random.within(1, 8) as usize].to_vec();
    let at = random.below(tag.len());
    tag[at] = random.pick(NO_TAG_BYTES);
    tag
}

/// Bytes that no tag has: those next to letters, digits and the hyphen, and some others. Zero is not among them: it ends a tag
/// of the writer.
pub const NO_TAG_BYTES: &[u8] = b",./:@[`{_ =!~\x01\x7f\x80\xad\xb0\xc1\xe1\xff";

/// The bytes that a tag may have.
pub const TAG_BYTES: &[u8] = b"ABCDEFGHIJKLMNOPQRSTUVWXYZabcdefghijklmnopqrstuvwxyz0123456789-";

pub fn repeat_tag(random: &mut Random, sheet: &mut Sheet) {
    if let Some((earlier, later)) = two_tags(random, sheet) {
        sheet[later] = sheet[earlier].clone();
    }
}

/// Puts one level line in the place of another, or one more or fewer than the levels line says.
pub fn disorder_levels(random: &mut Random, sheet: &mut Sheet) {
    let lines = lines_of(sheet, b"level");
    let Some(&last) = lines.last() else {
        return;
    };
    let line = random.pick(&lines);
    match random.below(3) {
        0 if line != last => sheet.swap(line, last),
        1 => drop(sheet.remove(line)),
        _ => sheet.insert(last, sheet[line].clone()),
    }
}
