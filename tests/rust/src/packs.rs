//! Random packs, intact and damaged, letters to put into them, and packs with the letters of a font.
use crate::plain::font::{Character, Font};
use crate::plain::pack::{self, Pack, Record, HEAD, RECORD_HEAD};
use crate::random::Random;

const HARDBLANKS: &[u8] = b"$$$$$$|_/Y#=\t\x01\x7f\xe4";
const MARKS: &[u8] = b"|/\\[]{}()<>_$#@ab -\x7f\xff";
/// The codes of some letters: those of most texts, and a few that need all four bytes.
const CODES: &[i32] = &[0, 0, 1, 97, 98, 99, 100, 65, 66, 67, 68, 124, 95, 32, 255, 256, 65536, -2, i32::MIN, i32::MAX];

/// What a pack is made of.
struct Shape {
    height: usize,
    hardblank: u8,
    widths: &'static [usize],
}

fn shape(r: &mut Random) -> Shape {
    let widths: &[&[usize]] = &[&[1], &[0, 1], &[1, 2, 3], &[1, 2, 3], &[0, 2, 5, 9], &[199], &[0, 198, 199]];
    let height = if r.one_in(20) { r.between(1, 32) } else { r.between(1, 3) };
    Shape { height, hardblank: r.pick(HARDBLANKS), widths: r.pick(widths) }
}

/// The bytes of some rows: mostly those that the rules speak of.
fn rows(r: &mut Random, length: usize, hardblank: u8) -> Vec<u8> {
    let from = r.below(MARKS.len());
    let mark = |r: &mut Random| if r.one_in(5) { r.pick(MARKS) } else { MARKS[(from + r.below(3)) % MARKS.len()] };
    (0..length).map(|_| if r.one_in(6) { hardblank } else { mark(r) }).collect()
}

fn record(kind: u8, code: i32, width: usize, rows: &[u8]) -> Vec<u8> {
    [&[kind][..], &code.to_be_bytes(), &[width as u8], rows].concat()
}

fn head(height: usize, hardblank: u8) -> Vec<u8> {
    vec![b'C', b'F', b'P', 0, 1, height as u8, hardblank]
}

/// Some records behind the head: live ones of different codes, and free ones of any.
fn records(r: &mut Random, s: &Shape, count: usize) -> Vec<u8> {
    let (mut made, mut used) = (head(s.height, s.hardblank), Vec::new());
    let frees = r.pick(&[0, 1, 1, 2, 4]);
    for _ in 0..count {
        let code = if r.one_in(12) { (r.next() as i32).max(0) } else { r.pick(CODES) };
        let (width, live) = (r.pick(s.widths), r.below(5) >= frees && !used.contains(&code));
        made.extend(record(if live { 1 } else { 2 }, code, width, &rows(r, s.height * width, s.hardblank)));
        if live {
            used.push(code);
        }
    }
    made
}

/// Free records and last one live letter of width 0, to the last byte of the largest pack: the place of its rows is 65,536.
fn full(r: &mut Random) -> Vec<u8> {
    let mut made = head(1, r.pick(HARDBLANKS));
    while made.len() < 65530 {
        let left = 65530 - made.len() - RECORD_HEAD;
        let width = if left > 199 { r.between(150, 199).min(left - RECORD_HEAD) } else { left };
        made.extend(record(2, r.pick(CODES), width, &vec![b'a'; width]));
    }
    made.extend(record(1, r.pick(CODES), 0, b""));
    made
}

/// How many zeros stand behind: often none, or about as many as one more record needs.
fn behind(r: &mut Random, s: &Shape, length: usize) -> usize {
    let next = RECORD_HEAD + s.height * r.pick(s.widths);
    let most = 65536 - length.min(65536);
    match r.below(20) {
        0 => most,
        1 => most + r.below(3),
        2..=5 => 0,
        6..=12 => next - 1 + r.below(3),
        _ => r.below(60),
    }
}

/// A pack that is intact but for its length, which is sometimes too large.
pub fn pack(r: &mut Random) -> Vec<u8> {
    if r.one_in(60) {
        return full(r);
    }
    let (s, count) = (shape(r), if r.one_in(6) { 0 } else { r.below(9) });
    let mut made = records(r, &s, count);
    let zeros = behind(r, &s, made.len());
    made.resize(made.len() + zeros, 0);
    made
}

/// One byte of a record, by what it is.
fn spoil_record(r: &mut Random, pack: &mut [u8], read: &Pack, record: &Record) {
    let (at, other) = (record.place, read.records[r.below(read.records.len())]);
    match r.below(6) {
        0 => pack[at] = r.pick(&[0, 3, 255]),
        1 => pack[at + 1..at + 5].fill(255),
        2 => pack[at + 5] = r.pick(&[200, 255, record.width as u8 + 1]),
        3 if record.width > 0 => pack[at + RECORD_HEAD + r.below(read.height * record.width)] = r.pick(&[0, 10, 31, 2]),
        4 => pack.copy_within(other.place + 1..other.place + 5, at + 1),
        _ => pack[at] = 3 - pack[at],
    }
}

/// One edit of an intact pack: mostly it is damaged then.
pub fn damage(r: &mut Random, pack: &mut Vec<u8>) {
    let Ok(read) = pack::intact(pack) else { return };
    match r.below(16) {
        0 => pack[r.below(3)] ^= 32,
        1 => pack[3 + r.below(2)] = r.pick(&[0, 1, 2, 255]),
        2 => pack[5] = r.pick(&[0, 33, 255, 32]),
        3 => pack[6] = r.pick(b" \r\n\0$"),
        4 => pack.truncate(r.below(HEAD + 1)),
        5 => pack.truncate(r.between(HEAD, pack.len())),
        6 => pack.truncate(read.end.saturating_sub(r.below(4)).max(HEAD)),
        7 => pack.extend_from_slice(r.pick(&[&b"\x01"[..], b"\x02\0", b"\x00\x01", b"\x03", b"\x01\0\0\0a"])),
        8 => pack.resize(r.between(65535, 65538).max(pack.len()), 0),
        _ if read.records.is_empty() => pack.push(r.byte()),
        _ => {
            let record = read.records[r.below(read.records.len())];
            spoil_record(r, pack, &read, &record);
        }
    }
}

/// A code that a pack has, live or free, or another one, and sometimes -1.
pub fn code(r: &mut Random, read: &Option<Pack>) -> i32 {
    match read {
        _ if r.one_in(20) => -1,
        Some(read) if !read.records.is_empty() && !r.one_in(4) => read.records[r.below(read.records.len())].code,
        _ => r.pick(CODES),
    }
}

/// A letter that is to be put.
#[derive(Clone, Debug)]
pub struct Letter {
    pub code: i32,
    pub width: usize,
    pub rows: Vec<u8>,
}

fn spoil_letter(r: &mut Random, letter: &mut Letter, height: usize) {
    match r.below(7) {
        0 => letter.code = -1,
        1 => letter.rows.push(b'a'),
        2 => drop(letter.rows.pop()),
        3 => letter.width = r.pick(&[letter.width + 1, 65536, letter.width + (1 << 16), 1 << 32, usize::MAX]),
        4 if !letter.rows.is_empty() => {
            let at = r.below(letter.rows.len());
            letter.rows[at] = r.pick(&[0, 1, 9, 10, 31]);
        }
        5 => *letter = Letter { code: letter.code, width: 200, rows: vec![b'a'; 200 * height] },
        _ => letter.rows.clear(),
    }
}

/// A letter for a pack: mostly one that has a width of its records, or just fits behind them.
pub fn letter(r: &mut Random, read: &Option<Pack>, length: usize) -> Letter {
    let height = read.as_ref().map_or(1, |read| read.height);
    let hardblank = read.as_ref().map_or(b'$', |read| read.hardblank);
    let left = read.as_ref().map_or(0, |read| (length - read.end).saturating_sub(RECORD_HEAD) / height);
    let width = match read {
        Some(read) if !read.records.is_empty() && r.one_in(2) => read.records[r.below(read.records.len())].width,
        _ if r.one_in(3) => (left + r.below(2)).min(199),
        _ => r.pick(&[0, 1, 1, 2, 3, 5, 199]),
    };
    let code = if r.one_in(3) { code(r, read) } else { r.pick(CODES) };
    let mut made = Letter { code, width, rows: rows(r, height * width, hardblank) };
    if r.one_in(8) {
        spoil_letter(r, &mut made, height);
    }
    made
}

/// A pack whose live records are the characters of a font, in some order and with free records between them; none if a code repeats, or if it is too long.
pub fn of_font(r: &mut Random, bytes: &[u8], font: &Font) -> Option<Vec<u8>> {
    let (height, mut left): (usize, Vec<&Character>) = (font.header.height, font.characters.iter().collect());
    let repeats = |(k, c): (usize, &Character)| font.characters[..k].iter().any(|other| other.code == c.code);
    let mut made = head(height, font.header.hardblank);
    if font.characters.iter().enumerate().any(repeats) {
        return None;
    }
    while !left.is_empty() {
        let next = if r.one_in(9) { r.below(left.len()) } else { 0 };
        let character = left.remove(next);
        let rows: Vec<u8> = character.rows.iter().flat_map(|at| &bytes[*at..*at + character.width]).copied().collect();
        if r.one_in(30) {
            made.extend(record(2, character.code, character.width, &rows));
        }
        made.extend(record(1, character.code, character.width, &rows));
    }
    let zeros = r.below(40) * r.below(2);
    made.resize(made.len() + zeros, 0);
    (made.len() <= 65536).then_some(made)
}

/// A direction: mostly one that a font may have.
pub fn direction(r: &mut Random) -> usize {
    if r.one_in(20) {
        r.pick(&[2, 256, 1 << 32, usize::MAX])
    } else {
        r.below(2)
    }
}
