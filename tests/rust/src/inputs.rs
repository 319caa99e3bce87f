//! Random input, long and short, valid and damaged.
use crate::plain::join::Request;
use crate::random::Random;
use crate::stacks::vertical_layout;

const MARKS: &[u8] = b"|/\\[]{}()<>_$#@ab";
/// What some fonts are drawn with, so that their lines close up by every vertical rule.
const FEW: &[&[u8]] = &[b"|", b"|", b"-_", b"-_", b"-_|", b"a"];
const HARDBLANKS: &[u8] = b"$$$$$$|_/Y#=\t\x7f\xe4";
/// Codes that few fonts have, as a control file may write them.
const MISSING: &[&str] = &["0", "0", "-1", "0x80", "1000", "-2147483648"];
/// The codes that a backslash and a letter stand for.
const ESCAPED: &[u8] = &[7, 8, 27, 12, 10, 13, 9, 11, 92, 32];
const ENDS: &[&[u8]] = &[b"\n", b"\n", b"\r\n", b"\r"];

/// A hardblank that is nearly always legal.
fn hardblank(r: &mut Random) -> u8 {
    match r.below(40) {
        0 => r.pick(b" \r\n\0"),
        1 => r.byte(),
        _ => r.pick(HARDBLANKS),
    }
}

/// Sub-characters of a row: blanks at both edges, then mostly those that the rules speak of.
fn row(r: &mut Random, width: usize, marks: &[u8], hardblank: u8, any: bool) -> Vec<u8> {
    let (left, right) = (r.below(width + 1) * r.below(2), r.below(width + 1) * r.below(2));
    let few = r.pick(&[2, 4, 17]).min(marks.len());
    let from = r.below(marks.len() - few + 1);
    let mut bytes = Vec::new();
    for k in 0..width {
        bytes.push(match r.below(12) {
            _ if k < left || k + right >= width => b' ',
            0 => b' ',
            1 => hardblank,
            2 if any => r.byte(),
            _ => r.pick(&marks[from..from + few]),
        });
    }
    bytes
}

/// What a `Request` borrows.
pub struct Join {
    pub line: Vec<u8>,
    pub line_width: usize,
    pub character: Vec<u8>,
    pub character_width: usize,
    pub height: usize,
    pub hardblank: u8,
    pub layout: usize,
    pub direction: usize,
    pub out: Vec<u8>,
}

impl Join {
    pub fn request(&self) -> Request<'_> {
        Request {
            line: &self.line,
            line_width: self.line_width,
            character: &self.character,
            character_width: self.character_width,
            height: self.height,
            hardblank: self.hardblank,
            layout: self.layout,
            direction: self.direction,
        }
    }
}

fn rows(r: &mut Random, height: usize, width: usize, hardblank: u8) -> Vec<u8> {
    let any = r.one_in(4);
    (0..height).flat_map(|_| row(r, width, MARKS, hardblank, any)).collect()
}

pub fn layout(r: &mut Random) -> usize {
    match r.below(40) {
        0 => r.pick(&[32767, 32768, 65535, 1 << 32, usize::MAX]),
        1..=4 => 0,
        5 | 6 => r.below(64),
        7..=12 => 64,
        13..=19 => 128,
        20..=25 => r.below(32768),
        26..=31 => 128 + (1 << r.below(6)),
        _ => 128 + r.below(64),
    }
}

fn width(r: &mut Random, most: usize) -> usize {
    match r.below(200) {
        0 => r.between(most - 3, most + 1),
        1 => r.below(most + 1),
        2..=20 => 0,
        _ => r.below(9),
    }
}

/// A join: out of a hundred some ninety have a legal shape.
pub fn join(r: &mut Random) -> Join {
    let height = match r.below(100) {
        0 => r.pick(&[0, 31, 32, 33]),
        _ => r.between(1, 5),
    };
    let (line_width, character_width) = (width(r, 1000), width(r, 199));
    let hardblank = hardblank(r);
    let mut made = Join {
        line: rows(r, height, line_width, hardblank),
        line_width,
        character: rows(r, height, character_width, hardblank),
        character_width,
        height,
        hardblank,
        layout: layout(r),
        direction: r.below(2),
        out: Vec::new(),
    };
    let room = height * (line_width + character_width);
    let room = if r.one_in(8) { r.below(room + 1) } else { room + r.below(9) };
    made.out = r.bytes(room);
    if r.one_in(20) {
        spoil(r, &mut made);
    }
    made
}

fn spoil(r: &mut Random, j: &mut Join) {
    match r.below(7) {
        0 => j.line.push(b' '),
        1 => j.character.push(b'a'),
        2 => j.line_width += 1,
        3 => j.character_width = usize::MAX,
        4 => j.height = r.pick(&[0, 33, usize::MAX, usize::MAX / 2 + 1]),
        5 => j.direction = r.pick(&[2, 3, 256, usize::MAX]),
        _ => drop(j.line.pop()),
    }
}

/// One of: a byte changed, taken out, put in; a part cut off, doubled, or bytes put behind.
pub fn damage(r: &mut Random, file: &mut Vec<u8>) {
    if file.is_empty() {
        return;
    }
    let at = r.below(file.len());
    let byte = if r.one_in(2) { r.pick(b"\n\r \t0-x@$1") } else { r.byte() };
    match r.below(8) {
        0 | 1 => file[at] = byte,
        2 => drop(file.remove(at)),
        3 => file.insert(at, byte),
        4 => file.truncate(at),
        5 => file.extend_from_within(at..),
        6 => file.extend_from_slice(r.pick(&[&b"\n"[..], b" \t\r\n", b"\x1a", b"\n5\n", b"-1\n", b"  0x80000000\n", b"0"])),
        _ => file.truncate(file.len() - 1),
    }
}

/// A number as a header or a tag may write it, near a value.
fn digits(r: &mut Random, n: i64) -> Vec<u8> {
    match r.below(100) {
        0 => format!("{n:05}"),
        1 => format!("{n:011}"),
        2 => format!("+{n}"),
        3 => format!("{n}x"),
        4 if n == 0 => "-0".into(),
        _ => format!("{n}"),
    }
    .into_bytes()
}

fn optional(r: &mut Random, most: usize) -> i64 {
    match r.below(40) {
        0 => -1,
        1 => most as i64 + 1,
        2 => 2147483648,
        3 => 2147483647,
        _ => r.below(most + 1) as i64,
    }
}

/// The numbers of a font, and what it is drawn with.
pub struct Sizes {
    pub hardblank: u8,
    pub marks: &'static [u8],
    pub height: usize,
    pub max_length: usize,
    pub comments: usize,
    /// Blanks and tabs behind the marks of some rows.
    pub gaps: bool,
    pub wild: bool,
}

fn header(r: &mut Random, s: &Sizes) -> Vec<u8> {
    let baseline = if s.wild && r.one_in(8) { r.below(s.height + 2) } else { r.between(1, s.height) };
    let rules = r.below(64) as i64;
    let old = r.pick(&[-1, -1, 0, 0, 1, 15, 63, rules]);
    let old = if s.wild && r.one_in(16) { r.pick(&[-2, 64]) } else { old };
    let mut numbers = vec![s.height as i64, baseline as i64, s.max_length as i64, old, s.comments as i64];
    let more = r.below(4);
    let full = if s.wild { optional(r, 32767) } else { (layout(r).min(32767) | vertical_layout(r)) as i64 };
    numbers.extend(&[r.below(2) as i64, full, 5][..more]);
    if s.wild && more > 0 {
        numbers[5] = optional(r, 1);
    }
    let mut line = b"flf2a".to_vec();
    line.push(s.hardblank);
    for n in numbers {
        line.push(if r.one_in(20) { b'\t' } else { b' ' });
        line.extend(if s.wild { digits(r, n) } else { n.to_string().into_bytes() });
    }
    if r.one_in(10) {
        line.extend(b" x 9");
    }
    line
}

/// Some blanks and tabs.
fn gaps(r: &mut Random, most: usize) -> Vec<u8> {
    let kinds = r.pick(&[&b" "[..], b" ", b"\t", b" \t"]);
    let length = r.between(1, most);
    (0..length).map(|_| r.pick(kinds)).collect()
}

/// A row line that is mostly bad: of blanks and tabs alone, longer than Max_Length by its marks, or with a byte that is put in.
fn bad_row(r: &mut Random, s: &Sizes, line: &mut Vec<u8>) {
    match r.below(4) {
        0 => *line = gaps(r, 2 * s.max_length),
        1 => line.resize(s.max_length + 1, b'@'),
        2 => line.insert(0, r.pick(b"\t\t\x01")),
        _ => line.insert(0, b'a'),
    }
    if r.one_in(2) {
        line.extend(gaps(r, 3));
    }
}

/// The rows of a character, each with one to three endmarks.
fn character(r: &mut Random, s: &Sizes, end: &[u8], out: &mut Vec<u8>) {
    let width = if s.max_length > 100 && r.one_in(3) { s.max_length - 1 } else { r.below(s.max_length.min(7)) };
    for _ in 0..s.height {
        let mut bytes = row(r, width, s.marks, s.hardblank, false);
        let last = bytes.last().copied();
        let mark = if last == Some(b'@') { b'!' } else { b'@' };
        let most = s.max_length - width;
        bytes.extend(std::iter::repeat(mark).take(r.between(1, most.min(3))));
        if s.gaps && r.one_in(3) {
            bytes.extend(gaps(r, 3));
        }
        if s.wild && r.one_in(2000) {
            bad_row(r, s, &mut bytes);
        }
        out.extend(bytes);
        out.extend(end);
    }
}

fn tag(r: &mut Random, wild: bool) -> Vec<u8> {
    let n = match r.below(5) {
        0 => r.next() as i32 as i64,
        1 => r.pick(ESCAPED) as i64,
        2 => 0,
        _ => r.below(256) as i64,
    };
    let n = if n == -1 { 0 } else { n };
    let (minus, size) = if n < 0 { ("-", -n) } else { ("", n) };
    let mut text = match r.below(6) {
        0 => format!("{minus}0x{size:x}"),
        1 => format!("{minus}0X{size:05X}"),
        2 => format!("{minus}0{size:o}"),
        3 => format!("  {n} a comment"),
        4 => format!("{n}\t "),
        _ => format!("{n}"),
    };
    if wild && r.one_in(10) {
        let odd = ["-1", "-0x1", "08", "0x", "", "2147483648", "0x80000000", "-2147483648", "-0x80000001", "00000000000000000000101", "+5", "1,"];
        text = r.pick(&odd).into();
    }
    text.into_bytes()
}

/// A font's numbers, and what it is drawn with.
pub fn sizes(r: &mut Random, wild: bool) -> Sizes {
    let marks = if r.one_in(4) { r.pick(FEW) } else { MARKS };
    let hardblank = match wild {
        true => hardblank(r),
        // The joint of the two is the hardblank's byte then.
        false if marks == b"-_" => b'=',
        false => r.pick(HARDBLANKS),
    };
    Sizes {
        hardblank,
        marks,
        height: if r.one_in(30) { r.between(1, 32) } else { r.between(1, 4) },
        max_length: if r.one_in(30) { r.between(180, 200) } else { r.between(1, 9) },
        comments: r.below(4) * r.below(2),
        gaps: r.one_in(3),
        wild,
    }
}

/// The lines of a font: header, comments, the required characters, and so many behind them, each with a tag.
pub fn lines(r: &mut Random, s: &Sizes, many: impl Fn(&mut Random) -> usize, tag: impl Fn(&mut Random) -> Vec<u8>) -> Vec<u8> {
    let end = r.pick(ENDS);
    let mut font = header(r, s);
    font.extend(end);
    for _ in 0..s.comments {
        font.extend(r.pick(&[&b"a comment"[..], b"", b" "]));
        font.extend(end);
    }
    let tags = many(r);
    for k in 0..102 + tags {
        if k >= 102 {
            font.extend(tag(r));
            font.extend(end);
        }
        character(r, s, end, &mut font);
    }
    font
}

/// A font: mostly small, sometimes high, wide or with many characters; `wild` ones are mostly refused.
pub fn font(r: &mut Random) -> Vec<u8> {
    let wild = r.one_in(3);
    let s = sizes(r, wild);
    let many = |r: &mut Random| if r.one_in(40) { r.between(405, 413) } else { r.below(5) * r.below(2) };
    let mut font = lines(r, &s, many, |r| tag(r, wild));
    if wild && r.one_in(2) {
        damage(r, &mut font);
    }
    if r.one_in(100) {
        let size = r.between(65534, 65538);
        font.resize(size, b' ');
    }
    font
}

fn control_character(r: &mut Random) -> Vec<u8> {
    match r.below(12) {
        0 | 1 => vec![b'\\', r.pick(b" abefnrtv\\")],
        5 => [b"\\".to_vec(), tag(r, true)].concat(),
        2 => vec![b'-'],
        3 => vec![r.byte()],
        4 => vec![b'\\', r.byte()],
        _ => vec![r.pick(b"abcdABCD")],
    }
}

fn field(r: &mut Random, range: bool) -> Vec<u8> {
    let mut bytes = control_character(r);
    if range {
        bytes.push(b'-');
        bytes.extend(control_character(r));
    }
    bytes
}

/// A range of some size, so that two of one size are met.
fn easy_range(r: &mut Random, size: usize) -> Vec<u8> {
    let first = r.between(b'a' as usize, b'm' as usize);
    match r.below(3) {
        0 => format!("\\{}-\\0x{:x}", first, first + size),
        1 => format!("{}-\\{}", first as u8 as char, first + size),
        _ => format!("{}-{}", first as u8 as char, (first + size) as u8 as char),
    }
    .into_bytes()
}

fn command(r: &mut Random) -> Vec<u8> {
    let gap = r.pick(&[&b" "[..], b"\t", b"  ", b" ", b" ", b" "]);
    let tail = r.pick(&[&b""[..], b"", b"", b"", b" x", b"\t# y", b"z"]);
    let tail = if r.one_in(3) { tail } else { b"" };
    match r.below(18) {
        0 => b"f".to_vec(),
        1 => r.pick(&[&b"# t"[..], b"", b" \t", b"frest", b"flc2a"]).to_vec(),
        2 => [&tag(r, true)[..], gap, &tag(r, false), tail].concat(),
        3 => {
            let (a, b) = (r.one_in(2), r.one_in(2));
            [b"t", gap, &field(r, a), gap, &field(r, b), tail].concat()
        }
        4..=6 => {
            let size = r.below(4);
            let other = if r.one_in(6) { r.below(4) } else { size };
            [b"t", gap, &easy_range(r, size), gap, &easy_range(r, other), tail].concat()
        }
        12..=15 => [b"t", gap, &[r.pick(b"abcdABCD")], gap, b"\\", r.pick(MISSING).as_bytes(), tail].concat(),
        16 | 17 => [r.pick(ESCAPED).to_string().as_bytes(), gap, r.pick(&["0", "65", "98"]).as_bytes(), tail].concat(),
        7 if r.one_in(6) => [&[r.pick(b"hjbugcds T\x0c")][..], b" x"].concat(),
        _ => [b"t", gap, &[r.pick(b"abcdABCD")], gap, &[r.pick(b"abcdABCD")], tail].concat(),
    }
}

/// A control file, mostly of a few lines.
pub fn control(r: &mut Random) -> Vec<u8> {
    let lines = match r.below(60) {
        0 => 400,
        1..=15 => 0,
        _ => r.below(7),
    };
    let end = r.pick(ENDS);
    let mut file = Vec::new();
    if r.one_in(3) {
        file.extend(b"flc2a any");
        file.extend(end);
    }
    for _ in 0..lines {
        file.extend(if lines == 400 && !r.one_in(200) { r.pick(&[&b"t A B"[..], b"97 98", b"t \\65-\\70 a-f"]).to_vec() } else { command(r) });
        file.extend(end);
    }
    if r.one_in(300) {
        let stages = r.between(61, 66);
        file.extend(b"f\n".repeat(stages));
    }
    if r.one_in(10) {
        damage(r, &mut file);
    }
    if r.one_in(300) {
        let size = r.between(16382, 16386);
        file.resize(size, b'\n');
    }
    file
}

/// A text, mostly short and of letters.
pub fn text(r: &mut Random) -> Vec<u8> {
    let length = match r.below(60) {
        0 => r.between(1020, 1026),
        1 => r.between(100, 1024),
        2..=5 => 0,
        _ => r.below(24),
    };
    let (any, odd) = (r.one_in(5), r.one_in(20));
    let one = |r: &mut Random| match r.below(8) {
        _ if odd => r.pick(ESCAPED),
        0 if r.one_in(4) => 0,
        0 => r.pick(ESCAPED),
        1..=4 if any => r.byte(),
        1 | 2 => r.pick(b"abcdABCD"),
        _ => r.between(32, 126) as u8,
    };
    (0..length).map(|_| one(r)).collect()
}

/// Letters and signs, so many.
fn letters(r: &mut Random, length: usize) -> Vec<u8> {
    (0..length).map(|_| r.between(32, 126) as u8).collect()
}

/// Two texts: half of the time of a few letters, so that their lines close up in many ways, and sometimes both about as long as a text may be.
pub fn two_texts(r: &mut Random) -> [Vec<u8>; 2] {
    let (least, most) = match r.below(200) {
        0 => (1022, 1026),
        1 | 2 => (900, 1024),
        3..=100 => (0, 3),
        _ => return [text(r), text(r)],
    };
    let lengths = [r.between(least, most), r.between(least, most)];
    lengths.map(|length| letters(r, length))
}
