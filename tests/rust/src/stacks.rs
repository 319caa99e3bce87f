//! Random stacks of two blocks: few sub-characters in a stack and few columns, so that every rule is met often; both sides of each limit.
use crate::plain::stack::{self, Request};
use crate::random::Random;

/// What one stack is drawn with, besides blanks and the hardblank.
const ALPHABETS: &[&[u8]] =
    &[b"|", b"|", b"|_", b"|a", b"-_", b"-_=", b"a", b"ab", b"/\\|", b"_/\\", b"_|<", b"[]{}", b"()<>|", b"|/\\[]{}()<>_-=ab", b"\x00\x01\n\r\t\xff"];
const HARDBLANKS: &[u8] = b"$$$$$$$$===|_-a/#\t\x7f\xe4";

/// What a `Request` borrows, and the area for the result.
pub struct Stack {
    pub upper: Vec<u8>,
    pub upper_width: usize,
    pub upper_height: usize,
    pub lower: Vec<u8>,
    pub lower_width: usize,
    pub lower_height: usize,
    pub hardblank: u8,
    pub layout: usize,
    pub out: Vec<u8>,
}

impl Stack {
    pub fn request(&self) -> Request<'_> {
        Request {
            upper: &self.upper,
            upper_width: self.upper_width,
            upper_height: self.upper_height,
            lower: &self.lower,
            lower_width: self.lower_width,
            lower_height: self.lower_height,
            hardblank: self.hardblank,
            layout: self.layout,
        }
    }
}

/// The vertical part of a Full_Layout.
pub fn vertical_layout(r: &mut Random) -> usize {
    let rules = 256 * r.below(32);
    match r.below(20) {
        0 => 0,
        1 => rules,
        2 | 3 => 8192,
        4 => 8192 + rules,
        5..=7 => 16384,
        8..=12 => 16384 + (256 << r.below(5)),
        13..=16 => 16384 + (rules | 4096),
        17 => 16384 + 8192 + rules,
        _ => 16384 + rules,
    }
}

/// A Full_Layout, whose horizontal part is not read; sometimes one that no header may have.
fn layout(r: &mut Random) -> usize {
    match r.below(100) {
        0 => r.pick(&[32767, 32768, 32768 + 16384, 65535, 65536, 1 << 32, usize::MAX]),
        1 => 32767,
        2..=30 => vertical_layout(r) + r.below(256),
        _ => vertical_layout(r),
    }
}

/// A column: blanks at both ends, then mostly the alphabet.
fn column(r: &mut Random, height: usize, alphabet: &[u8], hardblank: u8) -> Vec<u8> {
    let (above, below) = (r.below(height + 1) * r.below(2), r.below(height + 1) * r.below(2));
    let mut bytes = Vec::new();
    for k in 0..height {
        bytes.push(match r.below(16) {
            _ if k < above || k + below >= height => r.pick(&[b' ', b' ', b' ', hardblank]),
            0 | 1 => b' ',
            2 => hardblank,
            _ => r.pick(alphabet),
        });
    }
    bytes
}

fn block(r: &mut Random, height: usize, width: usize, alphabet: &[u8], hardblank: u8) -> Vec<u8> {
    let columns: Vec<Vec<u8>> = (0..width).map(|_| column(r, height, alphabet, hardblank)).collect();
    (0..height).flat_map(|row| columns.iter().map(move |c| c[row])).collect()
}

/// Heights of both blocks: small ones, those around a limit, and those whose stack has about 64 rows.
fn heights(r: &mut Random) -> (usize, usize) {
    let small = |r: &mut Random| r.between(1, 6);
    match r.below(60) {
        0 => (r.pick(&[0, 63, 64, 65]), small(r)),
        1 => (small(r), r.pick(&[0, 31, 32, 33])),
        2..=5 => {
            let lower = r.between(1, 32);
            ((64 + r.below(9) - lower).min(64), lower)
        }
        _ => (small(r), small(r)),
    }
}

fn width(r: &mut Random) -> usize {
    match r.below(300) {
        0 => r.between(998, 1001),
        1 => r.below(1001),
        _ => r.below(5),
    }
}

/// The room for the result: mostly exact, sometimes a byte short, or more, or nothing near it.
fn room(r: &mut Random, s: &Stack) -> usize {
    if !s.request().is_good() {
        return r.below(60);
    }
    let mut most = vec![0; (s.upper_height + s.lower_height) * s.upper_width.max(s.lower_width)];
    let answer = stack::stack(&s.request(), &mut most);
    let needed = ((answer >> 16) as u16 as usize) * (answer as u16 as usize);
    match r.below(16) {
        _ if answer >> 48 != 0 => r.pick(&[0, most.len()]),
        0 => needed.saturating_sub(1),
        1 => r.below(needed + 1),
        2 | 3 => needed + r.below(40),
        _ => needed,
    }
}

/// A stack: out of a hundred some ninety have a legal shape.
pub fn stack(r: &mut Random) -> Stack {
    let (upper_height, lower_height) = heights(r);
    let (upper_width, lower_width) = (width(r), width(r));
    let lower_width = if r.one_in(2) { upper_width } else { lower_width };
    let hardblank = if r.one_in(50) { r.pick(&[b' ', b'\r', b'\n', 0]) } else { r.pick(HARDBLANKS) };
    let alphabet = r.pick(ALPHABETS);
    let mut made = Stack {
        upper: block(r, upper_height, upper_width, alphabet, hardblank),
        upper_width,
        upper_height,
        lower: block(r, lower_height, lower_width, alphabet, hardblank),
        lower_width,
        lower_height,
        hardblank,
        layout: layout(r),
        out: Vec::new(),
    };
    if r.one_in(20) {
        spoil(r, &mut made);
    }
    let room = room(r, &made);
    made.out = r.bytes(room);
    made
}

fn spoil(r: &mut Random, s: &mut Stack) {
    let odd = r.pick(&[0, 33, 65, usize::MAX, usize::MAX / 2 + 1]);
    match r.below(9) {
        0 => s.upper.push(b' '),
        1 => s.lower.push(b'a'),
        2 => drop(s.upper.pop()),
        3 => drop(s.lower.pop()),
        4 => s.upper_width += 1,
        5 => s.lower_width = odd,
        6 => s.upper_height = odd,
        7 => s.lower_height = odd,
        _ => s.upper_width = usize::MAX,
    }
}
