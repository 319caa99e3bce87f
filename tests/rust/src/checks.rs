//! Random FIGures and lists of overlaps for a check: the right ones, and what another program may have made of them.
use crate::inputs;
use crate::plain::check::Right;
use crate::random::Random;

const BYTES: &[u8] = &[0, 1, 2, 7, 196, 200, 214, 233];
const LETTERS: &[u8] = b"abcdABCD|/_ 1";

/// What a check is asked for.
pub struct Made {
    pub font: Vec<u8>,
    pub control: Vec<u8>,
    pub text: Vec<u8>,
}

fn tag(r: &mut Random) -> Vec<u8> {
    r.pick(&[0, 0, 1, 7, 97, 196, 200, 8211, -2]).to_string().into_bytes()
}

fn font(r: &mut Random, own: &[u8]) -> Vec<u8> {
    if r.one_in(10) {
        return own.to_vec();
    }
    let wild = r.one_in(12);
    let sizes = inputs::sizes(r, wild);
    let many = |r: &mut Random| if r.one_in(60) { r.between(409, 411) } else { r.below(5) * r.below(2) };
    let mut font = inputs::lines(r, &sizes, many, tag);
    match r.below(400) {
        0 => font.resize(r.between(65535, 65537), b' '),
        1 => font.truncate(r.below(8)),
        _ => {}
    }
    if r.one_in(20) {
        inputs::damage(r, &mut font);
    }
    font
}

/// A text: mostly short, sometimes of one letter alone, of bytes that few fonts have, or about as long as one may be.
fn text(r: &mut Random) -> Vec<u8> {
    let length = match r.below(60) {
        0 => r.between(1022, 1026),
        1 => r.between(100, 1024),
        2..=10 => r.below(2),
        _ => r.below(12),
    };
    let rare = r.pick(&[0, 0, 1, 3, 8]);
    let letter = [r.pick(LETTERS)];
    let letters = if r.one_in(5) { &letter } else { LETTERS };
    (0..length).map(|_| if r.below(8) < rare { r.pick(BYTES) } else { r.pick(letters) }).collect()
}

/// A text for a font of letters of one column: a line that is about as wide as one may be, or about as many letters of width 0 as there may be.
fn long_text(r: &mut Random) -> Vec<u8> {
    if r.one_in(4) {
        return vec![196; r.between(1023, 1025)];
    }
    let length = r.between(999, 1001);
    (0..length).map(|_| r.pick(b"abc")).collect()
}

/// A control file: mostly none, but for half of the texts that are too long.
fn control(r: &mut Random, text: &[u8]) -> Vec<u8> {
    match r.below(8) {
        0 => inputs::control(r),
        4..=6 if text.len() > 1024 => inputs::control(r),
        1 => r.pick(&[&b"t a \\0\nt b \\1"[..], b"t a \\200", b"t a b\nf\nt b c", b"t A \\8211\nt B \\-2", b"t a \\-1"]).to_vec(),
        2 if r.one_in(20) => vec![b'\n'; r.between(16383, 16386)],
        _ => Vec::new(),
    }
}

/// What is drawn; `own` is a font, and `narrow` one of letters of one column.
pub fn made(r: &mut Random, own: &[u8], narrow: &[u8]) -> Made {
    if r.one_in(40) {
        return Made { font: narrow.to_vec(), control: Vec::new(), text: long_text(r) };
    }
    let text = text(r);
    Made { font: font(r, own), control: control(r, &text), text }
}

/// The places of the LFs.
fn ends(figure: &[u8]) -> Vec<usize> {
    (0..figure.len()).filter(|k| figure[*k] == b'\n').collect()
}

/// What goes wrong at the end of a row: a blank more, the last byte lost, blanks dropped, CR before the LF, the LF lost or doubled.
fn spoil_end(r: &mut Random, figure: &mut Vec<u8>) {
    let end = r.pick(&ends(figure));
    match r.below(6) {
        0 | 1 => figure.insert(end, b' '),
        2 if end > 0 => drop(figure.remove(end - 1)),
        3 => {
            let blanks = figure[..end].iter().rev().take_while(|b| **b == b' ').count();
            figure.drain(end - blanks..end);
        }
        4 => figure.insert(end, b'\r'),
        5 => figure.insert(end, b'\n'),
        _ => drop(figure.remove(end)),
    }
}

/// A FIGure that is mostly wrong.
fn spoil_figure(r: &mut Random, figure: &mut Vec<u8>, hardblank: u8) {
    let at = r.below(figure.len());
    match r.below(10) {
        0 | 1 => figure[at] = r.pick(b"ab |/_$\0\n\r"),
        2 => {
            // Two bytes, of which the first is to be told.
            figure[at] ^= 1;
            let other = r.below(figure.len());
            figure[other] ^= 1;
        }
        3 => figure.truncate(at),
        4 => figure.truncate(figure.len() - 1),
        5 => figure.extend_from_slice(r.pick(&[&b"\n"[..], b" ", b"\0", b"a", b" \n", b"\n\n\n"])),
        6 => figure.extend_from_within(..),
        7 => {
            // The hardblanks left as they are.
            let blanks: Vec<usize> = (0..figure.len()).filter(|k| figure[*k] == b' ').collect();
            if !blanks.is_empty() {
                figure[r.pick(&blanks)] = hardblank;
            }
        }
        _ => spoil_end(r, figure),
    }
}

/// The FIGure: right two times out of five.
pub fn figure(r: &mut Random, right: &Right, hardblank: u8) -> Vec<u8> {
    let mut figure = right.figure.clone();
    match r.below(50) {
        0 => figure.clear(),
        1 => figure = r.bytes(40),
        2 => figure = vec![b' '; 40000],
        3..=30 => spoil_figure(r, &mut figure, hardblank),
        _ => {}
    }
    figure
}

/// One overlap that is mostly wrong: by one, by much, or by bits that a smaller number has not.
fn spoil_overlap(r: &mut Random, overlap: &mut usize) {
    *overlap = match r.below(8) {
        0..=2 => overlap.wrapping_add(1),
        3 => overlap.saturating_sub(1),
        4 => 0,
        5 => *overlap + r.pick(&[256, 65536, 1 << 32, 1 << 48]),
        6 => usize::MAX,
        _ => r.below(1002),
    }
}

/// A list of another length: by one at either end, without or with much more.
fn spoil_length(r: &mut Random, list: &mut Vec<usize>) {
    match r.below(7) {
        0 => list.insert(0, 0),
        1 | 2 => list.push(r.below(2)),
        3 | 4 => drop(list.pop()),
        5 => list.clear(),
        _ => list.resize(r.pick(&[1022, 1023, 1024, 3000]), 0),
    }
}

/// The list: right half of the time.
pub fn overlaps(r: &mut Random, right: &Right) -> Vec<usize> {
    let mut list = right.overlaps.clone();
    match r.below(12) {
        0 | 1 => spoil_length(r, &mut list),
        2..=5 if !list.is_empty() => {
            for _ in 0..r.between(1, 2) {
                let at = if r.one_in(4) { list.len() - 1 } else { r.below(list.len()) };
                spoil_overlap(r, &mut list[at]);
            }
        }
        _ => {}
    }
    list
}

/// A list where nothing is drawn that one could be right for: of the length of the text, a byte less, or any.
pub fn any_overlaps(r: &mut Random, text: &[u8]) -> Vec<usize> {
    let length = match r.below(3) {
        0 => text.len(),
        1 => text.len().saturating_sub(1),
        _ => r.below(20),
    };
    (0..length).map(|_| r.below(3)).collect()
}
