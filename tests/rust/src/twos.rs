//! Random pairs of fonts, whole and damaged, of equal height and hardblank or not, with codes that the first has, the second, both or none; and what is drawn by them.
use crate::inputs::{self, Sizes};
use crate::random::Random;

/// Codes of the characters behind the required ones: bytes of texts, code 0, codes that both fonts have anyway, and some that only a control file gives.
const CODES: &[i32] = &[0, 0, 1, 2, 7, 200, 201, 233, 233, 255, 97, 65, 196, 8211, -2];
const BYTES: &[u8] = &[0, 1, 2, 3, 7, 200, 201, 233, 233, 233, 255, 196];
const LETTERS: &[u8] = b"abcdABCD|/_ ";
const CONTROLS: &[&[u8]] = &[b"t a \\233", b"t a \\0\nt b \\1", b"233 97\n1 98", b"t a \\-1\nt b \\3", b"t A \\8211\nt B \\-2", b"t a \\1\nf\n1 233"];

/// What a drawing by two fonts is asked for.
pub struct Made {
    pub first: Vec<u8>,
    pub second: Vec<u8>,
    pub control: Vec<u8>,
    pub text: Vec<u8>,
}

fn tag(r: &mut Random) -> Vec<u8> {
    let code = r.pick(CODES);
    if code >= 0 && r.one_in(3) { format!("0x{code:x} a comment") } else { code.to_string() }.into_bytes()
}

fn font(r: &mut Random, s: &Sizes) -> Vec<u8> {
    let many = |r: &mut Random| if r.one_in(60) { r.between(409, 411) } else { r.below(9) };
    let mut font = inputs::lines(r, s, many, tag);
    match r.below(400) {
        0 | 1 => font.resize(r.between(65535, 65537), b' '),
        2 | 3 => font.truncate(r.below(8)),
        _ => {}
    }
    font
}

/// Sizes for the second font: mostly the height and the hardblank of the first.
fn beside(r: &mut Random, first: &Sizes) -> Sizes {
    let wild = r.one_in(20);
    let mut made = inputs::sizes(r, wild);
    if !r.one_in(12) {
        made.height = first.height;
    }
    if !r.one_in(12) {
        made.hardblank = first.hardblank;
    }
    made
}

fn fonts(r: &mut Random, own: [&[u8]; 2]) -> [Vec<u8>; 2] {
    let wild = r.one_in(12);
    let sizes = inputs::sizes(r, wild);
    let first = font(r, &sizes);
    match r.below(20) {
        0 => own.map(<[u8]>::to_vec),
        1 => [own[1].to_vec(), own[0].to_vec()],
        2 | 3 => [first.clone(), first],
        4 => {
            // The same font with one byte changed.
            let mut second = first.clone();
            inputs::damage(r, &mut second);
            [first, second]
        }
        _ => {
            let sizes = beside(r, &sizes);
            let second = font(r, &sizes);
            [first, second]
        }
    }
}

/// A text: half of the time of letters alone, which every font has, sometimes of rare bytes alone, and sometimes about as long as a text may be.
fn text(r: &mut Random) -> Vec<u8> {
    let length = match r.below(40) {
        0 | 1 => r.between(1022, 1026),
        2 | 3 => r.between(100, 1024),
        _ => r.below(12),
    };
    let rare = r.pick(&[0, 0, 2, 4, 8]);
    (0..length).map(|_| if r.below(8) < rare { r.pick(BYTES) } else { r.pick(LETTERS) }).collect()
}

/// A control file: mostly none, but for half of the long texts, and sometimes about as long as one may be.
fn control(r: &mut Random, text: &[u8]) -> Vec<u8> {
    match r.below(6) {
        0 if r.one_in(20) => vec![b'\n'; r.between(16383, 16386)],
        0 => r.pick(CONTROLS).to_vec(),
        1 => inputs::control(r),
        2 | 3 if text.len() > 1024 => inputs::control(r),
        _ => Vec::new(),
    }
}

/// A drawing by two fonts; `own` are two that go together.
pub fn made(r: &mut Random, own: [&[u8]; 2]) -> Made {
    let [mut first, mut second] = fonts(r, own);
    if r.one_in(20) {
        inputs::damage(r, &mut first);
    }
    if r.one_in(20) {
        inputs::damage(r, &mut second);
    }
    let text = text(r);
    Made { first, second, control: control(r, &text), text }
}
