//! The join of two blocks: demand 3, and refusals 17, 16 and 9.
use super::header::full_layout;
use super::pairs::{is_hardblank, joined, Layout, Mode};
use super::{output, packed, refuse, Refusal};

/// Rows of equal width; a height of its own, since a row may be empty.
#[derive(Clone)]
pub struct Block {
    pub width: usize,
    pub rows: Vec<Vec<u8>>,
}

/// "As many last columns of the left block lie in order on the first of the right."
fn pairs<'a>(a: &'a Block, b: &'a Block, overlap: usize) -> impl Iterator<Item = (u8, u8)> + 'a {
    let from = a.width - overlap;
    a.rows.iter().zip(&b.rows).flat_map(move |(l, r)| l[from..].iter().copied().zip(r.iter().copied()))
}

/// "An overlap is free if every facing pair of sub-characters has a blank in it."
fn is_free(a: &Block, b: &Block, overlap: usize) -> bool {
    pairs(a, b, overlap).all(|(l, r)| l == b' ' || r == b' ')
}

pub fn overlap(mode: Mode, a: &Block, b: &Block) -> usize {
    let narrower = a.width.min(b.width);
    let fitting = (0..=narrower).take_while(|o| is_free(a, b, *o)).last().unwrap();
    match mode.layout {
        Layout::FullWidth => 0,
        Layout::Fitting => fitting,
        Layout::Smushing(_) if fitting == narrower => fitting,
        Layout::Smushing(_) => {
            let more = pairs(a, b, fitting + 1).all(|(l, r)| joined(mode, l, r).is_some());
            fitting + more as usize
        }
    }
}

/// "The left block's unpaired ones, then what each pair becomes, then the right block's unpaired ones."
fn joined_row(mode: Mode, l: &[u8], r: &[u8], overlap: usize) -> Vec<u8> {
    let (alone, facing) = l.split_at(l.len() - overlap);
    let faced = facing.iter().zip(r).map(|(x, y)| joined(mode, *x, *y).expect("a pair that joins"));
    alone.iter().copied().chain(faced).chain(r[overlap..].iter().copied()).collect()
}

/// The line with the character put to it, and the overlap.
pub fn put(mode: Mode, line: &Block, character: &Block) -> (usize, Block) {
    let (a, b) = if mode.right_to_left { (character, line) } else { (line, character) };
    let overlap = overlap(mode, a, b);
    let rows = a.rows.iter().zip(&b.rows).map(|(l, r)| joined_row(mode, l, r, overlap)).collect();
    let width = a.width + b.width - overlap;
    (overlap, Block { width, rows })
}

/// A block as it lies in an area, row after row.
pub fn block(bytes: &[u8], width: usize, height: usize) -> Block {
    let rows = (0..height).map(|r| bytes[r * width..(r + 1) * width].to_vec()).collect();
    Block { width, rows }
}

/// What a join is asked for, with layout and direction as the header's numbers.
#[derive(Clone, Copy, Debug)]
pub struct Request<'a> {
    pub line: &'a [u8],
    pub line_width: usize,
    pub character: &'a [u8],
    pub character_width: usize,
    pub height: usize,
    pub hardblank: u8,
    pub layout: usize,
    pub direction: usize,
}

impl Request<'_> {
    /// "Height outside 1 to 32, line width over 1,000, character width over 199, .. a hardblank that 3 refuses, or blocks not exactly height
    /// times width long"; and a layout or direction that no header may have.
    fn is_good(&self) -> bool {
        (1..=32).contains(&self.height)
            && self.line_width <= 1000
            && self.character_width <= 199
            && is_hardblank(self.hardblank)
            && self.line.len() == self.height * self.line_width
            && self.character.len() == self.height * self.character_width
            && self.layout <= 32767
            && self.direction <= 1
    }

    fn answer(&self, out: &mut [u8]) -> Result<[usize; 3], Refusal> {
        if !self.is_good() {
            return refuse(17, 0);
        }
        let mode = Mode { layout: full_layout(self.layout), right_to_left: self.direction == 1, hardblank: self.hardblank };
        let line = block(self.line, self.line_width, self.height);
        let character = block(self.character, self.character_width, self.height);
        let (overlap, result) = put(mode, &line, &character);
        if result.width > 1000 {
            return refuse(16, 0);
        }
        output(&result.rows.concat(), out)?;
        Ok([0, overlap, result.width])
    }
}

/// Overlap and width, with zeros behind the result, or all through the area after a refusal.
pub fn join(request: &Request, out: &mut [u8]) -> u64 {
    out.fill(0);
    packed(request.answer(out))
}
