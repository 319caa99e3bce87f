//! Two blocks one above the other: request Q-1 of document 02, with the vertical rules of source document 000; refusals 17, 18 and 9.
use super::join::{block, Block};
use super::pairs::{by_rule, is_hardblank};
use super::{output, packed, refuse, Refusal};

/// "Vertical full height, fitting and smushing, universal or with the five rules."
#[derive(Clone, Copy, PartialEq, Eq, Debug)]
pub enum Vertical {
    FullHeight,
    Fitting,
    Universal,
    /// A sum of the rules' code values.
    Controlled(usize),
}

/// "Full height (also without Full_Layout), fitting and smushing (16384 before 8192)."
pub fn vertical(full_layout: Option<usize>) -> Vertical {
    let full = full_layout.unwrap_or(0);
    match (full & 16384 != 0, full & 7936) {
        (true, 0) => Vertical::Universal,
        (true, rules) => Vertical::Controlled(rules),
        (false, _) if full & 8192 != 0 => Vertical::Fitting,
        (false, _) => Vertical::FullHeight,
    }
}

/// The rules that decide on a pair. Supersmushing, 4096, is none of them.
pub const PAIR_RULES: [usize; 4] = [256, 512, 1024, 2048];

/// What a rule makes of two sub-characters that are not blank: 256, 512 and 1024 are "same as horizontal smushing rule" 1, 2 and 3, and 2048
/// "smushes stacked pairs of - and _, replacing them with a single = sub-character".
pub fn by_vertical_rule(rule: usize, upper: u8, lower: u8) -> Option<u8> {
    match rule {
        256 => by_rule(1, upper, lower),
        512 => by_rule(2, upper, lower),
        1024 => by_rule(4, upper, lower),
        2048 if [upper, lower] == *b"-_" || [upper, lower] == *b"_-" => Some(b'='),
        _ => None,
    }
}

/// What a pair becomes under the layout, supersmushing apart; none if it cannot join. "For universal the lower block is the later one."
pub fn pair(layout: Vertical, upper: u8, lower: u8) -> Option<u8> {
    match (upper, lower, layout) {
        (b' ', other, _) | (other, b' ', _) => Some(other),
        (_, _, Vertical::Universal) => Some(lower),
        (_, _, Vertical::Controlled(rules)) => {
            let set = PAIR_RULES.into_iter().filter(|rule| rules & rule != 0);
            set.filter_map(|rule| by_vertical_rule(rule, upper, lower)).next()
        }
        _ => None,
    }
}

/// "Hardblanks are first made blanks, the narrower block is filled with blanks on the right."
pub fn made_ready(block: &Block, hardblank: u8, width: usize) -> Block {
    let mut rows = block.rows.clone();
    for row in &mut rows {
        row.iter_mut().filter(|b| **b == hardblank).for_each(|b| *b = b' ');
        row.resize(width, b' ');
    }
    Block { width, rows }
}

/// The pairs that face at an overlap: as many last rows of the upper block lie in order on the first of the lower.
pub fn facing<'a>(upper: &'a Block, lower: &'a Block, overlap: usize) -> impl Iterator<Item = (u8, u8)> + 'a {
    let rows = upper.rows[upper.rows.len() - overlap..].iter().zip(&lower.rows);
    rows.flat_map(|(u, l)| u.iter().copied().zip(l.iter().copied()))
}

pub fn has_blank((upper, lower): (u8, u8)) -> bool {
    upper == b' ' || lower == b' '
}

/// "A pair with a blank or of two bars."
fn slides(pair: (u8, u8)) -> bool {
    has_blank(pair) || pair == (b'|', b'|')
}

/// "The largest overlap, at most the smaller height, that together with all smaller ones faces only pairs" of a kind.
pub fn largest(upper: &Block, lower: &Block, kind: fn((u8, u8)) -> bool) -> usize {
    let smaller = upper.rows.len().min(lower.rows.len());
    (0..=smaller).take_while(|o| facing(upper, lower, *o).all(kind)).last().unwrap()
}

/// How an overlap was found.
#[derive(Clone, Copy, PartialEq, Eq, Debug)]
pub enum How {
    FullHeight,
    Fitting,
    /// Smushing took one row more than fitting.
    OneMore,
    /// Smushing stayed at fitting's overlap: that uses the smaller height up, or a pair of the next row does not join.
    UsedUp,
    Stays,
    /// By 4096, more than fitting.
    Supersmushed,
}

/// The overlap of two blocks that are made ready.
pub fn overlap(layout: Vertical, upper: &Block, lower: &Block) -> (usize, How) {
    let (fitting, slid) = (largest(upper, lower, has_blank), largest(upper, lower, slides));
    match layout {
        Vertical::FullHeight => return (0, How::FullHeight),
        Vertical::Fitting => return (fitting, How::Fitting),
        Vertical::Controlled(rules) if rules & 4096 != 0 && slid > fitting => return (slid, How::Supersmushed),
        _ => {}
    }
    if fitting == upper.rows.len().min(lower.rows.len()) {
        return (fitting, How::UsedUp);
    }
    let joins = facing(upper, lower, fitting + 1).all(|(u, l)| pair(layout, u, l).is_some());
    if joins {
        (fitting + 1, How::OneMore)
    } else {
        (fitting, How::Stays)
    }
}

/// "Unpaired sub-characters stay; a blank yields to its partner; every other pair becomes its joint"; supersmushed, two bars become a bar.
fn joined(layout: Vertical, how: How, u: u8, l: u8) -> u8 {
    let bar = (how == How::Supersmushed && u == b'|' && l == b'|').then_some(b'|');
    bar.or_else(|| pair(layout, u, l)).expect("a pair that joins")
}

/// The overlap, and the upper block on the lower.
pub fn put(layout: Vertical, hardblank: u8, upper: &Block, lower: &Block) -> (usize, Block) {
    let width = upper.width.max(lower.width);
    let (upper, lower) = (made_ready(upper, hardblank, width), made_ready(lower, hardblank, width));
    let (overlap, how) = overlap(layout, &upper, &lower);
    let (alone, facing) = upper.rows.split_at(upper.rows.len() - overlap);
    let mut rows = alone.to_vec();
    for (u, l) in facing.iter().zip(&lower.rows) {
        rows.push(u.iter().zip(l).map(|(u, l)| joined(layout, how, *u, *l)).collect());
    }
    rows.extend_from_slice(&lower.rows[overlap..]);
    (overlap, Block { width, rows })
}

/// What a stack is asked for, with the layout as a header's Full_Layout.
#[derive(Clone, Copy, Debug)]
pub struct Request<'a> {
    pub upper: &'a [u8],
    pub upper_width: usize,
    pub upper_height: usize,
    pub lower: &'a [u8],
    pub lower_width: usize,
    pub lower_height: usize,
    pub hardblank: u8,
    pub layout: usize,
}

impl Request<'_> {
    /// "17 as in the join, but upper height to 64, both widths to 1,000"; and a layout that no header may have.
    pub fn is_good(&self) -> bool {
        (1..=64).contains(&self.upper_height)
            && (1..=32).contains(&self.lower_height)
            && self.upper_width <= 1000
            && self.lower_width <= 1000
            && is_hardblank(self.hardblank)
            && self.layout <= 32767
            && self.upper.len() == self.upper_height * self.upper_width
            && self.lower.len() == self.lower_height * self.lower_width
    }

    /// The two blocks of a good request.
    pub fn blocks(&self) -> (Block, Block) {
        (block(self.upper, self.upper_width, self.upper_height), block(self.lower, self.lower_width, self.lower_height))
    }

    fn answer(&self, out: &mut [u8]) -> Result<[usize; 3], Refusal> {
        if !self.is_good() {
            return refuse(17, 0);
        }
        let (upper, lower) = self.blocks();
        let (overlap, result) = put(vertical(Some(self.layout)), self.hardblank, &upper, &lower);
        if result.rows.len() > 64 {
            return refuse(18, 0);
        }
        output(&result.rows.concat(), out)?;
        Ok([overlap, result.rows.len(), result.width])
    }
}

/// Overlap, height and width, with zeros behind the result, or all through the area after a refusal.
pub fn stack(request: &Request, out: &mut [u8]) -> u64 {
    out.fill(0);
    packed(request.answer(out))
}
