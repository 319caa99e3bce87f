//! Checking what another program drew: request Q-8 of document 02. "Refusals: the drawing's, first; a list of the wrong length is 25."
use super::control;
use super::draw::{block, look_up, shown};
use super::font;
use super::join::{put, Block};
use super::{packed, refuse, Refusal};

/// "Given font, control file, text, a FIGure, and that program's list of overlaps."
#[derive(Clone, Copy)]
pub struct Request<'a> {
    pub font: &'a [u8],
    pub control: &'a [u8],
    pub text: &'a [u8],
    pub figure: &'a [u8],
    pub overlaps: &'a [usize],
}

/// What the check says where it does not refuse.
#[derive(Clone, Copy, PartialEq, Eq, Debug)]
pub enum Verdict {
    Accepted,
    /// Its number in the list, from 0.
    WrongOverlap(usize),
    /// Its place in the FIGure.
    WrongByte(usize),
}

/// What must have been drawn: the bytes, and "one overlap for each drawn character after the first".
#[derive(Clone, PartialEq, Eq, Debug)]
pub struct Right {
    pub figure: Vec<u8>,
    pub overlaps: Vec<usize>,
    /// How many characters were drawn.
    pub drawn: usize,
}

/// Where two lists first differ; "where one .. is the start of the other, that is the shorter one's end".
pub fn first_difference<T: PartialEq>(one: &[T], other: &[T]) -> Option<usize> {
    let shorter = one.len().min(other.len());
    (0..shorter).find(|k| one[*k] != other[*k]).or((one.len() != other.len()).then_some(shorter))
}

impl Request<'_> {
    /// The drawing and its overlaps: "the font's, the control file's, 15, 16".
    pub fn right(&self) -> Result<Right, Refusal> {
        let font = font::read(self.font)?;
        let control = control::read(self.control)?;
        if self.text.len() > 1024 {
            return refuse(15, 0);
        }
        let header = &font.header;
        let mode = header.mode();
        let mut line = Block { width: 0, rows: vec![Vec::new(); header.height] };
        let mut each = Vec::new();
        for byte in self.text {
            let Some(character) = look_up(&font, &control, *byte).character() else { continue };
            let (overlap, longer) = put(mode, &line, &block(self.font, character));
            if longer.width > 1000 {
                return refuse(16, 0);
            }
            each.push(overlap);
            line = longer;
        }
        let figure = shown(&line, header.hardblank);
        Ok(Right { figure, overlaps: each.iter().skip(1).copied().collect(), drawn: each.len() })
    }

    /// "The check names the first wrong overlap, else the first wrong byte."
    fn verdict(&self, right: &Right) -> Result<Verdict, Refusal> {
        if self.overlaps.len() != right.overlaps.len() {
            return refuse(25, 0);
        }
        let (overlap, byte) = (first_difference(&right.overlaps, self.overlaps), first_difference(&right.figure, self.figure));
        Ok(match (overlap, byte) {
            (Some(number), _) => Verdict::WrongOverlap(number),
            (None, Some(place)) => Verdict::WrongByte(place),
            (None, None) => Verdict::Accepted,
        })
    }
}

/// The verdict and where, in a value and in the bits of two; 9 for the scratch before all else, and zeros all through it.
pub fn check_drawing(request: &Request, scratch: &mut [u8]) -> u64 {
    scratch.fill(0);
    if scratch.len() < 32000 {
        return packed(refuse(9, 0));
    }
    let values = |verdict: Verdict| {
        let (kind, place) = match verdict {
            Verdict::Accepted => (0, 0),
            Verdict::WrongOverlap(number) => (1, number),
            Verdict::WrongByte(place) => (2, place),
        };
        [kind, place >> 16, place & 65535]
    };
    packed(request.right().and_then(|right| request.verdict(&right)).map(values))
}
