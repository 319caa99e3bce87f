//! Two fonts, one behind the other: request Q-7 of document 02. "Refusals: the first font's, the second's, then 24, heights or hardblanks differ; the rest as before."
use super::control::{self, Control};
use super::draw::{block, shown};
use super::font::{self, Character, Font};
use super::join::{put, Block};
use super::pairs::Mode;
use super::{output, packed, refuse, Refusal};

/// What is drawn.
#[derive(Clone, Copy)]
pub struct Request<'a> {
    pub first: &'a [u8],
    pub second: &'a [u8],
    pub control: &'a [u8],
    pub text: &'a [u8],
}

/// A font that was read, and its bytes.
pub struct Read<'a> {
    pub bytes: &'a [u8],
    pub font: Font,
}

impl<'a> Read<'a> {
    fn of(bytes: &'a [u8]) -> Result<Read<'a>, Refusal> {
        Ok(Read { bytes, font: font::read(bytes)? })
    }
}

pub struct Two<'a> {
    pub first: Read<'a>,
    pub second: Read<'a>,
}

/// Which font had a character.
#[derive(Clone, Copy, PartialEq, Eq, Debug)]
pub enum Of {
    First,
    Second,
}

/// Q-2's three cases, and in which font.
#[derive(Clone, Copy)]
pub enum Found<'a> {
    Itself(Of, &'a Character),
    StoodIn(Of, &'a Character),
    Nothing,
}

impl<'a> Found<'a> {
    pub fn character(&self) -> Option<(Of, &'a Character)> {
        match self {
            Found::Itself(of, character) | Found::StoodIn(of, character) => Some((*of, character)),
            Found::Nothing => None,
        }
    }
}

impl<'a> Two<'a> {
    /// "Two fonts of equal Height and hardblank."
    pub fn of(first: &'a [u8], second: &'a [u8]) -> Result<Two<'a>, Refusal> {
        let two = Two { first: Read::of(first)?, second: Read::of(second)? };
        let (one, other) = (&two.first.font.header, &two.second.font.header);
        if one.height != other.height || one.hardblank != other.hardblank {
            return refuse(24, 0);
        }
        Ok(two)
    }

    pub fn font(&self, of: Of) -> &Read<'a> {
        match of {
            Of::First => &self.first,
            Of::Second => &self.second,
        }
    }

    /// "A code missing from the first is sought in the second before any stand-in, then code 0 in the first, then in the second."
    pub fn look_up(&self, code: i32) -> Found<'_> {
        let tries = [(Of::First, code), (Of::Second, code), (Of::First, 0), (Of::Second, 0)];
        for (number, (of, sought)) in tries.into_iter().enumerate() {
            if let Some(character) = self.font(of).font.last(sought) {
                return if number < 2 { Found::Itself(of, character) } else { Found::StoodIn(of, character) };
            }
        }
        Found::Nothing
    }

    /// "Layout and direction are the first font's."
    pub fn mode(&self) -> Mode {
        self.first.font.header.mode()
    }

    /// The line, or one wider than 1,000 as soon as there is one.
    pub fn line(&self, mode: Mode, control: &Control, text: &[u8]) -> Block {
        let mut line = Block { width: 0, rows: vec![Vec::new(); self.first.font.header.height] };
        for byte in text {
            if let Some((of, character)) = self.look_up(control.map(*byte as i32)).character() {
                line = put(mode, &line, &block(self.font(of).bytes, character)).1;
            }
            if line.width > 1000 {
                break;
            }
        }
        line
    }

    /// Q-2's counts "by this look-up": stood in, and nothing.
    pub fn replaced(&self, control: &Control, text: &[u8]) -> [usize; 2] {
        let mut counts = [0, 0];
        for byte in text {
            match self.look_up(control.map(*byte as i32)) {
                Found::Itself(..) => {}
                Found::StoodIn(..) => counts[0] += 1,
                Found::Nothing => counts[1] += 1,
            }
        }
        counts
    }
}

impl<'a> Request<'a> {
    pub fn fonts(&self) -> Result<Two<'a>, Refusal> {
        Two::of(self.first, self.second)
    }

    /// "9 (scratch), first's, second's, 24, the control file's, 15, 16, 9 (out)."
    fn answer(&self, scratch: usize, out: &mut [u8]) -> Result<[usize; 3], Refusal> {
        if scratch < 32000 {
            return refuse(9, 0);
        }
        let (two, control) = (self.fonts()?, control::read(self.control)?);
        if self.text.len() > 1024 {
            return refuse(15, 0);
        }
        let line = two.line(two.mode(), &control, self.text);
        if line.width > 1000 {
            return refuse(16, 0);
        }
        output(&shown(&line, two.mode().hardblank), out)?;
        let [stood_in, nothing] = two.replaced(&control, self.text);
        Ok([nothing, stood_in, line.width])
    }
}

/// As `draw`, by two fonts.
pub fn draw_two(request: &Request, scratch: &mut [u8], out: &mut [u8]) -> u64 {
    scratch.fill(0);
    out.fill(0);
    packed(request.answer(scratch.len(), out))
}
