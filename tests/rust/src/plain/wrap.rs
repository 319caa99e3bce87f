//! A text in lines of at most so many columns: request Q-4 of document 02. "9 (firsts or ends under 1,024 entries, scratch under 32,000), font, control, 15,
//! 17, 19, 9 (out)."
use super::control::{self, Control};
use super::draw::{line, line_within, look_up, replaced, shown};
use super::font::{self, Font};
use super::{output, packed, refuse, Refusal};

/// What is drawn, and the column limit.
#[derive(Clone, Copy)]
pub struct Request<'a> {
    pub font: &'a [u8],
    pub control: &'a [u8],
    pub text: &'a [u8],
    pub limit: usize,
}

/// The areas that are lent.
#[derive(Clone, PartialEq, Eq)]
pub struct Areas {
    pub scratch: Vec<u8>,
    pub firsts: Vec<usize>,
    pub ends: Vec<usize>,
    pub out: Vec<u8>,
}

/// A word or a line: "its first byte and the place behind its last".
#[derive(Clone, Copy, PartialEq, Eq, Debug)]
pub struct Part {
    pub first: usize,
    pub end: usize,
}

/// "Words are maximal runs of bytes other than 32 (text bytes, before mapping)."
pub fn words(text: &[u8]) -> Vec<Part> {
    let begins = |at: usize| text[at] != 32 && (at == 0 || text[at - 1] == 32);
    let end = |first: usize| (first..text.len()).find(|at| text[*at] == 32).unwrap_or(text.len());
    (0..text.len()).filter(|at| begins(*at)).map(|first| Part { first, end: end(first) }).collect()
}

/// The files that were read.
pub struct Files {
    pub font: Font,
    pub control: Control,
}

/// The lines of a text, and their drawings one after another.
pub struct Wrapped {
    pub files: Files,
    pub lines: Vec<Part>,
    pub drawn: Vec<u8>,
}

impl Request<'_> {
    pub fn files(&self) -> Result<Files, Refusal> {
        Ok(Files { font: font::read(self.font)?, control: control::read(self.control)? })
    }

    /// "The first text character other than byte 32 whose FIGcharacter, after mapping and stand-in, is itself wider than the limit; a code that draws nothing is
    /// 0 wide."
    fn too_wide(&self, files: &Files) -> Option<usize> {
        let width = |byte: u8| look_up(&files.font, &files.control, byte).character().map_or(0, |c| c.width);
        self.text.iter().position(|byte| *byte != 32 && width(*byte) > self.limit)
    }

    /// "Each line takes the most words whose drawing, with the blanks between them, fits." "A first word that does not fit is broken after the most characters that
    /// fit, and its rest is the next line's first word."
    fn lines(&self, files: &Files) -> Vec<Part> {
        let (mut words, mut lines) = (words(self.text), Vec::new());
        while let Some(Part { first, .. }) = words.first().copied() {
            let fits = first + line_within(self.font, &files.font, &files.control, &self.text[first..], self.limit).0;
            let whole: Vec<Part> = words.iter().copied().take_while(|word| word.end <= fits).collect();
            match whole.last() {
                Some(last) => {
                    lines.push(Part { first, end: last.end });
                    words.drain(..whole.len());
                }
                None => {
                    assert!(fits > first, "a character that fits");
                    lines.push(Part { first, end: fits });
                    words[0].first = fits;
                }
            }
        }
        lines
    }

    /// "The drawings of the lines follow one another, each in its own width": each line "drawn as a text of its own".
    fn drawings(&self, files: &Files, lines: &[Part]) -> Vec<u8> {
        let mut drawn = Vec::new();
        for part in lines {
            let line = line(self.font, &files.font, &files.control, &self.text[part.first..part.end]);
            drawn.extend(shown(&line, files.font.header.hardblank));
        }
        drawn
    }

    /// What is drawn, or the refusal that comes behind those of the areas and before that of the output.
    pub fn wrapped(&self) -> Result<Wrapped, Refusal> {
        let files = self.files()?;
        if self.text.len() > 1024 {
            return refuse(15, 0);
        }
        if !(1..=1000).contains(&self.limit) {
            return refuse(17, 0);
        }
        if let Some(place) = self.too_wide(&files) {
            return refuse(19, place);
        }
        let lines = self.lines(&files);
        let drawn = self.drawings(&files, &lines);
        Ok(Wrapped { files, lines, drawn })
    }

    fn answer(&self, areas: &mut Areas) -> Result<[usize; 3], Refusal> {
        if areas.firsts.len() < 1024 || areas.ends.len() < 1024 || areas.scratch.len() < 32000 {
            return refuse(9, 0);
        }
        let Wrapped { files, lines, drawn } = self.wrapped()?;
        output(&drawn, &mut areas.out)?;
        for (at, line) in lines.iter().enumerate() {
            areas.firsts[at] = line.first;
            areas.ends[at] = line.end;
        }
        let [stood_in, nothing] = replaced(&files.font, &files.control, self.text);
        Ok([nothing, stood_in, lines.len()])
    }
}

/// How many text bytes drew nothing, how many were stood in, and the number of lines, with zeros behind both lists and the output and all through the scratch.
pub fn draw_wrapped(request: &Request, areas: &mut Areas) -> u64 {
    areas.scratch.fill(0);
    areas.firsts.fill(0);
    areas.ends.fill(0);
    areas.out.fill(0);
    packed(request.answer(areas))
}
