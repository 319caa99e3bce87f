//! A font, line by line: refusals 1 and 5 to 8, and look-up.
use super::header::{self, Header};
use super::lines::{is_gap, lines, words, Line};
use super::numbers::number_word;
use super::{refuse, Refusal};

pub struct Character {
    pub code: i32,
    pub width: usize,
    /// Where each row starts in the font.
    pub rows: Vec<usize>,
}

pub struct Font {
    pub header: Header,
    pub characters: Vec<Character>,
}

/// "Codes 32 to 126, then 196, 214, 220, 228, 246, 252, 223."
fn required_codes() -> impl Iterator<Item = i32> {
    (32..=126).chain([196, 214, 220, 228, 246, 252, 223])
}

/// "Blanks and tabs at a row line's end are dropped first."
pub fn dropped(line: &[u8]) -> &[u8] {
    let end = line.iter().rposition(|b| !is_gap(*b)).map_or(0, |k| k + 1);
    &line[..end]
}

/// The width of the row on a line: "then the last block of equal bytes" is dropped, of any length; none for a bad row. "Max_Length is tested after dropping. A
/// line of only blanks and tabs is now refused."
fn row_width(line: &[u8], header: &Header) -> Option<usize> {
    let line = dropped(line);
    let mark = line.last()?;
    let width = line.iter().rposition(|b| b != mark).map_or(0, |k| k + 1);
    let legal = |b: &u8| *b >= 32 || *b == header.hardblank;
    (line.len() <= header.max_length && line[..width].iter().all(legal)).then_some(width)
}

struct Reader<'a> {
    font: &'a [u8],
    lines: Vec<Line>,
    at: usize,
}

impl<'a> Reader<'a> {
    fn next_line(&mut self) -> Result<Line, Refusal> {
        self.at += 1;
        match self.lines.get(self.at - 1) {
            Some(line) => Ok(*line),
            None => refuse(5, self.font.len()),
        }
    }

    fn text(&self, line: Line) -> &'a [u8] {
        &self.font[line.start..line.end]
    }

    fn character(&mut self, code: i32, header: &Header) -> Result<Character, Refusal> {
        let mut character = Character { code, width: 0, rows: Vec::new() };
        for row in 0..header.height {
            let line = self.next_line()?;
            let Some(width) = row_width(self.text(line), header) else {
                return refuse(6, line.start);
            };
            if row > 0 && width != character.width {
                return refuse(6, line.start);
            }
            character.width = width;
            character.rows.push(line.start);
        }
        Ok(character)
    }

    /// "If, where a tag line is due, all that remains is blanks, tabs and line ends, the file has ended."
    fn ended(&self) -> bool {
        let rest = self.lines.get(self.at).map_or(self.font.len(), |l| l.start);
        self.font[rest..].iter().all(|b| is_gap(*b) || *b == b'\n' || *b == b'\r')
    }

    /// The code on a tag line, refused 7 and then 8, where there are as many characters already.
    fn tag(&mut self, count: usize) -> Result<i32, Refusal> {
        let line = self.next_line()?;
        let code = words(self.text(line)).next().and_then(number_word);
        match code {
            None | Some(-1) => refuse(7, line.start),
            Some(_) if count >= 512 => refuse(8, line.start),
            Some(code) => Ok(code),
        }
    }
}

pub fn read(font: &[u8]) -> Result<Font, Refusal> {
    if font.len() > 65536 {
        return refuse(1, 0);
    }
    let mut reader = Reader { font, lines: lines(font), at: 1 };
    let Some(first) = reader.lines.first() else {
        return refuse(2, 0);
    };
    let header = header::read(reader.text(*first))?;
    for _ in 0..header.comment_lines {
        reader.next_line()?;
    }
    let mut characters = Vec::new();
    for code in required_codes() {
        characters.push(reader.character(code, &header)?);
    }
    while !reader.ended() {
        let code = reader.tag(characters.len())?;
        characters.push(reader.character(code, &header)?);
    }
    Ok(Font { header, characters })
}

/// "The look-up must say which of three it was: found as itself, stood in by code 0, or nothing."
pub enum LookUp<'a> {
    Itself(&'a Character),
    StoodIn(&'a Character),
    Nothing,
}

impl<'a> LookUp<'a> {
    pub fn character(&self) -> Option<&'a Character> {
        match self {
            LookUp::Itself(character) | LookUp::StoodIn(character) => Some(character),
            LookUp::Nothing => None,
        }
    }
}

impl Font {
    /// "When codes repeat, the last is used.
    pub fn last(&self, code: i32) -> Option<&Character> {
        self.characters.iter().rev().find(|character| character.code == code)
    }

    /// Otherwise the character with code 0 stands in; if there is none, nothing is drawn."
    pub fn look_up(&self, code: i32) -> LookUp<'_> {
        match (self.last(code), self.last(0)) {
            (Some(character), _) => LookUp::Itself(character),
            (None, Some(character)) => LookUp::StoodIn(character),
            (None, None) => LookUp::Nothing,
        }
    }
}
