//! Control files: refusals 10 to 14, and mapping.
use super::lines::{is_gap, lines};
use super::numbers::leading_number;
use super::{refuse, Refusal};

#[derive(Debug)]
pub struct Command {
    pub stage: usize,
    pub first: i32,
    pub last: i32,
    pub first_new: i32,
}

#[derive(Debug)]
pub struct Control {
    pub commands: Vec<Command>,
    pub stages: usize,
}

/// One field of a `t` line.
enum Field {
    Single(i32),
    Range(i32, i32),
}

/// What a line is, where it is no refusal.
enum Kind {
    Comment,
    NewStage,
    Mapping { first: i32, last: i32, first_new: i32 },
}

/// "A character is a byte other than blank, tab and backslash, or a backslash with a blank, one of `abefnrtv\`, or a number."
fn character(text: &[u8]) -> Option<(i32, &[u8])> {
    let (first, rest) = text.split_first()?;
    if is_gap(*first) {
        return None;
    }
    if *first != b'\\' {
        return Some((*first as i32, rest));
    }
    let escapes = b" abefnrtv\\".iter().zip([32, 7, 8, 27, 12, 10, 13, 9, 11, 92]);
    for (letter, code) in escapes {
        if rest.first() == Some(letter) {
            return Some((code, &rest[1..]));
        }
    }
    leading_number(rest)
}

/// "A minus after the first character makes a range."
fn field(text: &[u8]) -> Option<(Field, &[u8])> {
    let (first, rest) = character(text)?;
    match rest.strip_prefix(b"-") {
        None => Some((Field::Single(first), rest)),
        Some(rest) => {
            let (last, rest) = character(rest)?;
            Some((Field::Range(first, last), rest))
        }
    }
}

/// What stands behind at least one blank or tab.
fn behind_gap(text: &[u8]) -> Option<&[u8]> {
    let gap = text.iter().take_while(|b| is_gap(**b)).count();
    (gap > 0).then(|| &text[gap..])
}

/// "After the second only the line end, a blank or a tab may follow."
fn ends(rest: &[u8]) -> bool {
    rest.first().map_or(true, |b| is_gap(*b))
}

fn two_fields(text: &[u8]) -> Option<(Field, Field)> {
    let (from, rest) = field(behind_gap(text)?)?;
    let (to, rest) = field(behind_gap(rest)?)?;
    ends(rest).then_some((from, to))
}

fn two_numbers(text: &[u8]) -> Option<(i32, i32)> {
    let (from, rest) = leading_number(text)?;
    let (to, rest) = leading_number(behind_gap(rest)?)?;
    ends(rest).then_some((from, to))
}

/// A line that is a `t` command or two numbers: 11, then 12.
fn mapping(text: &[u8]) -> Result<Kind, u64> {
    let single = |first, first_new| Ok(Kind::Mapping { first, last: first, first_new });
    let Some(text) = text.strip_prefix(b"t") else {
        return two_numbers(text).map_or(Err(11), |(from, to)| single(from, to));
    };
    match two_fields(text) {
        Some((Field::Single(from), Field::Single(to))) => single(from, to),
        Some((Field::Range(first, last), Field::Range(first_new, last_new))) => {
            let size = last as i64 - first as i64;
            if size < 0 || size != last_new as i64 - first_new as i64 {
                return Err(12);
            }
            Ok(Kind::Mapping { first, last, first_new })
        }
        _ => Err(11),
    }
}

fn kind(text: &[u8]) -> Result<Kind, u64> {
    match text.first() {
        None | Some(b'#') => Ok(Kind::Comment),
        Some(b'f') => Ok(Kind::NewStage),
        Some(b'h' | b'j' | b'b' | b'u' | b'g') => Err(13),
        _ if text.iter().all(|b| is_gap(*b)) => Ok(Kind::Comment),
        _ => mapping(text),
    }
}

pub fn read(file: &[u8]) -> Result<Control, Refusal> {
    if file.len() > 16384 {
        return refuse(10, 0);
    }
    let mut read = Control { commands: Vec::new(), stages: 1 };
    let passed = file.starts_with(b"flc2a") as usize;
    for line in lines(file).into_iter().skip(passed) {
        match kind(&file[line.start..line.end]) {
            Err(number) => return refuse(number, line.start),
            Ok(Kind::Comment) => {}
            Ok(Kind::NewStage) if read.stages >= 64 => return refuse(14, line.start),
            Ok(Kind::NewStage) => read.stages += 1,
            Ok(Kind::Mapping { .. }) if read.commands.len() >= 256 => return refuse(14, line.start),
            Ok(Kind::Mapping { first, last, first_new }) => read.commands.push(Command { stage: read.stages - 1, first, last, first_new }),
        }
    }
    Ok(read)
}

impl Control {
    /// "Within a stage the first command that fits acts, once; `f` starts the next stage."
    pub fn map(&self, code: i32) -> i32 {
        let mut code = code;
        for stage in 0..self.stages {
            let fits = |c: &&Command| c.stage == stage && c.first <= code && code <= c.last;
            if let Some(c) = self.commands.iter().find(fits) {
                code = (c.first_new as i64 + (code as i64 - c.first as i64)) as i32;
            }
        }
        code
    }
}
