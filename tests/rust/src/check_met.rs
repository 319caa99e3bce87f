//! What the random checks met of request Q-8: each verdict by what led to it, lists of each wrong length, and each refusal in its order.
use crate::calls;
use crate::met::Met;
use crate::plain::check::{first_difference, Request, Right};
use crate::plain::control;
use crate::plain::draw;
use crate::plain::font::{self, Font, LookUp};
use crate::plain::pairs::{Layout, Smushing};
use crate::plain::Refusal;

pub const CASES: &[&str] = &[
    // Areas, and the order of refusals.
    "9: a scratch of 31,999",
    "9 for the scratch before a font's",
    "9 for the scratch, which would be 25",
    "the font's before the control file's",
    "the control file's before 15",
    "15: 1,025 bytes",
    "15: a list of any length",
    "16: 1,001 columns",
    "16: a list that is one shorter than the characters",
    "16: a list of another length",
    // Lists of a wrong length.
    "25: one too long",
    "25: one too short",
    "25: much too long",
    "25: an empty list for several characters",
    "25: the overlap of the first character too",
    "25: a list for no character",
    "25: a list for one character",
    "25: an overlap for each byte but the first, where some draw nothing",
    "25: the FIGure is right",
    "25: the FIGure is wrong",
    "25: a wrong overlap among those that are there",
    // Wrong overlaps.
    "wrong overlap: the first of the list",
    "wrong overlap: the last of several",
    "wrong overlap: neither the first nor the last",
    "wrong overlap: one too small",
    "wrong overlap: one too large",
    "wrong overlap: over 1,000",
    "wrong overlap: equal in its last 16 bits",
    "wrong overlap: equal in its last 32 bits",
    "wrong overlap: the largest number",
    "wrong overlap: a second one behind it",
    "wrong overlap: the FIGure is right",
    "wrong overlap: a wrong byte too",
    "wrong overlap: of a character of width 0",
    "wrong overlap: behind a byte that draws nothing",
    "wrong overlap: right to left",
    // Wrong bytes.
    "wrong byte: the first",
    "wrong byte: in the first row",
    "wrong byte: in another row",
    "wrong byte: a row goes on",
    "wrong byte: a row goes on by a blank",
    "wrong byte: a row goes on by CR",
    "wrong byte: a row ends",
    "wrong byte: only blanks of a row's end are missing",
    "wrong byte: a hardblank",
    "wrong byte: a second one behind it",
    "wrong byte: the FIGure is empty",
    "wrong byte: the FIGure is cut off",
    "wrong byte: the FIGure is a byte short",
    "wrong byte: the FIGure is cut off behind a row",
    "wrong byte: the FIGure goes on",
    "wrong byte: the FIGure goes on by one byte",
    "wrong byte: the FIGure is longer than every drawing",
    "wrong byte: no character",
    // Accepted.
    "accepted: no character",
    "accepted: one character",
    "accepted: several characters",
    "accepted: nothing is drawn for a byte between two",
    "accepted: a character of width 0",
    "accepted: a character that is stood in",
    "accepted: mapped",
    "accepted: an overlap over 0",
    "accepted: an overlap over 1",
    "accepted: full width",
    "accepted: fitting",
    "accepted: universal",
    "accepted: controlled",
    "accepted: right to left",
    "accepted: several rows",
    "accepted: 1,000 columns",
    "accepted: 1,023 overlaps",
    "what draw puts out, accepted",
];

/// What a check that drew has: what is right, and whether and where the list and the FIGure differ from it.
struct Judged<'a> {
    q: &'a Request<'a>,
    right: &'a Right,
    font: Font,
    /// For each text byte the width of its character, where there is one.
    widths: Vec<Option<usize>>,
    stood_in: bool,
    mapped: bool,
    byte: Option<usize>,
}

impl<'a> Judged<'a> {
    fn of(q: &'a Request<'a>, right: &'a Right) -> Option<Judged<'a>> {
        let (font, control) = (font::read(q.font).ok()?, control::read(q.control).ok()?);
        let found = |byte: &u8| draw::look_up(&font, &control, *byte);
        let widths = q.text.iter().map(|byte| found(byte).character().map(|c| c.width)).collect();
        let stood_in = q.text.iter().any(|byte| matches!(found(byte), LookUp::StoodIn(_)));
        let mapped = q.text.iter().any(|byte| control.map(*byte as i32) != *byte as i32);
        let byte = first_difference(&right.figure, q.figure);
        Some(Judged { q, right, font, widths, stood_in, mapped, byte })
    }

    /// Where the characters stand in the text that are drawn.
    fn drawn(&self) -> Vec<usize> {
        (0..self.widths.len()).filter(|k| self.widths[*k].is_some()).collect()
    }

    fn is_leftward(&self) -> bool {
        self.font.header.right_to_left
    }
}

fn wrong_length(j: &Judged, met: &mut Met) {
    let (list, right) = (j.q.overlaps, &j.right.overlaps);
    met.add_if(list.len() == right.len() + 1, "25: one too long");
    met.add_if(list.len() + 1 == right.len(), "25: one too short");
    met.add_if(list.len() > right.len() + 100, "25: much too long");
    met.add_if(list.is_empty() && j.right.drawn > 2, "25: an empty list for several characters");
    met.add_if(list.len() == right.len() + 1 && list[0] == 0 && list[1..] == right[..], "25: the overlap of the first character too");
    met.add_if(j.right.drawn == 0, "25: a list for no character");
    met.add_if(j.right.drawn == 1, "25: a list for one character");
    let each = list.len() + 1 == j.q.text.len() && j.right.drawn < j.q.text.len();
    met.add_if(each, "25: an overlap for each byte but the first, where some draw nothing");
    met.add(if j.byte.is_none() { "25: the FIGure is right" } else { "25: the FIGure is wrong" });
    met.add_if(list.iter().zip(right).any(|(x, y)| x != y), "25: a wrong overlap among those that are there");
}

fn wrong_overlap(j: &Judged, number: usize, met: &mut Met) {
    let (list, right) = (j.q.overlaps, &j.right.overlaps);
    let (given, due) = (list[number], right[number]);
    met.add_if(number == 0, "wrong overlap: the first of the list");
    met.add_if(number > 0 && number + 1 == list.len(), "wrong overlap: the last of several");
    met.add_if(number > 0 && number + 1 < list.len(), "wrong overlap: neither the first nor the last");
    met.add_if(due > 0 && given == due - 1, "wrong overlap: one too small");
    met.add_if(given == due + 1, "wrong overlap: one too large");
    met.add_if(given > 1000, "wrong overlap: over 1,000");
    met.add_if(given as u16 as usize == due, "wrong overlap: equal in its last 16 bits");
    met.add_if(given as u32 as usize == due, "wrong overlap: equal in its last 32 bits");
    met.add_if(given == usize::MAX, "wrong overlap: the largest number");
    met.add_if(first_difference(&list[number + 1..], &right[number + 1..]).is_some(), "wrong overlap: a second one behind it");
    met.add(if j.byte.is_none() { "wrong overlap: the FIGure is right" } else { "wrong overlap: a wrong byte too" });
    let drawn = j.drawn();
    met.add_if(j.widths[drawn[number + 1]] == Some(0), "wrong overlap: of a character of width 0");
    met.add_if(drawn[number + 1] > drawn[number] + 1, "wrong overlap: behind a byte that draws nothing");
    met.add_if(j.is_leftward(), "wrong overlap: right to left");
}

/// A FIGure that is the start of the drawing, or the drawing that of the FIGure.
fn shorter(j: &Judged, met: &mut Met) {
    let (figure, drawn) = (j.q.figure, &j.right.figure);
    if figure.len() < drawn.len() {
        met.add("wrong byte: the FIGure is cut off");
        met.add_if(figure.is_empty(), "wrong byte: the FIGure is empty");
        met.add_if(figure.len() + 1 == drawn.len(), "wrong byte: the FIGure is a byte short");
        met.add_if(figure.ends_with(b"\n"), "wrong byte: the FIGure is cut off behind a row");
    } else {
        met.add("wrong byte: the FIGure goes on");
        met.add_if(figure.len() == drawn.len() + 1, "wrong byte: the FIGure goes on by one byte");
    }
}

/// A byte of the FIGure that is another one in the drawing.
fn other_byte(j: &Judged, place: usize, met: &mut Met) {
    let (figure, drawn) = (j.q.figure, &j.right.figure);
    let first_row = drawn.iter().position(|b| *b == b'\n').unwrap_or(0);
    met.add(if place <= first_row { "wrong byte: in the first row" } else { "wrong byte: in another row" });
    if drawn[place] == b'\n' {
        met.add("wrong byte: a row goes on");
        met.add_if(figure[place] == b' ', "wrong byte: a row goes on by a blank");
        met.add_if(figure[place] == b'\r', "wrong byte: a row goes on by CR");
    } else if figure[place] == b'\n' {
        met.add("wrong byte: a row ends");
        let rest = drawn[place..].iter().take_while(|b| **b != b'\n');
        met.add_if(rest.clone().all(|b| *b == b' '), "wrong byte: only blanks of a row's end are missing");
    }
    met.add_if(figure[place] == j.font.header.hardblank && drawn[place] == b' ', "wrong byte: a hardblank");
    met.add_if(first_difference(&figure[place + 1..], &drawn[place + 1..]).is_some(), "wrong byte: a second one behind it");
}

fn wrong_byte(j: &Judged, place: usize, met: &mut Met) {
    let (figure, drawn) = (j.q.figure, &j.right.figure);
    met.add_if(place == 0, "wrong byte: the first");
    met.add_if(j.right.drawn == 0, "wrong byte: no character");
    met.add_if(figure.len() > 32032, "wrong byte: the FIGure is longer than every drawing");
    if place == figure.len() || place == drawn.len() {
        shorter(j, met);
    } else {
        other_byte(j, place, met);
    }
}

fn accepted(j: &Judged, met: &mut Met) {
    let (right, drawn) = (j.right, j.drawn());
    met.add(match right.drawn {
        0 => "accepted: no character",
        1 => "accepted: one character",
        _ => "accepted: several characters",
    });
    met.add_if((1..drawn.len()).any(|k| drawn[k] > drawn[k - 1] + 1), "accepted: nothing is drawn for a byte between two");
    met.add_if(right.drawn > 1 && j.widths.contains(&Some(0)), "accepted: a character of width 0");
    met.add_if(j.stood_in, "accepted: a character that is stood in");
    met.add_if(j.mapped, "accepted: mapped");
    met.add_if(right.overlaps.iter().any(|o| *o > 0), "accepted: an overlap over 0");
    met.add_if(right.overlaps.iter().any(|o| *o > 1), "accepted: an overlap over 1");
    met.add(match j.font.header.layout {
        Layout::FullWidth => "accepted: full width",
        Layout::Fitting => "accepted: fitting",
        Layout::Smushing(Smushing::Universal) => "accepted: universal",
        Layout::Smushing(Smushing::Controlled(_)) => "accepted: controlled",
    });
    met.add_if(j.is_leftward(), "accepted: right to left");
    met.add_if(j.font.header.height > 1, "accepted: several rows");
    met.add_if(right.figure.iter().position(|b| *b == b'\n') == Some(1000), "accepted: 1,000 columns");
    met.add_if(right.overlaps.len() == 1023, "accepted: 1,023 overlaps");
}

/// A refusal of the drawing, and which others are due with it.
fn refused(q: &Request, number: u64, met: &mut Met) {
    let bad_control = control::read(q.control).is_err();
    met.add_if(number < 9 && bad_control, "the font's before the control file's");
    met.add_if((10..15).contains(&number) && q.text.len() > 1024, "the control file's before 15");
    met.add_if(number == 15 && q.text.len() == 1025, "15: 1,025 bytes");
    met.add_if(number == 15 && q.overlaps.len() + 1 != q.text.len(), "15: a list of any length");
    if number == 16 {
        let shorter = q.overlaps.len() + 1 == q.text.len();
        met.add_if(q.text.len() == 1001 && q.text.iter().all(|b| b"abc".contains(b)), "16: 1,001 columns");
        met.add(if shorter { "16: a list that is one shorter than the characters" } else { "16: a list of another length" });
    }
}

/// What a check met; its answer, the size of its scratch, and what it comes to in one that is large enough.
pub fn check(q: &Request, answer: u64, scratch: usize, right: &Result<Right, Refusal>, met: &mut Met) {
    if scratch < 32000 {
        met.add_if(scratch == 31999, "9: a scratch of 31,999");
        met.add_if(font::read(q.font).is_err(), "9 for the scratch before a font's");
        let length = right.as_ref().is_ok_and(|right| right.overlaps.len() != q.overlaps.len());
        return met.add_if(length, "9 for the scratch, which would be 25");
    }
    let right = match right {
        Ok(right) => right,
        Err(refusal) => return refused(q, refusal.number, met),
    };
    let Some(judged) = Judged::of(q, right) else { return };
    match calls::apart(answer) {
        Ok([0, ..]) => accepted(&judged, met),
        Ok([1, high, low]) => wrong_overlap(&judged, (high as usize) << 16 | low as usize, met),
        Ok([_, high, low]) => wrong_byte(&judged, (high as usize) << 16 | low as usize, met),
        Err(_) => wrong_length(&judged, met),
    }
}
