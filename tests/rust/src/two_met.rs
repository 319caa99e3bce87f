//! What the random drawings by two fonts met of request Q-7: each of the four tries, codes 0 in either font, layouts and directions that differ, what the first font
//! alone would draw, and each refusal in its order.
use crate::calls;
use crate::met::Met;
use crate::plain::control::{self, Control};
use crate::plain::draw::{self, line};
use crate::plain::font::{self, Character};
use crate::plain::header::{self, Header};
use crate::plain::lines::lines;
use crate::plain::pairs::{Layout, Mode, Smushing};
use crate::plain::two::{Found, Of, Request, Two};
use crate::plain::Refusal;

pub const CASES: &[&str] = &[
    // Areas, and the order of refusals.
    "9: a scratch of 31,999",
    "9 for the scratch before a font's",
    "the first font refused alone",
    "the second font refused alone",
    "both refused, by other numbers",
    "both refused by one number, at other places",
    "the first font refused, where height or hardblank differs",
    "the second font refused, where height or hardblank differs",
    "the second font before the control file",
    "24: heights alone",
    "24: hardblanks alone",
    "24: both",
    "24 before the control file",
    "24 before 15",
    "24 without an output",
    "the control file before 15",
    "15: 1,025 bytes",
    "16 by a character of the second",
    "9: an output a byte short",
    "output to the byte",
    // The four tries, each used where none before it is there.
    "found in the first, the second lacks it",
    "found in the first, the second has another",
    "found in the second alone",
    "found in the second, the first has a code 0",
    "found in the second, the last of several",
    "found in the first, the last of several",
    "stood in by the first, the second has no code 0",
    "stood in by the first, the second has a code 0",
    "stood in by the second",
    "stood in by the last of several codes 0 of the first",
    "stood in by the last of several codes 0 of the second",
    "nothing drawn",
    "text byte 0 found in the first",
    "text byte 0 found in the second alone",
    "text byte 0 drew nothing",
    "mapped to a code of the second alone",
    "mapped away from a code of the second alone",
    "mapped to code 0, found in the second alone",
    "code -1 stood in",
    "found in the second with width 0",
    "stood in by the second with width 0",
    "a row of the second that the first has not at that place",
    // Texts.
    "an empty text",
    "characters of both fonts",
    "characters of the second alone",
    "found in the second and stood in, in one text",
    "found in the second and nothing drawn, in one text",
    "the first alone would draw another line",
    "the first alone would count others",
    // Layout and direction.
    "both fonts, full width",
    "both fonts, fitting",
    "both fonts, universal",
    "both fonts, controlled",
    "both fonts, right to left",
    "both fonts, closer than side by side",
    "the second's layout would draw another line",
    "the second's direction would draw another line",
    // Laws.
    "the same font twice, drawn",
    "the same font twice, refused",
    "every code in the first, drawn as by the first alone",
    "every code in the first, refused as by the first alone",
];

/// The header of a font, which may be refused for what stands behind it.
fn head(font: &[u8]) -> Option<Header> {
    let first = *lines(font).first()?;
    header::read(&font[first.start..first.end]).ok()
}

fn heads_differ(q: &Request) -> bool {
    match (head(q.first), head(q.second)) {
        (Some(one), Some(other)) => one.height != other.height || one.hardblank != other.hardblank,
        _ => false,
    }
}

/// The refusals of fonts that come before the text is looked at, and which others are due with them.
fn fonts_refused(q: &Request, number: u64, room: usize, met: &mut Met) {
    let refused = |font: &[u8]| font::read(font).err();
    let bad_control = control::read(q.control).is_err();
    match (refused(q.first), refused(q.second)) {
        (Some(_), None) => met.add("the first font refused alone"),
        (None, Some(_)) => met.add("the second font refused alone"),
        (Some(one), Some(other)) if one.number != other.number => met.add("both refused, by other numbers"),
        (Some(one), Some(other)) => met.add_if(one.place != other.place, "both refused by one number, at other places"),
        (None, None) => {}
    }
    met.add_if(refused(q.first).is_some() && heads_differ(q), "the first font refused, where height or hardblank differs");
    if refused(q.first).is_none() && refused(q.second).is_some() {
        met.add_if(heads_differ(q), "the second font refused, where height or hardblank differs");
        met.add_if(bad_control, "the second font before the control file");
    }
    if let (24, Some(one), Some(other)) = (number, head(q.first), head(q.second)) {
        let (heights, hardblanks) = (one.height != other.height, one.hardblank != other.hardblank);
        met.add_if(heights && !hardblanks, "24: heights alone");
        met.add_if(hardblanks && !heights, "24: hardblanks alone");
        met.add_if(heights && hardblanks, "24: both");
        met.add_if(bad_control, "24 before the control file");
        met.add_if(q.text.len() > 1024, "24 before 15");
        met.add_if(room == 0, "24 without an output");
    }
}

/// How many characters of a font have a code.
fn times(two: &Two, of: Of, code: i32) -> usize {
    two.font(of).font.characters.iter().filter(|c| c.code == code).count()
}

/// A byte whose code one of the fonts has, and the character that is used for it.
fn itself(two: &Two, (byte, code): (i32, i32), of: Of, character: &Character, met: &mut Met) {
    let (mapped, has) = (code != byte, |of: Of, code: i32| times(two, of, code));
    if of == Of::First {
        let one = draw::block(two.first.bytes, character).rows;
        let other = two.second.font.characters.iter().rev().find(|c| c.code == code);
        let other = other.map(|c| draw::block(two.second.bytes, c).rows);
        met.add_if(other.is_none(), "found in the first, the second lacks it");
        met.add_if(other.is_some_and(|rows| rows != one), "found in the first, the second has another");
        met.add_if(has(Of::First, code) > 1, "found in the first, the last of several");
        met.add_if(!mapped && code == 0, "text byte 0 found in the first");
        let from_second = mapped && has(Of::First, byte) == 0 && has(Of::Second, byte) > 0;
        return met.add_if(from_second, "mapped away from a code of the second alone");
    }
    met.add("found in the second alone");
    met.add_if(has(Of::First, 0) > 0, "found in the second, the first has a code 0");
    met.add_if(has(Of::Second, code) > 1, "found in the second, the last of several");
    met.add_if(!mapped && code == 0, "text byte 0 found in the second alone");
    met.add_if(mapped && code == 0, "mapped to code 0, found in the second alone");
    met.add_if(mapped, "mapped to a code of the second alone");
    met.add_if(character.width == 0, "found in the second with width 0");
    let elsewhere = |at: &usize| two.first.bytes.get(*at..*at + character.width) != two.second.bytes.get(*at..*at + character.width);
    met.add_if(character.rows.iter().any(elsewhere), "a row of the second that the first has not at that place");
}

/// Which of the four tries a byte's code was found by.
fn byte(two: &Two, control: &Control, byte: u8, met: &mut Met) {
    let code = control.map(byte as i32);
    match two.look_up(code) {
        Found::Itself(of, character) => itself(two, (byte as i32, code), of, character, met),
        Found::StoodIn(Of::First, _) => {
            let both = times(two, Of::Second, 0) > 0;
            met.add(if both { "stood in by the first, the second has a code 0" } else { "stood in by the first, the second has no code 0" });
            met.add_if(times(two, Of::First, 0) > 1, "stood in by the last of several codes 0 of the first");
            met.add_if(code == -1, "code -1 stood in");
        }
        Found::StoodIn(Of::Second, character) => {
            met.add("stood in by the second");
            met.add_if(times(two, Of::Second, 0) > 1, "stood in by the last of several codes 0 of the second");
            met.add_if(character.width == 0, "stood in by the second with width 0");
        }
        Found::Nothing => {
            met.add("nothing drawn");
            met.add_if(byte == 0 && code == 0, "text byte 0 drew nothing");
        }
    }
}

/// How many bytes of a text are of each kind.
struct Kinds {
    firsts: usize,
    seconds: usize,
    stood_in: usize,
    nothing: usize,
    /// The widths of all characters side by side.
    apart: usize,
}

fn kinds(two: &Two, control: &Control, text: &[u8]) -> Kinds {
    let mut kinds = Kinds { firsts: 0, seconds: 0, stood_in: 0, nothing: 0, apart: 0 };
    for byte in text {
        let found = two.look_up(control.map(*byte as i32));
        match found {
            Found::Itself(Of::First, _) => kinds.firsts += 1,
            Found::Itself(Of::Second, _) => kinds.seconds += 1,
            Found::StoodIn(..) => kinds.stood_in += 1,
            Found::Nothing => kinds.nothing += 1,
        }
        kinds.apart += found.character().map_or(0, |(_, c)| c.width);
    }
    kinds
}

/// A text with characters of both fonts, and what another layout or direction would make of it.
fn of_both(two: &Two, control: &Control, text: &[u8], apart: usize, met: &mut Met) {
    let (mode, other) = (two.mode(), &two.second.font.header);
    let drawn = two.line(mode, control, text);
    met.add_if(drawn.width < apart, "both fonts, closer than side by side");
    met.add_if(mode.right_to_left, "both fonts, right to left");
    met.add(match mode.layout {
        Layout::FullWidth => "both fonts, full width",
        Layout::Fitting => "both fonts, fitting",
        Layout::Smushing(Smushing::Universal) => "both fonts, universal",
        Layout::Smushing(Smushing::Controlled(_)) => "both fonts, controlled",
    });
    let differs = |mode: Mode| two.line(mode, control, text).rows != drawn.rows;
    met.add_if(differs(Mode { layout: other.layout, ..mode }), "the second's layout would draw another line");
    met.add_if(differs(Mode { right_to_left: other.right_to_left, ..mode }), "the second's direction would draw another line");
}

fn drawn(q: &Request, two: &Two, control: &Control, met: &mut Met) {
    q.text.iter().for_each(|b| byte(two, control, *b, met));
    let kinds = kinds(two, control, q.text);
    met.add_if(q.text.is_empty(), "an empty text");
    met.add_if(kinds.firsts == 0 && kinds.seconds > 1, "characters of the second alone");
    met.add_if(kinds.seconds > 0 && kinds.stood_in > 0, "found in the second and stood in, in one text");
    met.add_if(kinds.seconds > 0 && kinds.nothing > 0, "found in the second and nothing drawn, in one text");
    if kinds.firsts > 0 && kinds.seconds > 0 {
        met.add("characters of both fonts");
        of_both(two, control, q.text, kinds.apart, met);
    }
    let first = &two.first.font;
    let alone = line(q.first, first, control, q.text);
    met.add_if(alone.rows != two.line(two.mode(), control, q.text).rows, "the first alone would draw another line");
    met.add_if(draw::replaced(first, control, q.text) != two.replaced(control, q.text), "the first alone would count others");
}

/// What a drawing met; its answer, the sizes of its areas, and what it comes to in areas that are large enough: how long the output is, or a refusal.
pub fn draw(q: &Request, answer: u64, [scratch, room]: [usize; 2], comes_to: Result<usize, Refusal>, met: &mut Met) {
    let number = calls::number(answer);
    if scratch < 32000 {
        met.add_if(scratch == 31999, "9: a scratch of 31,999");
        return met.add_if(font::read(q.first).is_err() || font::read(q.second).is_err(), "9 for the scratch before a font's");
    }
    fonts_refused(q, number, room, met);
    let Ok(two) = q.fonts() else { return };
    let Ok(control) = control::read(q.control) else {
        return met.add_if(q.text.len() > 1024, "the control file before 15");
    };
    met.add_if(number == 15 && q.text.len() == 1025, "15: 1,025 bytes");
    met.add_if(number == 16 && kinds(&two, &control, q.text).seconds > 0, "16 by a character of the second");
    met.add_if(number == 9 && comes_to == Ok(room + 1), "9: an output a byte short");
    if number == 0 {
        met.add_if(comes_to == Ok(room), "output to the byte");
        drawn(q, &two, &control, met);
    }
}

/// Whether every code of a text is in the first font, where both fonts and the control file are read.
pub fn is_covered(q: &Request) -> bool {
    let (Ok(two), Ok(control)) = (q.fonts(), control::read(q.control)) else { return false };
    q.text.iter().all(|b| matches!(two.look_up(control.map(*b as i32)), Found::Itself(Of::First, _)))
}

/// A drawing that was as the first font's own.
pub fn as_one(q: &Request, number: u64, met: &mut Met) {
    if q.first == q.second {
        met.add(if number == 0 { "the same font twice, drawn" } else { "the same font twice, refused" });
    } else {
        let refused = "every code in the first, refused as by the first alone";
        met.add(if number == 0 { "every code in the first, drawn as by the first alone" } else { refused });
    }
}
