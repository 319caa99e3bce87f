//! What the random texts met of request Q-4: how they are broken, what stands at a break, which limits, characters and layouts, and each refusal in its order.
use crate::calls;
use crate::met::Met;
use crate::plain::draw::{line, look_up};
use crate::plain::font::LookUp;
use crate::plain::pairs::{Layout, Smushing};
use crate::plain::wrap::{self, Areas, Files, Part, Request, Wrapped};
use crate::plain::{control, font, Refusal};

pub const CASES: &[&str] = &[
    // Areas, limits, and the order of refusals.
    "9: firsts of 1,023",
    "9: ends of 1,023",
    "9: a scratch of 31,999",
    "lists of 1,025",
    "9: an output a byte short",
    "output to the byte",
    "an area before the font",
    "the font before the control file",
    "the control file before 15",
    "15: 1,025 bytes",
    "15 before 17",
    "17: limit 0",
    "17: limit 1,001",
    "17: a limit over 16 bits",
    "17 before 19",
    "19 without an output",
    "limit 1",
    "limit 1,000",
    // 19.
    "19: at place 0",
    "19: behind a word that fits",
    "19: inside a word",
    "19: one column too wide",
    "19: the code's own character",
    "19: a stand-in",
    "19: a narrower character mapped to a wider one",
    "a wider character mapped to one that fits",
    "a character as wide as the limit",
    "a stand-in as wide as the limit",
    "a blank wider than the limit",
    // Texts.
    "an empty text",
    "blanks only",
    "1,024 bytes",
    "blanks at the start",
    "blanks at the end",
    "wider than 1,000 columns in one line",
    "a byte stood in",
    "a byte drew nothing",
    "a blank that is not drawn, and counts as not in the font",
    // Lines.
    "all words in one line",
    "one line a word",
    "over 100 lines",
    "1,024 lines",
    "a line as wide as the limit",
    "a line of width 0",
    "a line of several blanks between words",
    "several blanks at a break",
    "a word more is one column too wide",
    "a character more is one column too wide",
    "a broken word",
    "a word broken twice",
    "a word broken after one character",
    "a rest and a further word in one line",
    "a next word that is too long even alone",
    "a broken word, then a code that draws nothing at the line's end",
    "a line of codes that draw nothing",
    // How words of one line are joined.
    "several words, full width",
    "several words, fitting",
    "several words, universal",
    "several words, controlled",
    "several words, closer than side by side",
    "several words, right to left",
    "a broken word, right to left",
];

/// A request and what it comes to in areas that are large enough.
pub struct Asked<'a> {
    pub request: &'a Request<'a>,
    pub comes_to: &'a Result<Wrapped, Refusal>,
}

fn width(request: &Request, files: &Files, part: Part) -> usize {
    line(request.font, &files.font, &files.control, &request.text[part.first..part.end]).width
}

fn character_width(files: &Files, byte: u8) -> usize {
    look_up(&files.font, &files.control, byte).character().map_or(0, |c| c.width)
}

/// The width of the character that the font has for a byte's own code.
fn unmapped(files: &Files, byte: u8) -> Option<usize> {
    match files.font.look_up(byte as i32) {
        LookUp::Itself(character) => Some(character.width),
        _ => None,
    }
}

fn is_nothing(files: &Files, byte: u8) -> bool {
    matches!(look_up(&files.font, &files.control, byte), LookUp::Nothing)
}

/// The refusals that come before the lines are found, and which others are due with them.
fn refused(asked: &Asked, areas: &Areas, number: u64, met: &mut Met) {
    let request = asked.request;
    let (font, control) = (font::read(request.font).is_err(), control::read(request.control).is_err());
    let enough = [areas.firsts.len() >= 1024, areas.ends.len() >= 1024, areas.scratch.len() >= 32000];
    let bad_limit = !(1..=1000).contains(&request.limit);
    met.add_if(areas.firsts.len() == 1023 && enough[1] && enough[2], "9: firsts of 1,023");
    met.add_if(areas.ends.len() == 1023 && enough[0] && enough[2], "9: ends of 1,023");
    met.add_if(areas.scratch.len() == 31999 && enough[0] && enough[1], "9: a scratch of 31,999");
    met.add_if(enough != [true; 3] && font, "an area before the font");
    if enough != [true; 3] {
        return;
    }
    met.add_if(font && control, "the font before the control file");
    met.add_if(!font && control && request.text.len() > 1024, "the control file before 15");
    met.add_if(number == 15 && request.text.len() == 1025, "15: 1,025 bytes");
    met.add_if(number == 15 && bad_limit, "15 before 17");
    met.add_if(number == 17 && request.limit == 0, "17: limit 0");
    met.add_if(number == 17 && request.limit == 1001, "17: limit 1,001");
    met.add_if(number == 17 && request.limit > 65535, "17: a limit over 16 bits");
    if let (17, Ok(files)) = (number, request.files()) {
        let wider = request.text.iter().any(|b| *b != 32 && character_width(&files, *b) > request.limit);
        met.add_if(wider, "17 before 19");
    }
}

/// A character that is too wide, at a place.
fn too_wide(request: &Request, files: &Files, place: usize, met: &mut Met) {
    let byte = request.text[place];
    let found = look_up(&files.font, &files.control, byte);
    met.add_if(place == 0, "19: at place 0");
    met.add_if(place > 0 && request.text[place - 1] == 32 && request.text[..place].iter().any(|b| *b != 32), "19: behind a word that fits");
    met.add_if(place > 0 && request.text[place - 1] != 32, "19: inside a word");
    met.add_if(character_width(files, byte) == request.limit + 1, "19: one column too wide");
    met.add(if matches!(found, LookUp::StoodIn(_)) { "19: a stand-in" } else { "19: the code's own character" });
    let narrower = unmapped(files, byte).is_some_and(|width| width <= request.limit);
    met.add_if(narrower, "19: a narrower character mapped to a wider one");
}

/// What a text that is drawn has in it.
fn texts(request: &Request, files: &Files, lines: &[Part], met: &mut Met) {
    let (text, limit) = (request.text, request.limit);
    let of = |byte: u8| look_up(&files.font, &files.control, byte);
    let kept = |at: usize| lines.iter().any(|line| line.first <= at && at < line.end);
    let has = |holds: &dyn Fn(u8) -> bool| text.iter().any(|b| holds(*b));
    met.add_if(has(&|b| b != 32 && unmapped(files, b).is_some_and(|width| width > limit)), "a wider character mapped to one that fits");
    met.add_if(has(&|b| b != 32 && matches!(of(b), LookUp::Itself(c) if c.width == limit)), "a character as wide as the limit");
    met.add_if(has(&|b| b != 32 && matches!(of(b), LookUp::StoodIn(c) if c.width == limit)), "a stand-in as wide as the limit");
    met.add_if(lines.len() > 1 && has(&|b| b == 32 && character_width(files, b) > limit), "a blank wider than the limit");
    met.add_if(text.is_empty(), "an empty text");
    met.add_if(!text.is_empty() && lines.is_empty(), "blanks only");
    met.add_if(text.len() == 1024, "1,024 bytes");
    met.add_if(!lines.is_empty() && text.first() == Some(&32), "blanks at the start");
    met.add_if(!lines.is_empty() && text.last() == Some(&32), "blanks at the end");
    met.add_if(line(request.font, &files.font, &files.control, text).width > 1000, "wider than 1,000 columns in one line");
    met.add_if(has(&|b| matches!(of(b), LookUp::StoodIn(_))), "a byte stood in");
    met.add_if(has(&|b| is_nothing(files, b)), "a byte drew nothing");
    let missing = !matches!(of(32), LookUp::Itself(_));
    met.add_if(missing && (0..text.len()).any(|at| text[at] == 32 && !kept(at)), "a blank that is not drawn, and counts as not in the font");
}

/// What stands between a line and the next.
fn breaks(request: &Request, files: &Files, lines: &[Part], at: usize, met: &mut Met) {
    let (text, limit, part, next) = (request.text, request.limit, lines[at], lines[at + 1]);
    let word_end = |first: usize| (first..text.len()).find(|k| text[*k] == 32).unwrap_or(text.len());
    let is_broken = |k: usize| lines.get(k + 1).is_some_and(|next| next.first == lines[k].end);
    if !is_broken(at) {
        met.add_if(next.first > part.end + 1, "several blanks at a break");
        met.add_if(is_broken(at + 1), "a next word that is too long even alone");
        let more = Part { first: part.first, end: word_end(next.first) };
        return met.add_if(width(request, files, more) == limit + 1, "a word more is one column too wide");
    }
    met.add("a broken word");
    met.add_if(is_broken(at + 1), "a word broken twice");
    met.add_if(part.end == part.first + 1, "a word broken after one character");
    met.add_if(text[next.first..next.end].contains(&32), "a rest and a further word in one line");
    met.add_if(is_nothing(files, text[part.end - 1]), "a broken word, then a code that draws nothing at the line's end");
    met.add_if(files.font.header.right_to_left, "a broken word, right to left");
    let more = Part { first: part.first, end: part.end + 1 };
    met.add_if(width(request, files, more) == limit + 1, "a character more is one column too wide");
}

/// A line of several words, and how they are joined.
fn several_words(request: &Request, files: &Files, part: Part, met: &mut Met) {
    let text = &request.text[part.first..part.end];
    let apart: usize = text.iter().map(|b| character_width(files, *b)).sum();
    met.add_if(text.windows(2).any(|two| two == b"  "), "a line of several blanks between words");
    met.add_if(width(request, files, part) < apart, "several words, closer than side by side");
    met.add_if(files.font.header.right_to_left, "several words, right to left");
    met.add(match files.font.header.layout {
        Layout::FullWidth => "several words, full width",
        Layout::Fitting => "several words, fitting",
        Layout::Smushing(Smushing::Universal) => "several words, universal",
        Layout::Smushing(Smushing::Controlled(_)) => "several words, controlled",
    });
}

fn drawn(request: &Request, files: &Files, lines: &[Part], met: &mut Met) {
    let words = wrap::words(request.text);
    met.add_if(words.len() > 1 && lines.len() == 1, "all words in one line");
    met.add_if(words.len() > 1 && lines == words, "one line a word");
    met.add_if(lines.len() > 100, "over 100 lines");
    met.add_if(lines.len() == 1024, "1,024 lines");
    met.add_if(!lines.is_empty() && request.limit == 1, "limit 1");
    met.add_if(!lines.is_empty() && request.limit == 1000, "limit 1,000");
    // Of many lines the first tell enough.
    for (at, part) in lines.iter().enumerate().take(20) {
        let (text, width) = (&request.text[part.first..part.end], width(request, files, *part));
        met.add_if(width == request.limit, "a line as wide as the limit");
        met.add_if(width == 0, "a line of width 0");
        met.add_if(text.iter().all(|b| is_nothing(files, *b)), "a line of codes that draw nothing");
        if text.contains(&32) {
            several_words(request, files, *part, met);
        }
        if at + 1 < lines.len() {
            breaks(request, files, lines, at, met);
        }
    }
}

/// What a wrapped drawing met; its answer and the areas that it was lent.
pub fn draw_wrapped(asked: &Asked, answer: u64, areas: &Areas, met: &mut Met) {
    let number = calls::number(answer);
    refused(asked, areas, number, met);
    if let (19, Ok(files), Err(refusal)) = (number, asked.request.files(), asked.comes_to) {
        too_wide(asked.request, &files, refusal.place as usize, met);
        met.add_if(areas.out.is_empty(), "19 without an output");
    }
    let Ok(Wrapped { files, lines, drawn: bytes }) = asked.comes_to else { return };
    let short = areas.firsts.len() < 1024 || areas.ends.len() < 1024 || areas.scratch.len() < 32000;
    met.add_if(!short && number == 9 && areas.out.len() + 1 == bytes.len(), "9: an output a byte short");
    if number == 0 {
        met.add_if(!bytes.is_empty() && areas.out.len() == bytes.len(), "output to the byte");
        met.add_if(areas.firsts.len() == 1025 || areas.ends.len() == 1025, "lists of 1,025");
        texts(asked.request, files, lines, met);
        drawn(asked.request, files, lines, met);
    }
}
