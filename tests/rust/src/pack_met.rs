//! What the random packs met: each way to be damaged, where a letter was put and why not, what was found, removed and dropped, and drawings.
use crate::calls;
use crate::met::Met;
use crate::packs::Letter;
use crate::plain::control;
use crate::plain::draw;
use crate::plain::font::LookUp;
use crate::plain::pack::{self, Damage, Pack, Request, RECORD_HEAD};
use crate::plain::pairs::{Layout, Smushing};

pub const PACKS: &[&str] = &[
    "20: longer than 65,536 bytes",
    "20: shorter than 7 bytes",
    "20: mark",
    "20: version",
    "20: height",
    "20: hardblank",
    "20: a first byte of a record",
    "20: bytes behind the records",
    "20: a head cut off",
    "20: rows cut off",
    "20: code -1, live",
    "20: code -1, free",
    "20: width over 199, live",
    "20: width over 199, free",
    "20: a row byte, live",
    "20: a row byte, free",
    "20: a repeated live code",
    "7 bytes",
    "no records, zeros behind",
    "records to the last byte",
    "65,536 bytes",
    "a live letter of width 0",
    "a live letter of width 199",
    "a hardblank under 32 in a row",
    "a free record before a live one",
    "a free record with the code of a live one",
    "two free records of one code",
];

pub const LETTERS: &[&str] = &[
    // Find and remove.
    "found",
    "found behind a free record of its code",
    "found, place of the rows 65,536",
    "22: only a free record has the code",
    "22: no record has the code",
    "17: find or remove code -1",
    "20 before 17: find or remove code -1",
    "removed",
    "removed, a free record of its code before it",
    // Put.
    "put into a free record",
    "put into the first of several free records of its width",
    "put behind the last record",
    "put behind the last record, a free record of another width",
    "put to the last byte",
    "put with width 0",
    "put with width 199",
    "put with a code that a free record has",
    "17: put code -1",
    "17: put a width of 200",
    "17: put a width over 16 bits",
    "17: put a row byte",
    "17: put too few bytes",
    "17: put too many bytes",
    "20 before 17: put",
    "17 before 21",
    "21 before 23",
    "21",
    "23: a byte short",
    "23: a free record of another width",
    "23: room for no head",
    // Compact.
    "compacted, nothing free",
    "compacted, nothing live",
    "compacted, a letter moved",
    "20: compact",
];

pub const DRAWINGS: &[&str] = &[
    "as the font draws it, full width",
    "as the font draws it, fitting",
    "as the font draws it, universal",
    "as the font draws it, controlled",
    "as the font draws it, right to left",
    "as the font draws it, Full_Layout absent",
    "as the font draws it, a byte stood in",
    "as the font draws it, a byte drew nothing",
    "as the font draws it, refused",
    "stood in by code 0",
    "nothing drawn, code 0 in a free record",
    "a letter of a free record is not drawn",
    "a letter of width 199",
    "a hardblank drawn",
    "9 for the scratch before 20",
    "20 before 17",
    "17: layout 32,768",
    "17: a layout over 32 bits",
    "17: direction 2",
    "17 before the control file",
    "the control file before 15",
    "15",
    "16",
    "9 for the output",
];

fn damaged(damage: Damage) -> &'static str {
    match damage {
        Damage::TooLong => "20: longer than 65,536 bytes",
        Damage::NoHead => "20: shorter than 7 bytes",
        Damage::Mark => "20: mark",
        Damage::Version => "20: version",
        Damage::Height => "20: height",
        Damage::Hardblank => "20: hardblank",
        Damage::Kind => "20: a first byte of a record",
        Damage::Behind => "20: bytes behind the records",
        Damage::CutHead => "20: a head cut off",
        Damage::CutRows => "20: rows cut off",
        Damage::CodeMinusOne(true) => "20: code -1, live",
        Damage::CodeMinusOne(false) => "20: code -1, free",
        Damage::Width(true) => "20: width over 199, live",
        Damage::Width(false) => "20: width over 199, free",
        Damage::RowByte(true) => "20: a row byte, live",
        Damage::RowByte(false) => "20: a row byte, free",
        Damage::RepeatedCode => "20: a repeated live code",
    }
}

/// Whether a free record with some code stands before a place.
fn free_before(read: &Pack, place: usize, code: i32) -> bool {
    read.records.iter().any(|record| !record.live && record.place < place && record.code == code)
}

pub fn check(pack: &[u8], met: &mut Met) {
    let read = match pack::intact(pack) {
        Ok(read) => read,
        Err(damage) => return met.add(damaged(damage)),
    };
    let frees: Vec<i32> = read.records.iter().filter(|record| !record.live).map(|record| record.code).collect();
    met.add_if(pack.len() == 7, "7 bytes");
    met.add_if(pack.len() > 7 && read.records.is_empty(), "no records, zeros behind");
    met.add_if(!read.records.is_empty() && read.end == pack.len(), "records to the last byte");
    met.add_if(pack.len() == 65536, "65,536 bytes");
    met.add_if(read.live().any(|record| record.width == 0), "a live letter of width 0");
    met.add_if(read.live().any(|record| record.width == 199), "a live letter of width 199");
    let rows = |record: &pack::Record| pack[record.rows()..record.rows() + read.height * record.width].to_vec();
    met.add_if(read.hardblank < 32 && read.live().any(|record| rows(record).contains(&read.hardblank)), "a hardblank under 32 in a row");
    met.add_if(read.records.windows(2).any(|two| !two[0].live && two[1].live), "a free record before a live one");
    met.add_if(frees.iter().any(|code| read.find(*code).is_some()), "a free record with the code of a live one");
    met.add_if((1..frees.len()).any(|k| frees[..k].contains(&frees[k])), "two free records of one code");
}

/// A code that was found, or was to be removed, in a pack as it was before.
pub fn sought(pack: &[u8], code: i32, met: &mut Met, removed: bool) {
    let Ok(read) = pack::intact(pack) else {
        return met.add_if(code == -1, "20 before 17: find or remove code -1");
    };
    if code == -1 {
        return met.add("17: find or remove code -1");
    }
    let Some(record) = read.find(code) else {
        let free = read.records.iter().any(|record| record.code == code);
        return met.add(if free { "22: only a free record has the code" } else { "22: no record has the code" });
    };
    let before = free_before(&read, record.place, code);
    met.add_if(!removed, "found");
    met.add_if(!removed && before, "found behind a free record of its code");
    met.add_if(!removed && record.rows() == 65536, "found, place of the rows 65,536");
    met.add_if(removed, "removed");
    met.add_if(removed && before, "removed, a free record of its code before it");
}

fn put_refused(pack: &[u8], read: &Pack, letter: &Letter, number: u64, met: &mut Met) {
    let (needed, room) = (read.size(letter.width.min(199)), pack.len() - read.end);
    let (present, free) = (read.find(letter.code).is_some(), read.free(letter.width).is_some());
    let right = letter.width.checked_mul(read.height);
    let bad_byte = letter.rows.iter().any(|byte| !pack::is_row_byte(*byte, read.hardblank));
    if number == 17 {
        met.add_if(letter.code == -1, "17: put code -1");
        met.add_if(letter.width == 200 && right == Some(letter.rows.len()), "17: put a width of 200");
        met.add_if(letter.width > 65535, "17: put a width over 16 bits");
        met.add_if(bad_byte && letter.width <= 199 && right == Some(letter.rows.len()), "17: put a row byte");
        met.add_if(letter.width <= 199 && right > Some(letter.rows.len()), "17: put too few bytes");
        met.add_if(letter.width <= 199 && right < Some(letter.rows.len()), "17: put too many bytes");
        met.add_if(present, "17 before 21");
    }
    met.add_if(number == 21, "21");
    met.add_if(number == 21 && !free && room < needed, "21 before 23");
    met.add_if(number == 23 && room + 1 == needed, "23: a byte short");
    met.add_if(number == 23 && read.records.iter().any(|record| !record.live), "23: a free record of another width");
    met.add_if(number == 23 && room < RECORD_HEAD, "23: room for no head");
}

/// A letter that was put, or not, into a pack as it was before.
pub fn put(pack: &[u8], letter: &Letter, answer: u64, met: &mut Met) {
    let Ok(read) = pack::intact(pack) else {
        return met.add_if(letter.code == -1 || letter.width > 199, "20 before 17: put");
    };
    if calls::number(answer) != 0 {
        return put_refused(pack, &read, letter, calls::number(answer), met);
    }
    let frees = || read.records.iter().filter(|record| !record.live);
    let of_width = frees().filter(|record| record.width == letter.width).count();
    met.add_if(of_width > 0, "put into a free record");
    met.add_if(of_width > 1, "put into the first of several free records of its width");
    met.add_if(of_width == 0, "put behind the last record");
    met.add_if(of_width == 0 && frees().count() > 0, "put behind the last record, a free record of another width");
    met.add_if(of_width == 0 && read.end + read.size(letter.width) == pack.len(), "put to the last byte");
    met.add_if(letter.width == 0, "put with width 0");
    met.add_if(letter.width == 199, "put with width 199");
    met.add_if(frees().any(|record| record.code == letter.code), "put with a code that a free record has");
}

/// A pack as it was before it was compacted.
pub fn compact(pack: &[u8], met: &mut Met) {
    let Ok(read) = pack::intact(pack) else { return met.add("20: compact") };
    let live = read.live().count();
    met.add_if(live > 0 && live == read.records.len(), "compacted, nothing free");
    met.add_if(live == 0 && !read.records.is_empty(), "compacted, nothing live");
    met.add_if(read.records.windows(2).any(|two| !two[0].live && two[1].live), "compacted, a letter moved");
}

/// The refusals of a drawing, and which others are due with them.
fn drawing_refused(q: &Request, number: u64, scratch: usize, met: &mut Met) {
    let (damaged, bad_control) = (pack::intact(q.pack).is_err(), control::read(q.control).is_err());
    let bad_layout = q.layout > 32767 || q.direction > 1;
    met.add_if(number == 9 && scratch < 32000 && damaged, "9 for the scratch before 20");
    met.add_if(number == 20 && bad_layout, "20 before 17");
    met.add_if(number == 17 && q.layout == 32768 && q.direction < 2, "17: layout 32,768");
    met.add_if(number == 17 && q.layout > u32::MAX as usize && q.direction < 2, "17: a layout over 32 bits");
    met.add_if(number == 17 && q.layout < 32768 && q.direction == 2, "17: direction 2");
    met.add_if(number == 17 && bad_control, "17 before the control file");
    met.add_if((10..15).contains(&number) && q.text.len() > 1024, "the control file before 15");
    met.add_if(number == 15, "15");
    met.add_if(number == 16, "16");
    met.add_if(number == 9 && scratch >= 32000, "9 for the output");
}

/// A drawing from a pack.
pub fn draw(q: &Request, answer: u64, scratch: usize, met: &mut Met) {
    if calls::number(answer) != 0 {
        return drawing_refused(q, calls::number(answer), scratch, met);
    }
    let (Ok(read), Ok(control)) = (pack::intact(q.pack), control::read(q.control)) else { return };
    let font = q.font(&read);
    let free = |code: i32| read.records.iter().any(|record| !record.live && record.code == code);
    for byte in q.text {
        let code = control.map(*byte as i32);
        match draw::look_up(&font, &control, *byte) {
            LookUp::Itself(character) => {
                met.add_if(character.width == 199, "a letter of width 199");
                let has = |at: &usize| q.pack[*at..*at + character.width].contains(&read.hardblank);
                met.add_if(character.rows.iter().any(has), "a hardblank drawn");
            }
            LookUp::StoodIn(_) => met.add("stood in by code 0"),
            LookUp::Nothing => {
                met.add_if(free(0), "nothing drawn, code 0 in a free record");
                met.add_if(free(code), "a letter of a free record is not drawn");
            }
        }
    }
}

/// A drawing from a pack of a font's characters, which is the font's own.
pub fn same_as_font(q: &Request, without_full_layout: bool, answer: u64, met: &mut Met) {
    let Ok(read) = pack::intact(q.pack) else { return };
    let Ok([nothing, stood_in, _]) = calls::apart(answer) else {
        return met.add("as the font draws it, refused");
    };
    let header = q.font(&read).header;
    met.add(match header.layout {
        Layout::FullWidth => "as the font draws it, full width",
        Layout::Fitting => "as the font draws it, fitting",
        Layout::Smushing(Smushing::Universal) => "as the font draws it, universal",
        Layout::Smushing(Smushing::Controlled(_)) => "as the font draws it, controlled",
    });
    met.add_if(header.right_to_left, "as the font draws it, right to left");
    met.add_if(without_full_layout, "as the font draws it, Full_Layout absent");
    met.add_if(stood_in > 0, "as the font draws it, a byte stood in");
    met.add_if(nothing > 0, "as the font draws it, a byte drew nothing");
}
