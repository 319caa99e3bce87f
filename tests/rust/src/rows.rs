//! What the random fonts met of request Q-3: blanks and tabs at the ends of row lines, of fonts that are read and of lines that are refused 6.
use crate::calls;
use crate::met::Met;
use crate::plain::font::{self, dropped, Font};
use crate::plain::header::{self, Header};
use crate::plain::lines::{is_gap, lines};

pub const CASES: &[&str] = &[
    // Fonts that are read.
    "nothing behind the marks",
    "a blank behind the marks",
    "a tab behind the marks",
    "blanks and tabs behind the marks",
    "blanks or tabs before LF",
    "blanks or tabs before CR LF",
    "blanks or tabs before CR",
    "blanks or tabs at the font's end",
    "Max_Length reached without them, and passed with them",
    "a row that ends with a blank, and one behind its marks",
    "a row of width 0 before blanks or tabs",
    "rows of one character with them and without",
    "the hardblank is a tab, and one behind the marks",
    "the hardblank is a tab, and one in the row",
    "a tag line with a blank or a tab at its end",
    // Lines that are refused.
    "6: an empty line",
    "6: only blanks",
    "6: only tabs",
    "6: blanks and tabs",
    "6: only blanks or tabs, more than Max_Length",
    "6: longer than Max_Length without its blanks or tabs",
    "6: a control byte in the row, blanks or tabs behind",
    "6: a tab in the row, not the hardblank",
    "6: another width, blanks or tabs behind",
];

/// The text of a line that starts at a place, and what ends it.
fn line_at(bytes: &[u8], start: usize) -> (&[u8], &[u8]) {
    let end = bytes[start..].iter().position(|b| *b == b'\n' || *b == b'\r').map_or(bytes.len(), |n| start + n);
    let size = if bytes[end..].starts_with(b"\r\n") { 2 } else { 1 };
    (&bytes[start..end], &bytes[end..bytes.len().min(end + size)])
}

/// A row line of a font that is read, and how wide its row is.
fn row(bytes: &[u8], header: &Header, start: usize, width: usize, met: &mut Met) {
    let (line, end) = line_at(bytes, start);
    let kept = dropped(line);
    let behind = &line[kept.len()..];
    let (blank, tab) = (behind.contains(&b' '), behind.contains(&b'\t'));
    met.add_if(header.hardblank == b'\t' && line[..width].contains(&b'\t'), "the hardblank is a tab, and one in the row");
    met.add(match (blank, tab) {
        (false, false) => return met.add("nothing behind the marks"),
        (true, false) => "a blank behind the marks",
        (false, true) => "a tab behind the marks",
        (true, true) => "blanks and tabs behind the marks",
    });
    met.add(match end {
        b"\n" => "blanks or tabs before LF",
        b"\r\n" => "blanks or tabs before CR LF",
        b"\r" => "blanks or tabs before CR",
        _ => "blanks or tabs at the font's end",
    });
    met.add_if(kept.len() == header.max_length, "Max_Length reached without them, and passed with them");
    met.add_if(width > 0 && line[width - 1] == b' ', "a row that ends with a blank, and one behind its marks");
    met.add_if(width == 0, "a row of width 0 before blanks or tabs");
    met.add_if(tab && header.hardblank == b'\t', "the hardblank is a tab, and one behind the marks");
}

fn read(bytes: &[u8], font: &Font, met: &mut Met) {
    let ends_in_gap = |start: usize| line_at(bytes, start).0.last().map_or(false, |b| is_gap(*b));
    for character in &font.characters {
        character.rows.iter().for_each(|start| row(bytes, &font.header, *start, character.width, met));
        let with = character.rows.iter().filter(|start| ends_in_gap(**start)).count();
        met.add_if(with > 0 && with < character.rows.len(), "rows of one character with them and without");
    }
    let starts: Vec<usize> = lines(bytes).iter().map(|line| line.start).collect();
    for character in &font.characters[102..] {
        let first = starts.binary_search(&character.rows[0]).expect("a line");
        met.add_if(ends_in_gap(starts[first - 1]), "a tag line with a blank or a tab at its end");
    }
}

/// Which of the reasons of 6 a line gives, by the bytes that are left of it. Its header was read.
fn refused(header: &Header, line: &[u8], met: &mut Met) {
    let kept = dropped(line);
    let behind = kept.len() < line.len();
    let Some(mark) = kept.last() else {
        met.add(match (line.contains(&b' '), line.contains(&b'\t')) {
            (false, false) => "6: an empty line",
            (true, false) => "6: only blanks",
            (false, true) => "6: only tabs",
            (true, true) => "6: blanks and tabs",
        });
        return met.add_if(line.len() > header.max_length, "6: only blanks or tabs, more than Max_Length");
    };
    if kept.len() > header.max_length {
        return met.add_if(behind, "6: longer than Max_Length without its blanks or tabs");
    }
    let width = kept.iter().rposition(|b| b != mark).map_or(0, |k| k + 1);
    let bad = kept[..width].iter().find(|b| **b < 32 && **b != header.hardblank);
    met.add_if(bad.is_some() && behind, "6: a control byte in the row, blanks or tabs behind");
    met.add_if(bad == Some(&b'\t'), "6: a tab in the row, not the hardblank");
    met.add_if(bad.is_none() && behind, "6: another width, blanks or tabs behind");
}

/// What a font met, by its answer.
pub fn font(bytes: &[u8], answer: u64, met: &mut Met) {
    match calls::apart(answer) {
        Ok(_) => read(bytes, &font::read(bytes).ok().expect("a font"), met),
        Err((6, place)) => {
            let header = header::read(line_at(bytes, 0).0).expect("a header");
            refused(&header, line_at(bytes, place as usize).0, met);
        }
        Err(_) => {}
    }
}
