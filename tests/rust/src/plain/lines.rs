//! "Lines are taken one after another; each ends at LF, CR or CR LF, and a last one without an end counts."

/// A line's bytes are those from `start` up to `end`.
#[derive(Clone, Copy)]
pub struct Line {
    pub start: usize,
    pub end: usize,
}

pub fn lines(file: &[u8]) -> Vec<Line> {
    let mut all = Vec::new();
    let mut start = 0;
    while start < file.len() {
        let length = file[start..].iter().position(|b| *b == b'\n' || *b == b'\r');
        let end = length.map_or(file.len(), |n| start + n);
        all.push(Line { start, end });
        start = if file[end..].starts_with(b"\r\n") { end + 2 } else { end + 1 };
    }
    all
}

pub fn is_gap(byte: u8) -> bool {
    byte == b' ' || byte == b'\t'
}

/// "Words are split by blanks or tabs."
pub fn words(text: &[u8]) -> impl Iterator<Item = &[u8]> {
    text.split(|b| is_gap(*b)).filter(|w| !w.is_empty())
}
