//! The header line of a font: refusals 2, 3 and 4.
use super::lines::{is_gap, words};
use super::numbers::header_number;
use super::pairs::{is_hardblank, Layout, Mode, Smushing};
use super::stack::{vertical, Vertical};
use super::{refuse, Refusal};

pub struct Header {
    pub hardblank: u8,
    pub height: usize,
    pub max_length: usize,
    pub comment_lines: usize,
    pub right_to_left: bool,
    pub layout: Layout,
    /// "Vertical values are kept."
    pub full_layout: Option<usize>,
}

impl Header {
    pub fn mode(&self) -> Mode {
        Mode { layout: self.layout, right_to_left: self.right_to_left, hardblank: self.hardblank }
    }

    pub fn vertical(&self) -> Vertical {
        vertical(self.full_layout)
    }
}

/// "An absent Full_Layout gives one of the ready layouts."
fn old_layout(old: i32) -> Layout {
    match old {
        -1 => Layout::FullWidth,
        0 => Layout::Fitting,
        rules => Layout::Smushing(Smushing::Controlled(rules as u8)),
    }
}

/// "Where Full_Layout stands, it decides alone."
pub fn full_layout(full: usize) -> Layout {
    if full & 128 != 0 {
        return Layout::Smushing(match full & 63 {
            0 => Smushing::Universal,
            rules => Smushing::Controlled(rules as u8),
        });
    }
    if full & 64 != 0 {
        Layout::Fitting
    } else {
        Layout::FullWidth
    }
}

/// "Height 1 to 32, Baseline 1 to Height, Max_Length 1 to 200, Old_Layout -1 to 63, Comment_Lines 0 to 1,000, Full_Layout 0 to 32,767,
/// Print_Direction 0 or 1, Codetag_Count not negative."
fn in_range(n: &[i32]) -> bool {
    let optional = |k: usize, most: i32| n.get(k).map_or(true, |v| (0..=most).contains(v));
    (1..=32).contains(&n[0])
        && (1..=n[0]).contains(&n[1])
        && (1..=200).contains(&n[2])
        && (-1..=63).contains(&n[3])
        && (0..=1000).contains(&n[4])
        && optional(5, 1)
        && optional(6, 32767)
        && optional(7, i32::MAX)
}

pub fn read(line: &[u8]) -> Result<Header, Refusal> {
    if !line.starts_with(b"flf2a") {
        return refuse(2, 0);
    }
    let hardblank = match line.get(5) {
        Some(b) if is_hardblank(*b) => *b,
        _ => return refuse(3, 0),
    };
    if !line.get(6).map_or(false, |b| is_gap(*b)) {
        return refuse(4, 0);
    }
    let n: Vec<i32> = words(&line[6..]).map_while(header_number).take(8).collect();
    if n.len() < 5 || !in_range(&n) {
        return refuse(4, 0);
    }
    let full = n.get(6).map(|full| *full as usize);
    Ok(Header {
        hardblank,
        height: n[0] as usize,
        max_length: n[2] as usize,
        comment_lines: n[4] as usize,
        right_to_left: n.get(5) == Some(&1),
        layout: full.map_or(old_layout(n[3]), full_layout),
        full_layout: full,
    })
}
