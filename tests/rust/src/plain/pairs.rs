//! Layouts, and what two facing sub-characters become.

#[derive(Clone, Copy, PartialEq, Eq, Debug)]
pub enum Smushing {
    Universal,
    Controlled(u8),
}

#[derive(Clone, Copy, PartialEq, Eq, Debug)]
pub enum Layout {
    FullWidth,
    Fitting,
    Smushing(Smushing),
}

/// What decides on a pair besides the pair.
#[derive(Clone, Copy)]
pub struct Mode {
    pub layout: Layout,
    pub right_to_left: bool,
    pub hardblank: u8,
}

/// "Hardblank absent, or blank, CR, LF, NUL" is refused.
pub fn is_hardblank(byte: u8) -> bool {
    !matches!(byte, b' ' | b'\r' | b'\n' | 0)
}

/// "The six classes in rising order", from 1; 0 for a sub-character of none.
fn class(byte: u8) -> usize {
    let classes: [&[u8]; 6] = [b"|", b"/\\", b"[]", b"{}", b"()", b"<>"];
    classes.iter().position(|c| c.contains(&byte)).map_or(0, |k| k + 1)
}

/// What a rule makes of two visible sub-characters as they stand on the screen.
pub fn by_rule(rule: u8, left: u8, right: u8) -> Option<u8> {
    let (a, b) = (class(left), class(right));
    let opposite = [b"[]", b"{}", b"()"].iter().any(|p| **p == [left, right] || **p == [right, left]);
    match rule {
        1 if left == right => Some(left),
        2 if left == b'_' && b > 0 => Some(right),
        2 if right == b'_' && a > 0 => Some(left),
        4 if a > 0 && b > a => Some(right),
        4 if b > 0 && a > b => Some(left),
        8 if opposite => Some(b'|'),
        16 => match [left, right] {
            [b'/', b'\\'] => Some(b'|'),
            [b'\\', b'/'] => Some(b'Y'),
            [b'>', b'<'] => Some(b'X'),
            _ => None,
        },
        _ => None,
    }
}

fn controlled(rules: u8, hardblank: u8, left: u8, right: u8) -> Option<u8> {
    if left == hardblank || right == hardblank {
        return (rules & 32 != 0 && left == right).then_some(hardblank);
    }
    let set = [1, 2, 4, 8, 16].into_iter().filter(|rule| rules & rule != 0);
    set.filter_map(|rule| by_rule(rule, left, right)).next()
}

/// "The visible one beats a hardblank, two hardblanks give one, of two visible the later character's stands."
fn universal(mode: Mode, left: u8, right: u8) -> u8 {
    if left == mode.hardblank {
        right
    } else if right == mode.hardblank {
        left
    } else if mode.right_to_left {
        left
    } else {
        right
    }
}

/// What a pair becomes: "a blank yields to its partner; every other pair becomes its joint"; none if it cannot join.
pub fn joined(mode: Mode, left: u8, right: u8) -> Option<u8> {
    if left == b' ' {
        return Some(right);
    }
    if right == b' ' {
        return Some(left);
    }
    match mode.layout {
        Layout::Smushing(Smushing::Universal) => Some(universal(mode, left, right)),
        Layout::Smushing(Smushing::Controlled(rules)) => controlled(rules, mode.hardblank, left, right),
        _ => None,
    }
}
