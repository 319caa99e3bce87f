//! What the random input met: each case has a name, and how often it came is counted. A case that never came is told, since it was not compared.
use crate::calls;
use crate::plain::control::{self, Control};
use crate::plain::draw;
use crate::plain::font::{self, Font};
use crate::plain::join::Block;
use crate::plain::stack::{self, How, Request, Vertical};

/// How often each case of a list came.
pub struct Met {
    what: &'static str,
    names: &'static [&'static str],
    times: Vec<u64>,
}

impl Met {
    pub fn new(what: &'static str, names: &'static [&'static str]) -> Met {
        Met { what, names, times: vec![0; names.len()] }
    }

    pub fn add(&mut self, name: &str) {
        let at = self.names.iter().position(|n| *n == name).unwrap_or_else(|| panic!("no case {name}"));
        self.times[at] += 1;
    }

    pub fn add_if(&mut self, holds: bool, name: &str) {
        if holds {
            self.add(name);
        }
    }

    /// Prints the counts; how many cases never came.
    pub fn print(&self) -> usize {
        println!("{}:", self.what);
        for (name, times) in self.names.iter().zip(&self.times) {
            println!("  {times:>8} {}{name}", if *times == 0 { "NEVER MET: " } else { "" });
        }
        self.times.iter().filter(|t| **t == 0).count()
    }
}

pub const STACKS: &[&str] = &[
    // 17, each reason where it is the only one, and the limits that are not refused.
    "17: upper height 0",
    "17: upper height over 64",
    "17: lower height 0",
    "17: lower height over 32",
    "17: upper width over 1,000",
    "17: lower width over 1,000",
    "17: hardblank",
    "17: layout over 32,767",
    "17: upper block too long or short",
    "17: lower block too long or short",
    "upper height 64",
    "lower height 32",
    "upper width 1,000",
    "lower width 1,000",
    "layout 32,767",
    "a stack of 64 rows",
    "18: a stack of 65 rows",
    "18: where there is no room either",
    "9: a byte short",
    "room to the byte",
    // The layout.
    "full height",
    "full height with rules that are not used",
    "fitting",
    "universal, one row more",
    "universal, the smaller height used up",
    "universal, two visible: the lower",
    "controlled, one row more",
    "controlled, the smaller height used up",
    "controlled, stays",
    "smushing before fitting, both set",
    "a larger overlap is free, not all smaller ones",
    // The rules.
    "joined by 256",
    "joined by 512, underscore above",
    "joined by 512, underscore below",
    "joined by 1024, later class above",
    "joined by 1024, later class below",
    "joined by 2048, underscore above",
    "joined by 2048, underscore below",
    "4096 exceeds fitting by one",
    "4096 exceeds fitting by more",
    "4096 goes to the smaller height",
    "4096 exceeds, where 256 is set too",
    "4096 does not exceed, the other rules join",
    "4096 does not exceed, the other rules do not join",
    "4096 does not exceed, alone in the set",
    "4096 set, two bars one row further joined by 256",
    "4096 set, two bars one row further lack 256",
    // The blocks.
    "upper narrower",
    "lower narrower",
    "a pair behind the narrower block's edge",
    "width 0 above",
    "width 0 below",
    "width 0 both",
    "a hardblank above",
    "a hardblank below",
    "a hardblank gives way to a visible one",
    "a joint that is the hardblank's byte",
];

/// The reasons of 17 that hold.
fn bad_shape(q: &Request) -> Vec<&'static str> {
    let long = |bytes: &[u8], height: usize, width: usize| height.checked_mul(width) != Some(bytes.len());
    let all = [
        (q.upper_height == 0, "17: upper height 0"),
        (q.upper_height > 64, "17: upper height over 64"),
        (q.lower_height == 0, "17: lower height 0"),
        (q.lower_height > 32, "17: lower height over 32"),
        (q.upper_width > 1000, "17: upper width over 1,000"),
        (q.lower_width > 1000, "17: lower width over 1,000"),
        (matches!(q.hardblank, b' ' | b'\r' | b'\n' | 0), "17: hardblank"),
        (q.layout > 32767, "17: layout over 32,767"),
        (long(q.upper, q.upper_height, q.upper_width), "17: upper block too long or short"),
        (long(q.lower, q.lower_height, q.lower_width), "17: lower block too long or short"),
    ];
    all.into_iter().filter(|(holds, _)| *holds).map(|(_, name)| name).collect()
}

fn limits(q: &Request, height: usize, needed: usize, answer: u64, room: usize, met: &mut Met) {
    let number = calls::number(answer);
    met.add_if(number == 18 && height == 65, "18: a stack of 65 rows");
    met.add_if(number == 18 && room < needed, "18: where there is no room either");
    met.add_if(number == 9 && room + 1 == needed, "9: a byte short");
    if number == 0 {
        met.add_if(q.upper_height == 64, "upper height 64");
        met.add_if(q.lower_height == 32, "lower height 32");
        met.add_if(q.upper_width == 1000, "upper width 1,000");
        met.add_if(q.lower_width == 1000, "lower width 1,000");
        met.add_if(q.layout == 32767, "layout 32,767");
        met.add_if(height == 64, "a stack of 64 rows");
        met.add_if(room == needed && needed > 0, "room to the byte");
    }
}

fn blocks(q: &Request, upper: &Block, lower: &Block, overlap: usize, met: &mut Met) {
    met.add_if(q.upper_width < q.lower_width, "upper narrower");
    met.add_if(q.lower_width < q.upper_width, "lower narrower");
    met.add_if(q.upper_width == 0 && q.lower_width > 0, "width 0 above");
    met.add_if(q.lower_width == 0 && q.upper_width > 0, "width 0 below");
    met.add_if(q.upper_width == 0 && q.lower_width == 0, "width 0 both");
    met.add_if(q.upper.contains(&q.hardblank), "a hardblank above");
    met.add_if(q.lower.contains(&q.hardblank), "a hardblank below");
    let narrower = q.upper_width.min(q.lower_width);
    let (mut behind, mut gives_way) = (false, false);
    for k in 0..overlap {
        let row = q.upper_height - overlap + k;
        let both = upper.rows[row].iter().zip(&lower.rows[k]);
        behind |= both.skip(narrower).any(|(u, l)| *u != b' ' || *l != b' ');
        for column in 0..narrower {
            let (u, l) = (q.upper[row * q.upper_width + column], q.lower[k * q.lower_width + column]);
            gives_way |= (u == q.hardblank && l != u && l != b' ') || (l == q.hardblank && u != l && u != b' ');
        }
    }
    met.add_if(behind, "a pair behind the narrower block's edge");
    met.add_if(gives_way, "a hardblank gives way to a visible one");
}

/// The cases of a set with 4096, of two blocks that are made ready.
fn supersmushing(rules: usize, upper: &Block, lower: &Block, overlap: usize, how: How, met: &mut Met) {
    let fitting = stack::largest(upper, lower, stack::has_blank);
    let smaller = upper.rows.len().min(lower.rows.len());
    if how == How::Supersmushed {
        met.add_if(overlap == fitting + 1, "4096 exceeds fitting by one");
        met.add_if(overlap > fitting + 1, "4096 exceeds fitting by more");
        met.add_if(overlap == smaller, "4096 goes to the smaller height");
        met.add_if(rules & 256 != 0, "4096 exceeds, where 256 is set too");
        return;
    }
    met.add_if(how == How::OneMore, "4096 does not exceed, the other rules join");
    met.add_if(how == How::Stays && rules != 4096, "4096 does not exceed, the other rules do not join");
    met.add_if(how == How::Stays && rules == 4096, "4096 does not exceed, alone in the set");
    if fitting < smaller {
        let bars = stack::facing(upper, lower, fitting + 1).any(|p| p == (b'|', b'|'));
        met.add_if(bars && how == How::OneMore, "4096 set, two bars one row further joined by 256");
        let lacks = |(u, l)| (u, l) == (b'|', b'|') || stack::pair(Vertical::Controlled(rules), u, l).is_some();
        let only_bars = stack::facing(upper, lower, fitting + 1).all(lacks);
        met.add_if(bars && how == How::Stays && only_bars && rules & 256 == 0, "4096 set, two bars one row further lack 256");
    }
}

/// The rules by which pairs were joined one row further than fitting.
fn rules_met(rules: usize, hardblank: u8, pairs: impl Iterator<Item = (u8, u8)>, met: &mut Met) {
    for (u, l) in pairs.filter(|p| !stack::has_blank(*p)) {
        let joint = stack::pair(Vertical::Controlled(rules), u, l);
        let rule = stack::PAIR_RULES.into_iter().find(|rule| rules & rule != 0 && stack::by_vertical_rule(*rule, u, l).is_some());
        met.add_if(joint == Some(hardblank), "a joint that is the hardblank's byte");
        match rule.expect("a rule") {
            256 => met.add("joined by 256"),
            512 if u == b'_' => met.add("joined by 512, underscore above"),
            512 => met.add("joined by 512, underscore below"),
            1024 if joint == Some(u) => met.add("joined by 1024, later class above"),
            1024 => met.add("joined by 1024, later class below"),
            _ if u == b'_' => met.add("joined by 2048, underscore above"),
            _ => met.add("joined by 2048, underscore below"),
        }
    }
}

fn layouts(q: &Request, upper: &Block, lower: &Block, (overlap, how): (usize, How), met: &mut Met) {
    let smaller = q.upper_height.min(q.lower_height);
    let fitting = stack::largest(upper, lower, stack::has_blank);
    let beyond = (fitting + 1..=smaller).any(|o| stack::facing(upper, lower, o).all(stack::has_blank));
    met.add_if(beyond && how != How::FullHeight, "a larger overlap is free, not all smaller ones");
    met.add_if(q.layout & 24576 == 24576, "smushing before fitting, both set");
    match (stack::vertical(Some(q.layout)), how) {
        (Vertical::FullHeight, _) if q.layout & 7936 != 0 => met.add("full height with rules that are not used"),
        (Vertical::FullHeight, _) => met.add("full height"),
        (Vertical::Fitting, _) => met.add("fitting"),
        (Vertical::Universal, How::OneMore) => met.add("universal, one row more"),
        (Vertical::Universal, _) => met.add("universal, the smaller height used up"),
        (Vertical::Controlled(_), How::OneMore) => met.add("controlled, one row more"),
        (Vertical::Controlled(_), How::UsedUp) => met.add("controlled, the smaller height used up"),
        (Vertical::Controlled(_), How::Stays) => met.add("controlled, stays"),
        (Vertical::Controlled(_), _) => {}
    }
    match stack::vertical(Some(q.layout)) {
        Vertical::Universal => {
            let two = stack::facing(upper, lower, overlap).any(|(u, l)| u != l && !stack::has_blank((u, l)));
            met.add_if(two, "universal, two visible: the lower");
        }
        Vertical::Controlled(rules) => {
            if how == How::OneMore {
                rules_met(rules, q.hardblank, stack::facing(upper, lower, overlap), met);
            }
            if rules & 4096 != 0 {
                supersmushing(rules, upper, lower, overlap, how, met);
            }
        }
        _ => {}
    }
}

/// What a stack met; its answer and the room that it was lent.
pub fn stack(q: &Request, answer: u64, room: usize, met: &mut Met) {
    let reasons = bad_shape(q);
    if let [only] = reasons[..] {
        met.add(only);
    }
    if !reasons.is_empty() {
        return;
    }
    let (upper, lower) = q.blocks();
    let width = upper.width.max(lower.width);
    let (upper, lower) = (stack::made_ready(&upper, q.hardblank, width), stack::made_ready(&lower, q.hardblank, width));
    let (overlap, how) = stack::overlap(stack::vertical(Some(q.layout)), &upper, &lower);
    let height = q.upper_height + q.lower_height - overlap;
    limits(q, height, height * width, answer, room, met);
    if calls::number(answer) == 0 {
        blocks(q, &upper, &lower, overlap, met);
        layouts(q, &upper, &lower, (overlap, how), met);
    }
}

pub const DRAWINGS: &[&str] = &[
    "9: a scratch of 63,999",
    "a scratch of 64,000",
    "scratch before the font",
    "the font before the control file",
    "the control file before 15",
    "15 before 16",
    "16 before the output",
    "15: upper of 1,025 bytes",
    "15: lower of 1,025 bytes",
    "1,024 bytes above",
    "1,024 bytes below",
    "16: upper only",
    "16: lower only",
    "9: an output a byte short",
    "output to the byte",
    "without Full_Layout: full height",
    "full height by Full_Layout",
    "fitting, nothing overlaps",
    "fitting, rows overlap",
    "universal, one row more",
    "controlled, one row more",
    "controlled, stays",
    "supersmushed",
    "right to left, upper narrower",
    "right to left, lower narrower",
    "empty above",
    "empty below",
    "empty both",
    "a hardblank in a line",
    "a byte of the hardblank is drawn",
    "two lines of 1,000 columns or nearly",
];

/// A drawing of two lines, and the room that it was lent.
pub struct Drawing<'a> {
    pub font: &'a [u8],
    pub control: &'a [u8],
    pub texts: [&'a [u8]; 2],
    pub scratch: usize,
    pub out: usize,
}

/// The reasons of a refusal that hold, in their order, where the texts' lines can be drawn.
fn lines(d: &Drawing, font: &Font, control: &Control, answer: u64, met: &mut Met) {
    let header = &font.header;
    let [upper, lower] = d.texts.map(|text| draw::line(d.font, font, control, text));
    let (wide, number) = ([upper.width > 1000, lower.width > 1000], calls::number(answer));
    let longs = d.texts.map(|text| text.len() > 1024);
    met.add_if(number == 15 && (wide[0] || wide[1]), "15 before 16");
    met.add_if(number == 16 && wide == [true, false], "16: upper only");
    met.add_if(number == 16 && wide == [false, true], "16: lower only");
    met.add_if(number == 16 && d.out <= 1000, "16 before the output");
    if wide[0] || wide[1] || longs[0] || longs[1] {
        return;
    }
    let (_, result) = stack::put(header.vertical(), header.hardblank, &upper, &lower);
    let needed = result.rows.len() * (result.width + 1);
    met.add_if(number == 9 && d.scratch >= 64000 && d.out + 1 == needed, "9: an output a byte short");
    met.add_if(number == 0 && d.out == needed, "output to the byte");
    if number == 0 {
        drawn(d, font, &upper, &lower, &result, met);
    }
}

fn drawn(d: &Drawing, font: &Font, upper: &Block, lower: &Block, result: &Block, met: &mut Met) {
    let header = &font.header;
    let width = result.width;
    let (above, below) = (stack::made_ready(upper, header.hardblank, width), stack::made_ready(lower, header.hardblank, width));
    let (overlap, how) = stack::overlap(header.vertical(), &above, &below);
    met.add_if(d.scratch == 64000, "a scratch of 64,000");
    met.add_if(d.texts[0].len() == 1024, "1,024 bytes above");
    met.add_if(d.texts[1].len() == 1024, "1,024 bytes below");
    match (header.vertical(), how) {
        (Vertical::FullHeight, _) if header.full_layout.is_none() => met.add("without Full_Layout: full height"),
        (Vertical::FullHeight, _) => met.add("full height by Full_Layout"),
        (Vertical::Fitting, _) => met.add(if overlap == 0 { "fitting, nothing overlaps" } else { "fitting, rows overlap" }),
        (Vertical::Universal, How::OneMore) => met.add("universal, one row more"),
        (_, How::OneMore) => met.add("controlled, one row more"),
        (_, How::Stays) => met.add("controlled, stays"),
        (_, How::Supersmushed) => met.add("supersmushed"),
        _ => {}
    }
    met.add_if(header.right_to_left && upper.width < lower.width, "right to left, upper narrower");
    met.add_if(header.right_to_left && lower.width < upper.width, "right to left, lower narrower");
    let empty = d.texts.map(|text| text.is_empty());
    met.add_if(empty == [true, false], "empty above");
    met.add_if(empty == [false, true], "empty below");
    met.add_if(empty == [true, true], "empty both");
    met.add_if(upper.rows.iter().chain(&lower.rows).any(|row| row.contains(&header.hardblank)), "a hardblank in a line");
    met.add_if(result.rows.iter().any(|row| row.contains(&header.hardblank)), "a byte of the hardblank is drawn");
    met.add_if(upper.width >= 990 && lower.width >= 990, "two lines of 1,000 columns or nearly");
}

/// What a drawing of two lines met.
pub fn draw_stacked(d: &Drawing, answer: u64, met: &mut Met) {
    let (font, control) = (font::read(d.font), control::read(d.control));
    let long = d.texts.map(|text| text.len() > 1024);
    let number = calls::number(answer);
    met.add_if(number == 9 && d.scratch == 63999, "9: a scratch of 63,999");
    met.add_if(d.scratch < 64000 && font.is_err(), "scratch before the font");
    if d.scratch < 64000 {
        return;
    }
    met.add_if(font.is_err() && control.is_err(), "the font before the control file");
    let Ok(font) = font else { return };
    met.add_if(control.is_err() && (long[0] || long[1]), "the control file before 15");
    let Ok(control) = control else { return };
    met.add_if(d.texts[0].len() == 1025, "15: upper of 1,025 bytes");
    met.add_if(d.texts[1].len() == 1025, "15: lower of 1,025 bytes");
    lines(d, &font, &control, answer, met);
}
