//! Document 01's own examples and its edge cases, with what each must give. Both implementations are asked.
use crate::calls::{self, Apart};
use crate::plain::{self, join::Request};

/// Document 01's font of the program banner, with its line ends.
pub fn banner_font(header: &str, end: &str) -> Vec<u8> {
    let mut font = format!("{header}{end}").into_bytes();
    for code in 32..=126u8 {
        let row: &[u8] = match code {
            b' ' => b"$@@",
            b'@' => b"@##",
            _ => &[code, b'@', b'@'],
        };
        font.extend(row);
        font.extend(end.bytes());
    }
    font.extend(format!("@@{end}").repeat(7).bytes());
    font
}

pub const HEADER: &str = "flf2a$ 1 1 4 -1 0";

/// A font with something behind it.
pub fn behind(font: Vec<u8>, more: &str) -> Vec<u8> {
    [font, more.into()].concat()
}

/// The font with as many characters as there may be.
pub fn full_font() -> Vec<u8> {
    behind(banner_font(HEADER, "\n"), &"5\na@@\n".repeat(410))
}

/// A font for each of the refusals 1 to 8, with its place.
pub fn refused_fonts() -> Vec<(Vec<u8>, Apart)> {
    let more = |text: &str| behind(banner_font(HEADER, "\n"), text);
    let full = full_font();
    vec![
        (vec![b' '; 65537], Err((1, 0))),
        (b"".to_vec(), Err((2, 0))),
        (b"flf2a".to_vec(), Err((3, 0))),
        (banner_font("flf2a$ 1 2 4 -1 0", "\n"), Err((4, 0))),
        (more("161\n"), Err((5, 423))),
        (more("161\nabcd@\n"), Err((6, 423))),
        (more("-1\n"), Err((7, 419))),
        (behind(full.clone(), "5\n"), Err((8, full.len() as u64))),
    ]
}

/// The rooms in which a drawing is tried, with what it must give: an output to the byte and a larger one; a byte less is 9.
pub fn tries(counts: [u16; 2], drawn: &str) -> [([usize; 2], Apart, &str); 3] {
    let must = Ok([counts[0], counts[1], drawn.find('\n').expect("a row") as u16]);
    [([32000, drawn.len()], must, drawn), ([32001, drawn.len() + 9], must, drawn), ([32000, drawn.len() - 1], Err((9, 0)), "")]
}

/// What the font reads as: one row, so many characters.
pub fn reads(count: u16) -> Apart {
    Ok([0, 1, count])
}

/// Texts put behind the font, which has 419 bytes.
const BEHIND: &[(&str, Apart)] = &[
    ("", Ok([0, 1, 102])),
    (" \n\t\r\n\n", Ok([0, 1, 102])),
    ("\x1a", Err((7, 419))),
    ("\n161\na@@\n", Err((7, 419))),
    ("161\na@@\n", Ok([0, 1, 103])),
    ("  -1\n", Err((7, 419))),
    ("-2\na@@\n", Ok([0, 1, 103])),
    ("0x7FFFFFFF\na@@\n", Ok([0, 1, 103])),
    ("0x80000000\na@@\n", Err((7, 419))),
    ("-0x80000000\na@@", Ok([0, 1, 103])),
    ("08\na@@\n", Err((7, 419))),
    ("0000000000000000000000101\na@@\n", Ok([0, 1, 103])),
    ("0\na@@\n0\nb@@\n", Ok([0, 1, 104])),
    ("161\n", Err((5, 423))),
    ("161\n\n", Err((6, 423))),
    ("161\nabcd@\n", Err((6, 423))),
    ("161\n\x01@\n", Err((6, 423))),
];

/// Header lines, with the 102 characters behind.
const HEADERS: &[(&str, Apart)] = &[
    ("flf2a$ 1 1 4 -1 0 2147483648", Ok([0, 1, 102])),
    ("flf2a$ 1 1 4 -1 0 2", Err((4, 0))),
    ("flf2a$ 1 1 4 -1 0 x 2", Ok([0, 1, 102])),
    ("flf2a$ 1 1 200 63 0 1 32767 0 -9 x", Ok([0, 1, 102])),
    ("flf2a$ 1 1 201 -1 0", Err((4, 0))),
    ("flf2a$ 1 1 4 64 0 0 0", Err((4, 0))),
    ("flf2a$ 1 2 4 -1 0", Err((4, 0))),
    ("flf2a$ 0000000001 1 4 -01 -0", Ok([0, 1, 102])),
    ("flf2a$ 00000000001 1 4 -1 0", Err((4, 0))),
    ("flf2a\t\t1 1 4 -1 0", Ok([0, 1, 102])),
    ("flf2a$$ 1 1 4 -1 0", Err((4, 0))),
    ("flf2a$ 1 1 4 -1 1000", Err((5, 422))),
    ("flf2b$ 1 1 4 -1 0", Err((2, 0))),
    ("flf2a", Err((3, 0))),
    ("flf2a  1 1 4 -1 0", Err((3, 0))),
];

/// Control files, with the counts of stages and commands.
const CONTROLS: &[(&str, Apart)] = &[
    ("", Ok([0, 1, 0])),
    ("flc2a\nflc2a", Ok([0, 2, 0])),
    ("t A B\nt B A\n", Ok([0, 1, 2])),
    ("t A B\nf\nt B A", Ok([0, 2, 2])),
    ("t a-c x-y", Err((12, 0))),
    ("t -- a", Err((11, 0))),
    ("t - a", Ok([0, 1, 1])),
    ("t --- a-b", Err((12, 0))),
    ("t --a --a", Ok([0, 1, 1])),
    ("t a b-c", Err((11, 0))),
    ("#\n \t\n t A B", Err((11, 5))),
    ("t \\  A", Ok([0, 1, 1])),
    ("t \\ A", Err((11, 0))),
    ("t A \\ ", Ok([0, 1, 1])),
    ("t \\65-70 a-b", Err((11, 0))),
    ("t \\65-7 a-b", Err((12, 0))),
    ("t \\-0x80000000-\\0x7FFFFFFF \\-0x80000000-\\0x7FFFFFFF", Ok([0, 1, 1])),
    ("-1 65\n65 -0x1 #", Ok([0, 1, 2])),
    ("65 66x", Err((11, 0))),
    ("65 2147483648", Err((11, 0))),
    ("\nhello", Err((13, 1))),
    ("tAB", Err((11, 0))),
];

/// One-row joins with hardblank `$`: line, character, layout, direction, overlap, result.
const JOINS: &[(&str, &str, usize, usize, u16, &str)] = &[
    ("a  ", " b", 64, 0, 2, "a b"),
    ("a ", "b ", 64, 0, 1, "ab "),
    ("a ", "b ", 128, 0, 2, "b "),
    (" b", "c ", 64, 0, 0, " bc "),
    (" b", "c ", 128, 0, 1, " c "),
    ("c ", " b", 128, 1, 1, " b "),
    ("$", "$", 128 + 31, 0, 0, "$$"),
    ("$", "$", 128 + 32, 0, 1, "$"),
    ("<", ">", 128 + 24, 0, 0, "<>"),
    ("\\", "/", 128 + 16, 0, 1, "Y"),
    ("\\", "/", 128 + 16, 1, 1, "|"),
    ("|", ">", 128 + 4, 0, 1, ">"),
    ("$", "a", 128, 0, 1, "a"),
    ("  ", "  ", 0, 0, 0, "    "),
];

/// "A backslash with a blank, one of `abefnrtv\\` (7, 8, 27, 12, 10, 13, 9, 11, 92)."
const ESCAPES: &str = "t \\a A\nt \\b B\nt \\e C\nt \\f D\nt \\n E\nt \\r F\nt \\t G\nt \\v H\nt \\\\ I\nt \\  J";

/// Drawings with the font of the program banner, which has every byte of these texts: header, control file, text, output.
const DRAWINGS: &[(&str, &str, &str, &str)] = &[
    (HEADER, "", "sw11", "sw11\n"),
    ("flf2a$ 1 1 4 1 0", "", "sw11", "sw1\n"),
    ("flf2a$ 1 1 4 -1 0 0 128 0", "", "sw11", "1\n"),
    ("flf2a$ 1 1 4 -1 0 1", "", "ab", "ba\n"),
    (HEADER, "t A B\nt B A", "AB", "BA\n"),
    (HEADER, "t A B\nf\nt B A", "AB", "AA\n"),
    (HEADER, ESCAPES, "\x07\x08\x1b\x0c\n\r\t\x0b\\ ", "ABCDEFGHIJ\n"),
    (HEADER, "", "a $b", "a  b\n"),
    (HEADER, "", "", "\n"),
];

/// Compares what both implementations answer with what must be; counts.
pub struct Check {
    made: u64,
    wrong: u64,
}

impl Check {
    pub fn same(&mut self, what: &str, proved: u64, plain: u64, must: Apart) {
        self.made += 1;
        let (a, b) = (calls::apart(proved), calls::apart(plain));
        if a != must || b != must {
            self.wrong += 1;
            println!("{what}: proved {a:?}, plain {b:?}, must be {must:?}");
        }
    }

    pub fn font(&mut self, font: &[u8], must: Apart) {
        let what = format!("font {:?}", String::from_utf8_lossy(font));
        self.same(&what, calls::check_font(font), plain::check_font(font), must);
    }

    fn join(&mut self, (line, character, layout, direction, overlap, result): (&str, &str, usize, usize, u16, &str)) {
        let request = Request {
            line: line.as_bytes(),
            line_width: line.len(),
            character: character.as_bytes(),
            character_width: character.len(),
            height: 1,
            hardblank: b'$',
            layout,
            direction,
        };
        let (mut a, mut b) = (vec![1; 8], vec![1; 8]);
        let (x, y) = (calls::join(&request, &mut a), plain::join::join(&request, &mut b));
        self.same(&format!("{request:?}"), x, y, Ok([0, overlap, result.len() as u16]));
        self.bytes(&format!("{request:?}"), &a, &b, result, 8);
    }

    pub fn bytes(&mut self, what: &str, a: &[u8], b: &[u8], result: &str, room: usize) {
        let mut must = result.as_bytes().to_vec();
        must.resize(room, 0);
        self.area(what, a, b, &must);
    }

    /// An area or a list, from its first entry to its last.
    pub fn area<T: PartialEq + std::fmt::Debug>(&mut self, what: &str, a: &[T], b: &[T], must: &[T]) {
        if a != must || b != must {
            self.wrong += 1;
            println!("{what}: proved {a:?}, plain {b:?}, must be {must:?}");
        }
    }

    /// A drawing in a scratch and an output of these sizes, by each implementation: the answer, and every byte of both areas.
    pub fn drawn(
        &mut self,
        what: &str,
        [scratch, out]: [usize; 2],
        must: Apart,
        drawn: &str,
        proved: impl Fn(&mut [u8], &mut [u8]) -> u64,
        plain: impl Fn(&mut [u8], &mut [u8]) -> u64,
    ) {
        let (mut s, mut a) = (vec![1; scratch], vec![1; out]);
        let (mut t, mut b) = (s.clone(), a.clone());
        let (x, y) = (proved(&mut s, &mut a), plain(&mut t, &mut b));
        self.same(what, x, y, must);
        self.bytes(what, &a, &b, drawn, out);
        self.bytes(what, &s, &t, "", scratch);
    }

    /// A drawing by a font and a control file.
    pub fn draw(&mut self, font: &[u8], control: &str, text: &[u8], rooms: [usize; 2], must: Apart, drawn: &str) {
        let what = format!("{control:?} {:.40} {rooms:?}", text.escape_ascii().to_string());
        let control = control.as_bytes();
        let plain = |s: &mut [u8], o: &mut [u8]| plain::draw::draw(font, control, text, s, o);
        self.drawn(&what, rooms, must, drawn, |s, o| calls::draw(font, control, text, s, o), plain);
    }

    /// "1,000 columns drawn, 1,001 refused 16", and texts up to 1,024 bytes.
    fn widths(&mut self) {
        let font = banner_font(HEADER, "\n");
        for (length, must) in [(1000, Ok([0, 0, 1000])), (1001, Err((16, 0))), (1024, Err((16, 0))), (1025, Err((15, 0)))] {
            let text = vec![b'a'; length];
            let (mut s, mut a) = (vec![1; 32000], vec![1; 1001]);
            let x = calls::draw(&font, b"", &text, &mut s, &mut a);
            let y = plain::draw::draw(&font, b"", &text, &mut s, &mut a);
            self.same(&format!("{length} letters"), x, y, must);
        }
    }

    fn fonts(&mut self) {
        let font = banner_font(HEADER, "\n");
        for (behind, must) in BEHIND {
            self.font(&[&font, behind.as_bytes()].concat(), *must);
        }
        for (header, must) in HEADERS {
            self.font(&banner_font(header, "\n"), *must);
        }
        self.font(b"", Err((2, 0)));
        self.font(HEADER.as_bytes(), Err((5, 17)));
        self.font(&font[..418], reads(102));
        self.font(&font[..416], Err((5, 416)));
        self.font(&[&font[..416], b"\n"].concat(), Err((6, 416)));
        self.font(&banner_font(HEADER, "\r"), reads(102));
        self.font(&banner_font(HEADER, "\r\n"), reads(102));
        self.font(&banner_font(HEADER, "\n\r"), Err((6, 18)));
        let full = full_font();
        self.font(&full, reads(512));
        self.font(&[&full[..], b"5\n"].concat(), Err((8, full.len() as u64)));
        self.font(&[&full[..], b"-1\n"].concat(), Err((7, full.len() as u64)));
        let mut long = font;
        long.resize(65536, b' ');
        self.font(&long, reads(102));
        long.push(b' ');
        self.font(&long, Err((1, 0)));
    }

    /// "A 257th command or 65th stage", and the order on one line.
    fn controls(&mut self) {
        let full = "t A B\n".repeat(256);
        let mut all: Vec<(String, Apart)> = CONTROLS.iter().map(|(f, a)| (f.to_string(), *a)).collect();
        all.push((full.clone() + &"f\n".repeat(63), Ok([0, 64, 256])));
        all.push((full.clone() + &"f\n".repeat(64), Err((14, 1662))));
        all.push((full.clone() + "t A", Err((11, 1536))));
        all.push((full.clone() + "t a-b a-c", Err((12, 1536))));
        all.push((full + "t A B", Err((14, 1536))));
        all.push(("\n".repeat(16384), Ok([0, 1, 0])));
        all.push(("\n".repeat(16385), Err((10, 0))));
        for (file, must) in all {
            let (x, y) = (calls::check_control(file.as_bytes()), plain::check_control(file.as_bytes()));
            self.same(&file, x, y, must);
        }
    }
}

/// How many cases there are and how many are wrong.
pub fn run() -> (u64, u64) {
    let mut check = Check { made: 0, wrong: 0 };
    check.fonts();
    check.controls();
    check.widths();
    for case in JOINS {
        check.join(*case);
    }
    for (header, control, text, result) in DRAWINGS {
        check.draw(&banner_font(header, "\n"), control, text.as_bytes(), [32000, 20], Ok([0, 0, result.len() as u16 - 1]), result);
    }
    check.stacks();
    check.replaced();
    check.rows();
    check.wrapped();
    check.packs();
    check.two_fonts();
    check.checked_drawings();
    (check.made, check.wrong)
}
