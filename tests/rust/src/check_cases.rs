//! Request Q-8 of document 02: what another program drew, with what the check must say of it. Both implementations are asked; the answers were written by hand from the papers.
use crate::calls::{self, Apart};
use crate::cases::{banner_font, behind, refused_fonts, Check, HEADER};
use crate::plain::check::{self, Request};
use crate::replaced_cases::ZERO;
use crate::two_cases::two_rows;

const ACCEPTED: Apart = Ok([0, 0, 0]);
const LENGTH: Apart = Err((25, 0));

const fn overlap(number: u16) -> Apart {
    Ok([1, 0, number])
}

const fn byte(place: u16) -> Apart {
    Ok([2, 0, place])
}

/// 01's font with equal sub-characters smushed, universal, fitting, and from right to left.
const EQUAL: &str = "flf2a$ 1 1 4 1 0";
const UNIVERSAL: &str = "flf2a$ 1 1 4 -1 0 0 128";
const FITTING: &str = "flf2a$ 1 1 4 0 0";
const LEFTWARD: &str = "flf2a$ 1 1 4 -1 0 1";
const EQUAL_LEFTWARD: &str = "flf2a$ 1 1 4 1 0 1";

/// Two characters with blanks at their edges: bytes 200 and 201.
const EDGES: &str = "200\n b@\n201\nc @\n";

/// Header, what stands behind 01's font, control file, text, overlaps, FIGure, answer.
type Case = (&'static str, &'static str, &'static str, &'static [u8], &'static [usize], &'static str, Apart);

/// "Accept exactly if each overlap is the one of demand 3 and the bytes are the drawing."
const RIGHT: &[Case] = &[
    (HEADER, "", "", b"sw11", &[0, 0, 0], "sw11\n", ACCEPTED),
    (EQUAL, "", "", b"sw11", &[0, 0, 1], "sw1\n", ACCEPTED),
    (UNIVERSAL, "", "", b"sw11", &[1, 1, 1], "1\n", ACCEPTED),
    (LEFTWARD, "", "", b"ab", &[0], "ba\n", ACCEPTED),
    (EQUAL_LEFTWARD, "", "", b"11w", &[1, 0], "w1\n", ACCEPTED),
    (HEADER, "", "t A B\nt B A", b"AB", &[0], "BA\n", ACCEPTED),
    // Hardblanks are drawn as blanks.
    (HEADER, "", "", b"a b", &[0, 0], "a b\n", ACCEPTED),
    // Fitting: a blank gives way on either side, and on both.
    (FITTING, EDGES, "", b"\xc9\xc8", &[2], "cb\n", ACCEPTED),
    (FITTING, EDGES, "", b"a\xc8", &[1], "ab\n", ACCEPTED),
    (FITTING, EDGES, "", b"\xc9a\xc8", &[1, 1], "cab\n", ACCEPTED),
    (HEADER, EDGES, "", b"\xc9\xc8", &[0], "c  b\n", ACCEPTED),
    // One character, and none.
    (HEADER, "", "", b"a", &[], "a\n", ACCEPTED),
    (HEADER, "", "", b"", &[], "\n", ACCEPTED),
    (UNIVERSAL, "", "", b"", &[], "\n", ACCEPTED),
    // A character that draws nothing has no overlap: between two, alone, before and behind one.
    (HEADER, "", "", b"a\x01b", &[0], "ab\n", ACCEPTED),
    (HEADER, "", "", b"\x01", &[], "\n", ACCEPTED),
    (HEADER, "", "", b"\x01a\x02", &[], "a\n", ACCEPTED),
    (EQUAL, "", "", b"1\x011", &[1], "1\n", ACCEPTED),
    (HEADER, "", "t A \\200", b"ABA", &[], "B\n", ACCEPTED),
    // One of width 0 has: 0.
    (HEADER, "", "", b"a\xc4b", &[0, 0], "ab\n", ACCEPTED),
    (HEADER, "", "", b"\xc4\xd6", &[0], "\n", ACCEPTED),
    (UNIVERSAL, "", "", b"\xc4a", &[0], "a\n", ACCEPTED),
    (UNIVERSAL, "", "", b"a\xc4b", &[0, 1], "b\n", ACCEPTED),
    // So has one that is stood in, of width 0 too.
    (HEADER, ZERO, "", b"a\x01b", &[0, 0], "a?b\n", ACCEPTED),
    (EQUAL, ZERO, "", b"\x01\x02", &[1], "?\n", ACCEPTED),
    (HEADER, "0\n@@\n", "", b"a\x01b", &[0, 0], "ab\n", ACCEPTED),
];

/// "The check names the first wrong overlap."
const OVERLAPS: &[Case] = &[
    // One too small with right bytes, with the bytes that it would draw, and with none; one too large.
    (EQUAL, "", "", b"sw11", &[0, 0, 0], "sw1\n", overlap(2)),
    (EQUAL, "", "", b"sw11", &[0, 0, 0], "sw11\n", overlap(2)),
    (EQUAL, "", "", b"sw11", &[0, 0, 0], "", overlap(2)),
    (EQUAL, "", "", b"sw11", &[0, 0, 2], "sw1\n", overlap(2)),
    (HEADER, "", "", b"sw11", &[0, 0, 1], "sw1\n", overlap(2)),
    // The first of several, not the last, and not the one that is furthest off.
    (EQUAL, "", "", b"sw11", &[1, 0, 1], "sw1\n", overlap(0)),
    (EQUAL, "", "", b"sw11", &[1, 0, 0], "sw1\n", overlap(0)),
    (EQUAL, "", "", b"sw11", &[0, 1, 0], "sw1\n", overlap(1)),
    (EQUAL, "", "", b"sw11", &[0, 1, 900], "sw1\n", overlap(1)),
    (UNIVERSAL, "", "", b"sw11", &[0, 0, 0], "sw11\n", overlap(0)),
    // Fitting's overlap where smushing takes one more; what a blank more would give.
    (UNIVERSAL, EDGES, "", b"a\xc9", &[0], "c \n", overlap(0)),
    (FITTING, EDGES, "", b"\xc9\xc8", &[1], "c b\n", overlap(0)),
    (FITTING, EDGES, "", b"\xc9\xc8", &[3], "cb\n", overlap(0)),
    // From right to left the list is still in the order of the text.
    (EQUAL_LEFTWARD, "", "", b"11w", &[0, 1], "w1\n", overlap(0)),
    (EQUAL_LEFTWARD, "", "", b"w11", &[1, 0], "1w\n", overlap(0)),
    (EQUAL_LEFTWARD, "", "", b"w11", &[0, 0], "1w\n", overlap(1)),
    // Numbers that no overlap reaches, whatever their last bits are.
    (EQUAL, "", "", b"sw11", &[0, 0, 257], "sw1\n", overlap(2)),
    (EQUAL, "", "", b"sw11", &[0, 0, 65537], "sw1\n", overlap(2)),
    (EQUAL, "", "", b"sw11", &[0, 0, 0x1_0000_0001], "sw1\n", overlap(2)),
    (EQUAL, "", "", b"sw11", &[0, 0x1_0000_0000, 1], "sw1\n", overlap(1)),
    (EQUAL, "", "", b"sw11", &[usize::MAX, 0, 1], "sw1\n", overlap(0)),
    // One of width 0, and one behind a byte that draws nothing.
    (HEADER, "", "", b"a\xc4b", &[1, 0], "ab\n", overlap(0)),
    (UNIVERSAL, "", "", b"a\xc4b", &[0, 0], "b\n", overlap(1)),
    (EQUAL, "", "", b"1\x011", &[0], "1\n", overlap(0)),
];

/// "Else the first wrong byte; where one FIGure is the start of the other, that is the shorter one's end."
const BYTES: &[Case] = &[
    (EQUAL, "", "", b"sw11", &[0, 0, 1], "xw1\n", byte(0)),
    (EQUAL, "", "", b"sw11", &[0, 0, 1], "sx1\n", byte(1)),
    (EQUAL, "", "", b"sw11", &[0, 0, 1], "sxy\n", byte(1)),
    (EQUAL, "", "", b"sw11", &[0, 0, 1], "sw11\n", byte(3)),
    // Cut off, a byte short, and gone on.
    (EQUAL, "", "", b"sw11", &[0, 0, 1], "", byte(0)),
    (EQUAL, "", "", b"sw11", &[0, 0, 1], "s", byte(1)),
    (EQUAL, "", "", b"sw11", &[0, 0, 1], "sw1", byte(3)),
    (EQUAL, "", "", b"sw11", &[0, 0, 1], "sw1\n\n", byte(4)),
    (EQUAL, "", "", b"sw11", &[0, 0, 1], "sw1\n ", byte(4)),
    (EQUAL, "", "", b"sw11", &[0, 0, 1], "sw1\n\0", byte(4)),
    (EQUAL, "", "", b"sw11", &[0, 0, 1], "sw1\nsw1\n", byte(4)),
    // The end of a row: a blank more, a blank less, CR LF, CR, NUL.
    (EQUAL, "", "", b"sw11", &[0, 0, 1], "sw1 \n", byte(3)),
    (HEADER, "", "", b"a ", &[0], "a\n", byte(1)),
    (EQUAL, "", "", b"sw11", &[0, 0, 1], "sw1\r\n", byte(3)),
    (EQUAL, "", "", b"sw11", &[0, 0, 1], "sw1\r", byte(3)),
    (EQUAL, "", "", b"sw11", &[0, 0, 1], "sw1\0", byte(3)),
    // A hardblank that was left as it is; the other order of writing; the text before mapping.
    (HEADER, "", "", b"a b", &[0, 0], "a$b\n", byte(1)),
    (LEFTWARD, "", "", b"ab", &[0], "ab\n", byte(0)),
    (HEADER, "", "t A B\nt B A", b"AB", &[0], "AB\n", byte(0)),
    (FITTING, EDGES, "", b"\xc9\xc8", &[2], "c b\n", byte(1)),
    // No character: no bytes, a row too many, a blank.
    (HEADER, "", "", b"", &[], "", byte(0)),
    (HEADER, "", "", b"", &[], "\n\n", byte(1)),
    (HEADER, "", "", b"", &[], " \n", byte(0)),
    (HEADER, "", "", b"\x01", &[], "?\n", byte(0)),
];

/// "A list of the wrong length is 25", before the overlaps and the bytes are looked at.
const LENGTHS: &[Case] = &[
    (HEADER, "", "", b"sw11", &[0, 0], "sw11\n", LENGTH),
    (HEADER, "", "", b"sw11", &[0, 0, 0, 0], "sw11\n", LENGTH),
    (HEADER, "", "", b"sw11", &[], "sw11\n", LENGTH),
    (EQUAL, "", "", b"sw11", &[1, 1], "x", LENGTH),
    (EQUAL, "", "", b"sw11", &[1, 1, 1, 1], "", LENGTH),
    // The overlap of the first character, which is 0, is no part of the list.
    (EQUAL, "", "", b"sw11", &[0, 0, 0, 1], "sw1\n", LENGTH),
    (HEADER, "", "", b"a", &[0], "a\n", LENGTH),
    (HEADER, "", "", b"", &[0], "\n", LENGTH),
    // Nor is one of a character that draws nothing; one of width 0 is.
    (HEADER, "", "", b"a\x01b", &[0, 0], "ab\n", LENGTH),
    (HEADER, "", "", b"a\x01b", &[], "ab\n", LENGTH),
    (HEADER, "", "", b"\x01", &[0], "\n", LENGTH),
    (HEADER, "", "", b"a\x01", &[0], "a\n", LENGTH),
    (HEADER, "", "", b"\x01a", &[0], "a\n", LENGTH),
    (HEADER, "", "", b"a\xc4b", &[0], "ab\n", LENGTH),
    (HEADER, ZERO, "", b"a\x01b", &[0], "a?b\n", LENGTH),
    (HEADER, "0\n@@\n", "", b"a\x01b", &[0], "ab\n", LENGTH),
];

/// `ax` in a font of two rows is `a+` above `b+`: FIGure, answer.
const ROWS: &[(&str, Apart)] = &[
    ("a+\nb+\n", ACCEPTED),
    ("a+\nb-\n", byte(4)),
    ("a+ \nb+\n", byte(2)),
    ("a+\nb+ \n", byte(5)),
    ("a+b+\n", byte(2)),
    ("a+\n", byte(3)),
    ("a+\nb+", byte(5)),
    ("a+\n\nb+\n", byte(3)),
    ("b+\na+\n", byte(0)),
    ("a+\r\nb+\r\n", byte(2)),
    ("a+\nb+\na+\nb+\n", byte(6)),
];

/// `sw11`, side by side, and `r71` by fonts/console.flf: the foot of the 7 moves one column under the arm of the r, and nothing else can.
const SW11: &str = "                  \n          /|  /|  \n _         |   |  \n(_  | | |  |   |  \n__) \\_|_/ _|_ _|_ \n                  \n";
const R71: &str = "  ____     \n     / /|  \n _  /   |  \n|  /    |  \n| /    _|_ \n           \n";

impl Check {
    fn check(&mut self, request: &Request, scratch: usize, must: Apart) {
        let (mut s, mut t) = (vec![1; scratch], vec![1; scratch]);
        let (x, y) = (calls::check_drawing(request, &mut s), check::check_drawing(request, &mut t));
        let shown = |bytes: &[u8]| format!("{:.60}", bytes.escape_ascii().to_string());
        let some = &request.overlaps[..request.overlaps.len().min(9)];
        let what = format!("{} as {:?}, overlaps {some:?} of {}", shown(request.text), shown(request.figure), request.overlaps.len());
        self.same(&what, x, y, must);
        self.bytes(&what, &s, &t, "", scratch);
    }

    fn rows_checked(&mut self) {
        let font = two_rows("flf2a$ 2 1 4 -1 0", '+');
        for (figure, must) in ROWS {
            let request = Request { font: &font, control: b"", text: b"ax", figure: figure.as_bytes(), overlaps: &[0] };
            self.check(&request, 32000, *must);
            self.check(&Request { overlaps: &[1], ..request }, 32000, overlap(0));
            self.check(&Request { overlaps: &[0, 0], ..request }, 32000, LENGTH);
        }
        let console = include_bytes!("../../../fonts/console.flf");
        let request = Request { font: console, control: b"", text: b"sw11", figure: SW11.as_bytes(), overlaps: &[0, 0, 0] };
        self.check(&request, 32000, ACCEPTED);
        self.check(&Request { figure: &SW11.as_bytes()[..113], ..request }, 32000, byte(113));
        let request = Request { text: b"r71", figure: R71.as_bytes(), overlaps: &[1, 0], ..request };
        self.check(&request, 32000, ACCEPTED);
        self.check(&Request { overlaps: &[0, 0], ..request }, 32000, overlap(0));
        self.check(&Request { overlaps: &[1, 1], ..request }, 32000, overlap(1));
        self.check(&Request { figure: SW11.as_bytes(), ..request }, 32000, byte(2));
    }

    /// Both sides of the limits of a text and of a line, and the longest list.
    fn long_checked(&mut self) {
        let (font, equal) = (banner_font(HEADER, "\n"), banner_font(EQUAL, "\n"));
        let (wide, none) = ([b"a".repeat(1000), b"\n".to_vec()].concat(), vec![0; 1024]);
        let letters = b"a".repeat(1025);
        let request = Request { font: &font, control: b"", text: &letters[..1000], figure: &wide, overlaps: &none[..999] };
        self.check(&request, 32000, ACCEPTED);
        self.check(&request, 32001, ACCEPTED);
        self.check(&Request { figure: &wide[..1000], ..request }, 32000, byte(1000));
        self.check(&Request { overlaps: &none[..998], ..request }, 32000, LENGTH);
        self.check(&Request { overlaps: &none[..1000], ..request }, 32000, LENGTH);
        self.check(&Request { text: &letters[..1001], overlaps: &none[..1000], ..request }, 32000, Err((16, 0)));
        self.check(&Request { text: &letters, overlaps: &none, ..request }, 32000, Err((15, 0)));
        let (ones, flat) = (vec![1; 1024], b"\xc4".repeat(1025));
        let request = Request { font: &equal, text: &letters[..1024], figure: b"a\n", overlaps: &ones[..1023], ..request };
        self.check(&request, 32000, ACCEPTED);
        self.check(&Request { overlaps: &[&ones[..1022], &[0]].concat(), ..request }, 32000, overlap(1022));
        self.check(&Request { overlaps: &ones, ..request }, 32000, LENGTH);
        self.check(&Request { text: &flat[..1024], figure: b"\n", overlaps: &none[..1023], ..request }, 32000, ACCEPTED);
        self.check(&Request { text: &flat, figure: b"\n", overlaps: &none, ..request }, 32000, Err((15, 0)));
        self.check(&Request { text: &[1; 1024], figure: b"\n", overlaps: &[], ..request }, 32000, ACCEPTED);
        self.check(&Request { figure: &vec![b'a'; 70000], ..request }, 32000, byte(1));
    }

    /// "9 (scratch under 32,000), font, control, 15, 16, 25": each where all that come behind it are due too.
    fn order_of_checks(&mut self) {
        let good = banner_font(HEADER, "\n");
        let (long, wide) = (b"a".repeat(1025), b"a".repeat(1001));
        for (font, must) in &refused_fonts() {
            let request = Request { font, control: b"t A B\nx", text: &long, figure: b"x", overlaps: &[7] };
            self.check(&request, 31999, Err((9, 0)));
            self.check(&request, 0, Err((9, 0)));
            self.check(&request, 32000, *must);
        }
        let request = Request { font: &good, control: b"t A B\nx", text: &long, figure: b"x", overlaps: &[7] };
        self.check(&request, 31999, Err((9, 0)));
        let most = b"\n".repeat(16385);
        let controls: &[(&[u8], Apart)] =
            &[(&most, Err((10, 0))), (b"t A B\nx", Err((11, 6))), (b"t a-b c-e", Err((12, 0))), (b"f\nh", Err((13, 2)))];
        for (control, must) in controls {
            self.check(&Request { control, ..request }, 32000, *must);
        }
        self.check(&Request { control: "t A B\n".repeat(257).as_bytes(), ..request }, 32000, Err((14, 1536)));
        let request = Request { control: b"", ..request };
        self.check(&request, 32000, Err((15, 0)));
        self.check(&Request { text: &wide, ..request }, 32000, Err((16, 0)));
        self.check(&Request { text: b"abc", ..request }, 32000, LENGTH);
        self.check(&Request { text: b"ab", ..request }, 32000, overlap(0));
        self.check(&Request { text: b"ab", overlaps: &[0], ..request }, 32000, byte(0));
        self.check(&Request { text: b"ab", overlaps: &[0], figure: b"ab\n", ..request }, 32000, ACCEPTED);
    }

    pub fn checked_drawings(&mut self) {
        for (header, more, control, text, overlaps, figure, must) in [RIGHT, OVERLAPS, BYTES, LENGTHS].concat() {
            let font = behind(banner_font(header, "\n"), more);
            let request = Request { font: &font, control: control.as_bytes(), text, figure: figure.as_bytes(), overlaps };
            self.check(&request, 32000, must);
            self.check(&request, 31999, Err((9, 0)));
        }
        self.rows_checked();
        self.long_checked();
        self.order_of_checks();
    }
}
