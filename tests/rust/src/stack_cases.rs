//! Request Q-1 of document 02: its worked examples, those of demand 3 turned from columns to rows, and both sides of each limit. Both
//! implementations are asked.
use crate::calls::{self, Apart};
use crate::cases::{banner_font, Check};
use crate::plain::{self, stack::Request};

const FITTING: usize = 8192;
const SMUSHING: usize = 16384;

/// Stacks with hardblank `$`: upper rows, lower rows, layout, overlap, result.
type Case = (&'static [&'static str], &'static [&'static str], usize, usize, &'static [&'static str]);

const STACKS: &[Case] = &[
    // "Upper row `|_`, lower row `||`, set 512 + 4096: stays (the bars would need 256)."
    (&["|_"], &["||"], SMUSHING + 512 + 4096, 0, &["|_", "||"]),
    (&["|_"], &["||"], SMUSHING + 256 + 512 + 4096, 1, &["||"]),
    // "Upper rows `|`, `|`, lower rows `|`, `|`, 4096: overlap 2, result `|`, `|`; with 256 instead: overlap 1, three bars."
    (&["|", "|"], &["|", "|"], SMUSHING + 4096, 2, &["|", "|"]),
    (&["|", "|"], &["|", "|"], SMUSHING + 256, 1, &["|", "|", "|"]),
    (&["|", "|"], &["|", "|"], SMUSHING + 256 + 4096, 2, &["|", "|"]),
    (&["|", "|"], &["|", "|"], FITTING + 4096, 0, &["|", "|", "|", "|"]),
    // Where supersmushing does not exceed fitting the other rules are tried; "a set of 4096 alone has no other rules".
    (&["a"], &["a"], SMUSHING + 256 + 4096, 1, &["a"]),
    (&["a"], &["a"], SMUSHING + 4096, 0, &["a", "a"]),
    (&["| ", "|a"], &["| ", "| "], SMUSHING + 4096, 2, &["| ", "|a"]),
    (&["a|", " |"], &["a|", " |"], SMUSHING + 4096, 1, &["a|", "a|", " |"]),
    // "a  ", " b" fitting; "a ", "b " fitting and universal; " b", "c " fitting and universal.
    (&["a", " ", " "], &[" ", "b"], FITTING, 2, &["a", " ", "b"]),
    (&["a", " "], &["b", " "], FITTING, 1, &["a", "b", " "]),
    (&["a", " "], &["b", " "], SMUSHING, 2, &["b", " "]),
    (&[" ", "b"], &["c", " "], FITTING, 0, &[" ", "b", "c", " "]),
    (&[" ", "b"], &["c", " "], SMUSHING, 1, &[" ", "c", " "]),
    // Columns "| " and " |" with "| " and "| ", rule 256.
    (&["| ", " |"], &["||", "  "], SMUSHING + 256, 1, &["| ", "||", "  "]),
    // The layout: full height, and 16384 before 8192. The horizontal part is not read.
    (&[" "], &["a"], 0, 0, &[" ", "a"]),
    (&[" "], &["a"], 255 + 7936, 0, &[" ", "a"]),
    (&[" "], &["a"], FITTING + 128, 1, &["a"]),
    (&["a"], &["b"], FITTING, 0, &["a", "b"]),
    (&["a"], &["b"], SMUSHING + FITTING, 1, &["b"]),
    // The rules.
    (&["-"], &["_"], SMUSHING + 2048, 1, &["="]),
    (&["_"], &["-"], SMUSHING + 2048, 1, &["="]),
    (&["-"], &["-"], SMUSHING + 2048, 0, &["-", "-"]),
    (&["-"], &["_"], SMUSHING + 256 + 512 + 1024, 0, &["-", "_"]),
    (&["_"], &["/"], SMUSHING + 512, 1, &["/"]),
    (&[">"], &["_"], SMUSHING + 512, 1, &[">"]),
    (&["_"], &["a"], SMUSHING + 7936, 0, &["_", "a"]),
    (&["|"], &[">"], SMUSHING + 1024, 1, &[">"]),
    (&["{"], &["]"], SMUSHING + 1024, 1, &["{"]),
    (&["/"], &["\\"], SMUSHING + 7936, 0, &["/", "\\"]),
    (&["["], &["]"], SMUSHING + 7936, 0, &["[", "]"]),
    (&["$"], &["$"], SMUSHING + 256, 1, &[" "]),
    // "Hardblanks are first made blanks, the narrower block is filled with blanks on the right."
    (&["$"], &["a"], FITTING, 1, &["a"]),
    (&["a$"], &["$b"], FITTING, 1, &["ab"]),
    (&["$"], &["$"], 0, 0, &[" ", " "]),
    (&["ab"], &["c"], FITTING, 0, &["ab", "c "]),
    (&["a"], &["bc"], 0, 0, &["a ", "bc"]),
    (&[" b"], &["c"], FITTING, 1, &["cb"]),
    (&["", ""], &["a"], FITTING, 1, &[" ", "a"]),
    (&["a"], &["", ""], FITTING, 1, &["a", " "]),
    (&["", ""], &["", "", ""], FITTING, 2, &["", "", ""]),
    (&["", ""], &["", "", ""], SMUSHING, 2, &["", "", ""]),
    (&["", ""], &["", "", ""], 0, 0, &["", "", "", "", ""]),
];

/// A request of two blocks of blanks that is good, and is then changed.
struct Sizes {
    upper: [usize; 3],
    lower: [usize; 3],
    hardblank: u8,
    layout: usize,
}

const ONE: [usize; 3] = [1, 1, 1];
const GOOD: Sizes = Sizes { upper: ONE, lower: ONE, hardblank: b'$', layout: FITTING };

fn refused(number: u64) -> Apart {
    Err((number, 0))
}

/// Shapes on both sides of 17: height, width and length of each block, room for the result, what it must give.
fn shapes() -> Vec<(Sizes, usize, Apart)> {
    let upper = |height, width, length| Sizes { upper: [height, width, length], ..GOOD };
    let lower = |height, width, length| Sizes { lower: [height, width, length], ..GOOD };
    let mut all = vec![
        (upper(0, 1, 0), 9, refused(17)),
        (upper(64, 1, 64), 64, Ok([1, 64, 1])),
        (upper(65, 1, 65), 99, refused(17)),
        (lower(0, 1, 0), 9, refused(17)),
        (lower(32, 1, 32), 32, Ok([1, 32, 1])),
        (lower(33, 1, 33), 99, refused(17)),
        (upper(1, 1000, 1000), 1000, Ok([1, 1, 1000])),
        (upper(1, 1001, 1001), 1001, refused(17)),
        (lower(1, 1000, 1000), 1000, Ok([1, 1, 1000])),
        (lower(1, 1001, 1001), 1001, refused(17)),
        (upper(2, 3, 5), 99, refused(17)),
        (upper(2, 3, 7), 99, refused(17)),
        (lower(2, 3, 5), 99, refused(17)),
        (lower(2, 3, 7), 99, refused(17)),
        (upper(1, usize::MAX, 0), 9, refused(17)),
        (lower(usize::MAX, 2, 0), 9, refused(17)),
        (Sizes { layout: 32767, ..GOOD }, 1, Ok([1, 1, 1])),
        (Sizes { layout: 32768, ..GOOD }, 1, refused(17)),
    ];
    all.extend([b' ', b'\r', b'\n', 0].map(|hardblank| (Sizes { hardblank, ..GOOD }, 9, refused(17))));
    all.extend([b'\t', 1, 31, 127, 255].map(|hardblank| (Sizes { hardblank, ..GOOD }, 9, Ok([1, 1, 1]))));
    all
}

/// 64 rows and 65, by the overlap and without one; room enough and too little; 17 before 18, 18 before 9.
fn rows_and_room() -> Vec<(Sizes, usize, Apart)> {
    let both = |above: usize, below: usize, layout| Sizes { upper: [above, 1, above], lower: [below, 1, below], layout, ..GOOD };
    vec![
        (both(33, 32, FITTING), 33, Ok([32, 33, 1])),
        (both(32, 32, 0), 64, Ok([0, 64, 1])),
        (both(33, 32, 0), 65, refused(18)),
        (both(64, 1, 0), 65, refused(18)),
        (both(64, 1, 0), 0, refused(18)),
        (both(65, 32, 0), 0, refused(17)),
        (both(63, 1, 0), 64, Ok([0, 64, 1])),
        (both(63, 1, 0), 63, refused(9)),
        (GOOD, 0, refused(9)),
        (Sizes { upper: [2, 0, 0], lower: [3, 0, 0], ..GOOD }, 0, Ok([2, 3, 0])),
    ]
}

/// Drawings of two lines with the font of the program banner: header, texts, overlap, output.
const DRAWINGS: &[(&str, &str, &str, u16, &str)] = &[
    ("flf2a$ 1 1 4 -1 0", "sw11", "fw3", 0, "sw11\nfw3 \n"),
    // "Full height (also without Full_Layout)": nothing closes up, not even blanks.
    ("flf2a$ 1 1 4 -1 0", " ", "a", 0, " \na\n"),
    ("flf2a$ 1 1 4 63 0", " ", "a", 0, " \na\n"),
    ("flf2a$ 1 1 4 0 0 0 64", " ", "a", 0, " \na\n"),
    ("flf2a$ 1 1 4 -1 0 0 8192", "a b", " c", 1, "acb\n"),
    ("flf2a$ 1 1 4 -1 0 0 8192", "ab", " c", 0, "ab\n c\n"),
    ("flf2a$ 1 1 4 -1 0 0 16384", "abc", "d", 1, "dbc\n"),
    ("flf2a$ 1 1 4 -1 0 0 16640", "abc", "ab", 1, "abc\n"),
    ("flf2a$ 1 1 4 -1 0 0 20992", "|_", "||", 0, "|_\n||\n"),
    // Each line by the horizontal layout first: rule 1 beside, rule 256 above.
    ("flf2a$ 1 1 4 1 0 0 16769", "sw11", "sw1", 1, "sw1\n"),
    // Filled on the right whatever the direction; the texts are written leftward.
    ("flf2a$ 1 1 4 -1 0 1 8192", "ab", "c", 0, "ba\nc \n"),
    ("flf2a$ 1 1 4 -1 0 1 8192", "c", "ab", 0, "c \nba\n"),
    // "An empty text is a line of width 0."
    ("flf2a$ 1 1 4 -1 0", "", "", 0, "\n\n"),
    ("flf2a$ 1 1 4 -1 0 0 8192", "", "", 1, "\n"),
    ("flf2a$ 1 1 4 -1 0 0 8192", "", "ab", 1, "ab\n"),
    ("flf2a$ 1 1 4 -1 0 0 16384", "ab", "", 1, "ab\n"),
    // "A joint that happens to be the hardblank's byte (`=` by 2048) .. comes out as it is"; the character `=` is a hardblank and comes out blank.
    ("flf2a= 1 1 4 -1 0 0 18432", "-=-", "_=_", 1, "= =\n"),
    // "Sideways such a joint is a hardblank and comes out blank": `[]` by rule 8.
    ("flf2a| 1 1 4 8 0 0 8328", "[]", "a", 1, "a\n"),
];

impl Check {
    fn stack(&mut self, hardblank: u8, (upper, lower, layout, overlap, result): Case) {
        let (above, below) = (upper.concat(), lower.concat());
        let request = Request {
            upper: above.as_bytes(),
            upper_width: upper[0].len(),
            upper_height: upper.len(),
            lower: below.as_bytes(),
            lower_width: lower[0].len(),
            lower_height: lower.len(),
            hardblank,
            layout,
        };
        let (mut a, mut b) = (vec![1; 12], vec![1; 12]);
        let (x, y) = (calls::stack(&request, &mut a), plain::stack::stack(&request, &mut b));
        let what = format!("{request:?}");
        self.same(&what, x, y, Ok([overlap as u16, result.len() as u16, result[0].len() as u16]));
        self.bytes(&what, &a, &b, &result.concat(), 12);
    }

    fn stack_limit(&mut self, sizes: &Sizes, room: usize, must: Apart) {
        let (upper, lower) = (vec![b' '; sizes.upper[2]], vec![b' '; sizes.lower[2]]);
        let request = Request {
            upper: &upper,
            upper_width: sizes.upper[1],
            upper_height: sizes.upper[0],
            lower: &lower,
            lower_width: sizes.lower[1],
            lower_height: sizes.lower[0],
            hardblank: sizes.hardblank,
            layout: sizes.layout,
        };
        let (mut a, mut b) = (vec![1; room], vec![1; room]);
        let (x, y) = (calls::stack(&request, &mut a), plain::stack::stack(&request, &mut b));
        let blanks = must.map_or(0, |[_, height, width]| height as usize * width as usize);
        let what = format!("{:?} {:?} {} {} {room}", sizes.upper, sizes.lower, sizes.hardblank, sizes.layout);
        self.same(&what, x, y, must);
        self.bytes(&what, &a, &b, &" ".repeat(blanks), room);
    }

    fn draw_stacked(&mut self, font: &[u8], control: &[u8], texts: [&[u8]; 2], rooms: [usize; 2], must: Apart, result: &str) {
        let [upper, lower] = texts;
        let what = format!("{:.40} over {:.40}", upper.escape_ascii().to_string(), lower.escape_ascii().to_string());
        let plain = |s: &mut [u8], o: &mut [u8]| plain::draw::draw_stacked(font, control, upper, lower, s, o);
        self.drawn(&what, rooms, must, result, |s, o| calls::draw_stacked(font, control, upper, lower, s, o), plain);
    }

    /// The order of refusals: each is given where all that come behind it are due too.
    fn stacked_refusals(&mut self) {
        let font = banner_font("flf2a$ 1 1 4 -1 0", "\n");
        let (bad, odd): (&[u8], &[u8]) = (b"flf2b", b"x");
        let [short, fits, wide, long] = [1, 1000, 1001, 1025].map(|n| vec![b'a'; n]);
        for (upper, lower) in [(&long, &wide), (&wide, &long)] {
            self.draw_stacked(bad, odd, [upper, lower], [63999, 0], refused(9), "");
            self.draw_stacked(bad, odd, [upper, lower], [64000, 0], refused(2), "");
            self.draw_stacked(&font, odd, [upper, lower], [64000, 0], refused(11), "");
            self.draw_stacked(&font, b"", [upper, lower], [64000, 0], refused(15), "");
        }
        for (upper, lower) in [(&wide, &short), (&short, &wide)] {
            self.draw_stacked(&font, b"", [upper, lower], [64000, 0], refused(16), "");
            self.draw_stacked(&font, b"", [upper, lower], [70000, 3000], refused(16), "");
        }
        let two = "a".repeat(1000) + "\n" + &"a".repeat(1000) + "\n";
        self.draw_stacked(&font, b"", [&fits, &fits], [64000, 2001], refused(9), "");
        self.draw_stacked(&font, b"", [&fits, &fits], [64000, 2002], Ok([0, 2, 1000]), &two);
        self.draw_stacked(&font, b"", [&fits, &fits], [64001, 2005], Ok([0, 2, 1000]), &two);
        // Bytes that draw nothing: 1,024 are a text of width 0.
        let nothing = vec![200; 1024];
        self.draw_stacked(&font, b"", [&nothing, &nothing], [64000, 2], Ok([0, 2, 0]), "\n\n");
        self.draw_stacked(&font, b"", [&nothing, &nothing], [64000, 1], refused(9), "");
        self.draw_stacked(&font, b"t a b", [b"aa", b"a"], [64000, 9], Ok([0, 2, 2]), "bb\nb \n");
    }

    /// Twice 32 rows are not refused 18: a font whose `a` is 32 rows high and one column wide.
    fn highest(&mut self) {
        let mut font = "flf2a$ 32 1 4 -1 0\n".to_string();
        for code in 32..134 {
            font += &(if code == 97 { "a@\n" } else { "@\n" }).repeat(32);
        }
        self.draw_stacked(font.as_bytes(), b"", [b"a", b"a"], [64000, 128], Ok([0, 64, 1]), &"a\n".repeat(64));
        self.draw_stacked(font.as_bytes(), b"", [b"", b"a"], [64000, 128], Ok([0, 64, 1]), &(" \n".repeat(32) + &"a\n".repeat(32)));
    }

    pub fn stacks(&mut self) {
        for case in STACKS {
            self.stack(b'$', *case);
        }
        self.stack(b'=', (&["-"], &["_"], SMUSHING + 2048, 1, &["="]));
        self.stack(b'=', (&["="], &["_"], SMUSHING + 2048, 1, &["_"]));
        self.stack(b'|', (&["|", "|"], &["|", "|"], SMUSHING + 4096, 2, &[" ", " "]));
        for (sizes, room, must) in shapes().into_iter().chain(rows_and_room()) {
            self.stack_limit(&sizes, room, must);
        }
        for (header, upper, lower, overlap, result) in DRAWINGS {
            let rows = result.split_terminator('\n').count();
            let must = Ok([*overlap, rows as u16, (result.len() / rows - 1) as u16]);
            let font = banner_font(header, "\n");
            self.draw_stacked(&font, b"", [upper.as_bytes(), lower.as_bytes()], [64000, 20], must, result);
        }
        self.stacked_refusals();
        self.highest();
    }
}
