//! Request Q-7 of document 02: drawings by two fonts, with what each must give. Both implementations are asked; the answers were written by hand from the papers.
use crate::calls::{self, Apart};
use crate::cases::{banner_font, behind, full_font, refused_fonts, tries, Check, HEADER};
use crate::plain::two::{self, Request};
use crate::replaced_cases::{DRAWINGS, LAYOUTS, ZERO};

/// A font whose 102 required characters are all alike, so that none of them is one of 01's font but the asterisk.
fn starred(header: &str) -> Vec<u8> {
    format!("{header}\n{}", "*@\n".repeat(102)).into_bytes()
}

/// A font of two rows: code 97 is `a` above `b`, and every other required character a mark above itself.
pub fn two_rows(header: &str, mark: char) -> Vec<u8> {
    let rows = |code: i32| if code == 97 { "a@\nb@@\n".into() } else { format!("{mark}@\n{mark}@@\n") };
    format!("{header}\n{}", (32..134).map(rows).collect::<String>()).into_bytes()
}

/// What stands behind 01's font, which has codes 32 to 126 and the seven German ones, and behind the second, which has asterisks for them; control file, text, how many
/// drew nothing, how many were stood in, drawing at full width.
type Case = (&'static str, &'static str, &'static str, &'static [u8], u16, u16, &'static str);

const FOUND: &[Case] = &[
    // Accents from the second font in a name of the first; what both have is the first's.
    ("", "233\ne'@\n", "", b"caf\xe9", 0, 0, "cafe'\n"),
    ("", "233\ne'@\n", "", b"\xe9", 0, 0, "e'\n"),
    ("", "233\ne'@\n232\n`e@\n", "", b"\xe9l\xe8ve", 0, 0, "e'l`eve\n"),
    ("", "", "", b"caf\xe9", 1, 0, "caf\n"),
    ("233\nE@\n", "233\ne'@\n", "", b"\xe9", 0, 0, "E\n"),
    ("233\nE@\n", "", "", b"\xe9", 0, 0, "E\n"),
    ("", "", "", b"sw11", 0, 0, "sw11\n"),
    ("", "", "", b"", 0, 0, "\n"),
    ("", "", "", b" ~\x1f\x7f", 2, 0, " ~\n"),
    // A character of width 0 is there: the German letters of the first font, and an accent of the second.
    ("", "", "", b"\xc4\xd6\xdc\xe4\xf6\xfc\xdf", 0, 0, "\n"),
    ("", "233\n@\n", "", b"a\xe9b", 0, 0, "ab\n"),
    ("233\n@\n", "233\ne@\n", "", b"a\xe9b", 0, 0, "ab\n"),
    // "When codes repeat, the last is used", in either font.
    ("", "233\ne@\n233\nE'@\n", "", b"\xe9", 0, 0, "E'\n"),
    ("", "233\n1@\n232\n2@\n233\n3@\n232\n4@\n", "", b"\xe9\xe8", 0, 0, "34\n"),
    ("233\n1@\n233\n2@\n", "233\n3@\n", "", b"\xe9", 0, 0, "2\n"),
    ("97\nA@\n", "97\nB@\n97\nC@\n", "", b"ab", 0, 0, "Ab\n"),
    ("", "97\nB@\n", "", b"ab", 0, 0, "ab\n"),
    // Hardblanks of the second font come out as blanks.
    ("", "233\n$e$@\n", "", b"a\xe9b", 0, 0, "a e b\n"),
];

const STOOD_IN: &[Case] = &[
    // "A code missing from the first is sought in the second before any stand-in."
    (ZERO, "233\ne@\n", "", b"\xe9", 0, 0, "e\n"),
    (ZERO, "233\ne@\n", "", b"a\xe9\xe8", 0, 1, "ae?\n"),
    // A code 0 in the first only, in the second only, in both, in neither.
    (ZERO, "", "", b"a\xe9b", 0, 1, "a?b\n"),
    ("", "0\n!@\n", "", b"a\xe9b", 0, 1, "a!b\n"),
    (ZERO, "0\n!@\n", "", b"a\xe9b", 0, 1, "a?b\n"),
    ("", "", "", b"a\xe9b", 1, 0, "ab\n"),
    // Each byte counts, however often it stands there; one that the second font has does not.
    ("", "0\n!@\n233\ne@\n", "", b"\x01\x01\xe9\x02\xe9", 0, 3, "!!e!e\n"),
    ("", "233\ne@\n", "", b"\x01\x01\xe9\x02\xe9", 3, 0, "ee\n"),
    // A text byte 0: "found as itself" where either font has code 0.
    (ZERO, "", "", b"\0", 0, 0, "?\n"),
    ("", "0\n!@\n", "", b"\0", 0, 0, "!\n"),
    (ZERO, "0\n!@\n", "", b"\0", 0, 0, "?\n"),
    ("", "", "", b"\0", 1, 0, "\n"),
    ("", "0\n!@\n", "", b"\0a\xe9\0", 0, 1, "!a!!\n"),
    // Of several codes 0 the last of that font; one of width 0 stands in too.
    ("0\n1@\n0\n2@\n", "0\n3@\n", "", b"\xe9\0", 0, 1, "22\n"),
    ("", "0\n1@\n0\n2@\n", "", b"\xe9\0", 0, 1, "22\n"),
    ("0\n@\n", "0\n!@\n", "", b"a\xe9b", 0, 1, "ab\n"),
    ("", "0\n@\n", "", b"a\xe9b", 0, 1, "ab\n"),
];

const MAPPED: &[Case] = &[
    // To a code of the second font, of any size; away from one; to code 0; by two stages.
    ("", "0x2013\n--@\n", "t A \\0x2013", b"AB", 0, 0, "--B\n"),
    ("", "-2\nx@\n2147483647\ny@\n", "t A \\-2\nt B \\0x7FFFFFFF", b"ABC", 0, 0, "xyC\n"),
    ("", "233\ne@\n", "233 65", b"\xe9", 0, 0, "A\n"),
    (ZERO, "233\ne@\n", "233 232", b"\xe9", 0, 1, "?\n"),
    ("", "0\n!@\n", "t A \\0", b"AB", 0, 0, "!B\n"),
    (ZERO, "0\n!@\n", "t A \\0", b"AB", 0, 0, "?B\n"),
    ("", "", "t A \\0", b"AB", 1, 0, "B\n"),
    ("", "0\n!@\n", "t A \\-1", b"AB", 0, 1, "!B\n"),
    ("", "233\ne@\n", "t A \\232\nf\n232 233", b"A", 0, 0, "e\n"),
    ("", "233\ne@\n", "t a-b b-c", b"ab\xe9", 0, 0, "bce\n"),
];

/// "Layout and direction are the first font's": header of the first and of the second, what stands behind the second, text, drawing.
const BY_THE_FIRST: &[(&str, &str, &str, &[u8], &str)] = &[
    (HEADER, "flf2a$ 1 1 4 1 0", "233\n1@\n", b"11\xe9", "111\n"),
    ("flf2a$ 1 1 4 1 0", HEADER, "233\n1@\n", b"11\xe9", "1\n"),
    ("flf2a$ 1 1 4 -1 0 0 129", HEADER, "233\n1@\n", b"11\xe9", "1\n"),
    ("flf2a$ 1 1 4 1 0 0 0", "flf2a$ 1 1 4 1 0", "233\n1@\n", b"11\xe9", "111\n"),
    ("flf2a$ 1 1 4 -1 0 0 128", HEADER, "233\ne@\n", b"a\xe9", "e\n"),
    (HEADER, "flf2a$ 1 1 4 -1 0 0 128", "233\ne@\n", b"a\xe9", "ae\n"),
    // Fitting: the blank of the accent gives way.
    ("flf2a$ 1 1 4 0 0", HEADER, "233\n e@\n", b"a\xe9", "ae\n"),
    (HEADER, "flf2a$ 1 1 4 0 0", "233\n e@\n", b"a\xe9", "a e\n"),
    // A character of the first joined with one of the second: a big X, the later class, two hardblanks.
    ("flf2a$ 1 1 4 16 0", HEADER, "233\n\\@\n", b"/\xe9", "|\n"),
    ("flf2a$ 1 1 4 16 0", HEADER, "233\n\\@\n", b"\xe9/", "Y\n"),
    ("flf2a$ 1 1 4 4 0", HEADER, "233\n>@\n", b"|\xe9", ">\n"),
    ("flf2a$ 1 1 4 32 0", HEADER, "233\n$e@\n", b" \xe9", " e\n"),
    (HEADER, "flf2a$ 1 1 4 32 0", "233\n$e@\n", b" \xe9", "  e\n"),
    // Direction.
    ("flf2a$ 1 1 4 -1 0 1", HEADER, "233\ne'@\n", b"ab\xe9", "e'ba\n"),
    (HEADER, "flf2a$ 1 1 4 -1 0 1", "233\ne'@\n", b"ab\xe9", "abe'\n"),
    ("flf2a$ 1 1 4 16 0 1", "flf2a$ 1 1 4 16 0 0", "233\n\\@\n", b"/\xe9", "Y\n"),
    // What else the headers say may differ: Baseline, Max_Length, comments are each font's own.
    (HEADER, "flf2a$ 1 1 200 63 0 1 32767 9", "233\nabcdefghi@\n", b"x\xe9", "xabcdefghi\n"),
    ("flf2a$ 1 1 3 -1 0", HEADER, "233\nabc@\n", b"x\xe9", "xabc\n"),
];

/// `é1` by fonts/console.flf with fonts/accents.flf behind it: fitting takes no column, since the foot of the 1 meets a hardblank.
const ACCENTED: &str = "        \n /  /|  \n _   |  \n/_)  |  \n\\_  _|_ \n        \n";

impl Check {
    fn two(&mut self, request: &Request, rooms: [usize; 2], must: Apart, drawn: &str) {
        let shown = |bytes: &[u8]| bytes[bytes.len().saturating_sub(40)..].escape_ascii().to_string();
        let text = request.text.escape_ascii().to_string();
        let what = format!("{text:.40} by two fonts, {:?}, {:?}, {rooms:?}", shown(request.first), shown(request.second));
        self.drawn(&what, rooms, must, drawn, |s, o| calls::draw_two(request, s, o), |s, o| two::draw_two(request, s, o));
    }

    fn two_draw(&mut self, request: &Request, counts: [u16; 2], drawn: &str) {
        for (rooms, must, drawn) in tries(counts, drawn) {
            self.two(request, rooms, must, drawn);
        }
    }

    /// "With the same font twice every answer is that font's", and "a text whose codes the first font has is drawn as by the first alone": the drawings of Q-2 by one
    /// font.
    fn as_one(&mut self) {
        let other = behind(starred("flf2a$ 1 1 9 63 0 1 128"), "0\n!@\n1\n1@\n200\nabc@\n");
        for (more, control, text, nothing, stood_in, drawn) in DRAWINGS {
            let font = behind(banner_font(HEADER, "\n"), more);
            let twice = Request { first: &font, second: &font, control: control.as_bytes(), text };
            self.two_draw(&twice, [*nothing, *stood_in], drawn);
            if nothing + stood_in == 0 {
                self.two_draw(&Request { second: &other, ..twice }, [0, 0], drawn);
            }
        }
        for (header, text, drawn) in LAYOUTS {
            let font = behind(banner_font(header, "\n"), ZERO);
            self.two_draw(&Request { first: &font, second: &font, control: b"", text }, [0, 2], drawn);
        }
    }

    /// Rows of fonts that have more than one, and the console font with accents behind it.
    fn rows_of_two(&mut self) {
        let first = two_rows("flf2a$ 2 1 4 -1 0", '+');
        let second = behind(two_rows("flf2a$ 2 2 9 0 0 1", '*'), "233\nabc@\nd$f@@\n");
        self.two_draw(&Request { first: &first, second: &second, control: b"", text: b"a\xe9x" }, [0, 0], "aabc+\nbd f+\n");
        self.two_draw(&Request { first: &second, second: &first, control: b"", text: b"a\xe9x" }, [0, 0], "*abca\n*d fb\n");
        let console = include_bytes!("../../../fonts/console.flf");
        let accents = include_bytes!("../../../fonts/accents.flf");
        self.two_draw(&Request { first: console, second: accents, control: b"", text: b"\xe91" }, [0, 0], ACCENTED);
    }

    /// The first font's refusals and the second's, each with its place, whatever the other one's height and hardblank are; the first's before the second's.
    fn two_refused(&mut self) {
        let (font, full, bad) = (banner_font(HEADER, "\n"), full_font(), refused_fonts());
        let others = [font.clone(), starred("flf2a# 1 1 4 -1 0"), two_rows("flf2a$ 2 1 4 -1 0", '+')];
        for (file, must) in &bad {
            for other in &others {
                self.two(&Request { first: file, second: other, control: b"x", text: b"a" }, [32000, 9], *must, "");
                self.two(&Request { first: other, second: file, control: b"x", text: b"a" }, [32000, 9], *must, "");
            }
            for (second, _) in &bad {
                self.two(&Request { first: file, second, control: b"", text: b"a" }, [32000, 9], *must, "");
            }
        }
        // The limits that are not refused.
        let mut long = font.clone();
        long.resize(65536, b' ');
        self.two_draw(&Request { first: &font, second: &full, control: b"", text: b"ab\x05" }, [0, 0], "aba\n");
        self.two_draw(&Request { first: &full, second: &long, control: b"", text: b"ab\x05" }, [0, 0], "aba\n");
    }

    /// "24, heights or hardblanks differ": not by what else the headers say.
    fn fonts_that_differ(&mut self) {
        let heads = [HEADER, "flf2a# 1 1 4 -1 0", "flf2a\t 1 1 4 -1 0", "flf2a$ 2 1 4 -1 0", "flf2a# 2 1 4 -1 0", "flf2a$ 32 1 4 -1 0"];
        let height = |head: &str| head.split(' ').nth(1).unwrap().parse::<usize>().unwrap();
        let fonts = heads.map(|head| format!("{head}\n{}", "@\n".repeat(102 * height(head))).into_bytes());
        for (k, first) in fonts.iter().enumerate() {
            for (n, second) in fonts.iter().enumerate() {
                let drawn = "\n".repeat(height(heads[k]));
                let must = if k == n { Ok([1, 0, 0]) } else { Err((24, 0)) };
                self.two(&Request { first, second, control: b"", text: b"a\xe9" }, [32000, 40], must, if k == n { &drawn } else { "" });
            }
        }
    }

    /// "9 (scratch), first's, second's, 24, the control file's, 15, 16, 9 (out)": each where all that come behind it are due too.
    fn order_of_two(&mut self) {
        let (first, second) = (banner_font(HEADER, "\n"), behind(starred(HEADER), "233\nabc@\n"));
        let bad = |header: &str, more: &str| behind(banner_font(header, "\n"), more);
        let (one, other) = (bad(HEADER, "-1\n"), bad("flf2a# 1 1 4 -1 0", "161\n\n"));
        let (long, wide) = ([b"\xe9".repeat(334), b"a".repeat(691)].concat(), b"\xe9".repeat(334));
        let (full, most, more) = ([b"a", &wide[1..]].concat(), [&[1; 1021][..], b"a\xe9a"].concat(), [&[1; 1022][..], b"a\xe9a"].concat());
        let request = |first, second, control, text| Request { first, second, control, text };
        self.two(&request(&one, &other, b"t A B\nx", &long), [31999, 0], Err((9, 0)), "");
        self.two(&request(&one, &other, b"t A B\nx", &long), [32000, 0], Err((7, 419)), "");
        self.two(&request(&first, &other, b"t A B\nx", &long), [32000, 0], Err((6, 423)), "");
        let differs = starred("flf2a# 1 1 4 -1 0");
        self.two(&request(&first, &differs, b"t A B\nx", &long), [32000, 0], Err((24, 0)), "");
        self.two(&request(&first, &second, b"t A B\nx", &long), [32000, 0], Err((11, 6)), "");
        self.two(&request(&first, &second, b"t A B\n", &long), [32000, 0], Err((15, 0)), "");
        self.two(&request(&first, &second, b"t A B\n", &wide), [32000, 0], Err((16, 0)), "");
        self.two(&request(&first, &second, b"t A B\n", &wide[1..]), [32000, 999], Err((9, 0)), "");
        self.two(&request(&first, &second, b"t A B\n", &wide[1..]), [32000, 1000], Ok([0, 0, 999]), &("abc".repeat(333) + "\n"));
        self.two(&request(&first, &second, b"", &full), [32000, 1001], Ok([0, 0, 1000]), &("a".to_string() + &"abc".repeat(333) + "\n"));
        self.two(&request(&first, &second, b"", &most), [32000, 6], Ok([1021, 0, 5]), "aabca\n");
        self.two(&request(&first, &second, b"", &more), [32000, 6], Err((15, 0)), "");
    }

    pub fn two_fonts(&mut self) {
        for (more, other, control, text, nothing, stood_in, drawn) in [FOUND, STOOD_IN, MAPPED].concat() {
            let (first, second) = (behind(banner_font(HEADER, "\n"), more), behind(starred(HEADER), other));
            self.two_draw(&Request { first: &first, second: &second, control: control.as_bytes(), text }, [nothing, stood_in], drawn);
        }
        for (header, other, more, text, drawn) in BY_THE_FIRST {
            let (first, second) = (banner_font(header, "\n"), behind(starred(other), more));
            self.two_draw(&Request { first: &first, second: &second, control: b"", text }, [0, 0], drawn);
        }
        self.as_one();
        self.rows_of_two();
        self.two_refused();
        self.fonts_that_differ();
        self.order_of_two();
    }
}
