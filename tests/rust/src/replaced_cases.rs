//! Request Q-2 of document 02: drawings with bytes that are not in the font, how many were stood in by code 0 and how many drew nothing. Both
//! implementations are asked.
use crate::cases::{banner_font, behind, Check, HEADER};

/// What stands behind the font of the program banner, which has codes 32 to 126 and the seven German ones and no code 0.
const NO_ZERO: &str = "";
pub const ZERO: &str = "0\n?@@\n";

/// What stands behind the font, control file, text, how many drew nothing, how many were stood in, output.
pub type Case = (&'static str, &'static str, &'static [u8], u16, u16, &'static str);

pub const DRAWINGS: &[Case] = &[
    // "A typographic dash came out as the stand-in": three bytes of UTF-8.
    (ZERO, "", "sw–11".as_bytes(), 0, 3, "sw???11\n"),
    (NO_ZERO, "", "sw–11".as_bytes(), 3, 0, "sw11\n"),
    (ZERO, "", b"sw-11", 0, 0, "sw-11\n"),
    (NO_ZERO, "", b"sw-11", 0, 0, "sw-11\n"),
    (ZERO, "", b"", 0, 0, "\n"),
    (NO_ZERO, "", b"", 0, 0, "\n"),
    // Both ends of what the font has.
    (ZERO, "", b"\x1f ~\x7f", 0, 2, "? ~?\n"),
    (NO_ZERO, "", b"\x1f ~\x7f", 2, 0, " ~\n"),
    // "A code 0 that the font has is found."
    (ZERO, "", b"\0", 0, 0, "?\n"),
    (ZERO, "", b"a\0b\x01\0", 0, 1, "a?b??\n"),
    (NO_ZERO, "", b"\0a\0", 2, 0, "a\n"),
    // Each byte counts, however often it stands there.
    (ZERO, "", b"\x01\x01a\x01\x02", 0, 4, "??a??\n"),
    (NO_ZERO, "", b"\x01\x01a\x01\x02", 4, 0, "a\n"),
    // "The counts are of the text's bytes after mapping": to code 0, to a code that is missing, from one that is missing, by two stages.
    (ZERO, "t A \\0", b"ABA", 0, 0, "?B?\n"),
    (NO_ZERO, "t A \\0", b"ABA", 2, 0, "B\n"),
    (ZERO, "t A \\200", b"ABA", 0, 2, "?B?\n"),
    (NO_ZERO, "t A \\200", b"ABA", 2, 0, "B\n"),
    (ZERO, "200 65", b"\xc8B\xc9", 0, 1, "AB?\n"),
    (NO_ZERO, "200 65", b"\xc8B\xc9", 1, 0, "AB\n"),
    (ZERO, "t A \\200\nf\n200 66", b"A\xc8", 0, 0, "BB\n"),
    (ZERO, "t A B\nf\nt B \\200", b"AB", 0, 2, "??\n"),
    (ZERO, "t A \\-1", b"A", 0, 1, "?\n"),
    (NO_ZERO, "t A \\-1", b"A", 1, 0, "\n"),
    (ZERO, "0 1", b"\0", 0, 1, "?\n"),
    (ZERO, "t \\0-\\1 a-b", b"\0\x01", 0, 0, "ab\n"),
    // A character of width 0 is found, and stands in, as any other.
    (NO_ZERO, "", b"\xc4\xd6\xdc\xe4\xf6\xfc\xdf", 0, 0, "\n"),
    ("0\n@@\n", "", b"a\x01b", 0, 1, "ab\n"),
    ("0\n@@\n", "", b"\0", 0, 0, "\n"),
    // Code 0 however it is written; "when codes repeat, the last is used"; another tag is no code 0.
    ("-0x0\n?@@\n", "", b"\x01", 0, 1, "?\n"),
    ("0\n?@@\n0\n!!@\n", "", b"\x01\0", 0, 1, "!!!!\n"),
    ("1\n?@@\n", "", b"\x01\x02\0", 2, 0, "?\n"),
    ("0\n?@@\n1\n!@@\n", "", b"\x01\x02\0", 0, 1, "!??\n"),
];

/// "The counts .. do not depend on the layout": header, text, output; with code 0, which stands in twice.
pub const LAYOUTS: &[(&str, &[u8], &str)] = &[
    ("flf2a$ 1 1 4 -1 0", b"a\x01\x02", "a??\n"),
    ("flf2a$ 1 1 4 0 0", b"a\x01\x02", "a??\n"),
    ("flf2a$ 1 1 4 1 0", b"a\x01\x02", "a?\n"),
    ("flf2a$ 1 1 4 -1 0 0 128", b"a\x01\x02", "?\n"),
    ("flf2a$ 1 1 4 -1 0 0 128", b"\x01\x02a", "a\n"),
    ("flf2a$ 1 1 4 -1 0 1", b"a\x01\x02", "??a\n"),
    ("flf2a$ 1 1 4 1 0 1", b"a\x01\x02", "?a\n"),
];

impl Check {
    /// "A refusal tells 0 and 0": each refusal of a drawing with bytes that are not in the font.
    fn replaced_refused(&mut self, more: &str) {
        let font = behind(banner_font(HEADER, "\n"), more);
        let [short, long] = [1, 1025].map(|n| vec![1; n]);
        let wide = [vec![b'a'; 1001], vec![1; 3]].concat();
        self.draw(&font, "", &short, [31999, 9], Err((9, 0)), "");
        self.draw(b"flf2b", "", &short, [32000, 9], Err((2, 0)), "");
        self.draw(&font, "t A", &short, [32000, 9], Err((11, 0)), "");
        self.draw(&font, "", &long, [32000, 2000], Err((15, 0)), "");
        self.draw(&font, "", &wide, [32000, 2000], Err((16, 0)), "");
        self.draw(&font, "", b"a\x01b", [32000, 2], Err((9, 0)), "");
    }

    /// Both counts as large as a text allows, and a stand-in that is as wide as the line may be.
    fn replaced_limits(&mut self) {
        let font = |more: &str| behind(banner_font(HEADER, "\n"), more);
        let texts = [1000, 1001, 1024, 1025].map(|n| vec![1; n]);
        self.draw(&font(NO_ZERO), "", &texts[2], [32000, 1], Ok([1024, 0, 0]), "\n");
        self.draw(&font("0\n@@\n"), "", &texts[2], [32000, 1], Ok([0, 1024, 0]), "\n");
        self.draw(&font(ZERO), "", &texts[0], [32000, 1001], Ok([0, 1000, 1000]), &("?".repeat(1000) + "\n"));
        self.draw(&font(ZERO), "", &texts[1], [32000, 2000], Err((16, 0)), "");
        self.draw(&font(ZERO), "", &texts[3], [32000, 2000], Err((15, 0)), "");
    }

    pub fn replaced(&mut self) {
        for (more, control, text, nothing, stood_in, result) in DRAWINGS {
            let font = behind(banner_font(HEADER, "\n"), more);
            self.draw(&font, control, text, [32000, 20], Ok([*nothing, *stood_in, result.len() as u16 - 1]), result);
        }
        for (header, text, result) in LAYOUTS {
            let font = behind(banner_font(header, "\n"), ZERO);
            self.draw(&font, "", text, [32000, 20], Ok([0, 2, result.len() as u16 - 1]), result);
        }
        self.replaced_refused(NO_ZERO);
        self.replaced_refused(ZERO);
        self.replaced_limits();
    }
}
