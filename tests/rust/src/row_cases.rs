//! Request Q-3 of document 02: blanks and tabs behind the endmarks, what a row line then holds and which are refused. Both implementations are asked.
use crate::cases::{banner_font, behind, reads, Check, HEADER};

/// Lines on which the row of code 161 stands, of Max_Length 4, with what is drawn of it: none for a line that is refused 6.
type Case = (&'static str, Option<&'static str>);

const LINES: &[Case] = &[
    // "`a@ ` was `a@` and becomes `a`; `ab  ` was the row `ab` and becomes `a`; two blanks alone were a row of width 0 and are now 6."
    ("a@ ", Some("a")),
    ("ab  ", Some("a")),
    ("  ", None),
    // Any number of them, blanks and tabs in any order.
    ("a@", Some("a")),
    ("a@\t", Some("a")),
    ("a@@ \t", Some("a")),
    ("a@@\t \t  \t", Some("a")),
    ("ab@                                        ", Some("ab")),
    (" ", None),
    ("\t", None),
    ("\t ", None),
    (" \t", None),
    ("                    ", None),
    ("", None),
    // "Neither is ever an endmark": what stands before them is.
    ("a ", Some("")),
    ("aa\t", Some("")),
    ("@ ", Some("")),
    ("ab ", Some("a")),
    ("a  @", Some("a  ")),
    ("a @ ", Some("a ")),
    (" @", Some(" ")),
    ("  @ ", Some("  ")),
    ("a@ @", Some("a@ ")),
    ("@ @ ", Some("@ ")),
    (" a ", Some(" ")),
    ("  a", Some("  ")),
    // "Max_Length is tested after dropping", and with the marks.
    ("abc@", Some("abc")),
    ("abc@ ", Some("abc")),
    ("abcd\t\t\t\t\t", Some("abc")),
    ("a@@@ \t \t", Some("a")),
    ("abc@@", None),
    ("abc@@ ", None),
    ("abcde", None),
    ("abcde\t", None),
    ("    @", None),
    // A tab before the marks is a byte under 32 that is not the hardblank; among the marks it is none of them.
    ("\t@", None),
    ("a\t@ ", None),
    ("a@\t@", None),
    ("\t@\t", None),
    // Other bytes under 32 are no blanks: as marks they are dropped, before marks they are bad.
    ("a\x0b", Some("a")),
    ("a@\x0b", Some("a@")),
    ("a\x0b@", None),
    ("a\x0b ", Some("a")),
    ("\0\0 ", Some("")),
];

/// The same with a tab as the hardblank: it comes out as a blank.
const TAB_LINES: &[Case] = &[
    ("a\t@", Some("a ")),
    ("\t@\t", Some(" ")),
    ("\ta@ ", Some(" a")),
    // Trailing hardblanks are dropped too.
    ("a@\t", Some("a")),
    ("a\t", Some("")),
    ("ab\t\t", Some("a")),
    ("\t", None),
    ("\t\t", None),
    (" \t", None),
    ("\t\ta", Some("  ")),
    ("a@\t@", Some("a@ ")),
];

const TAB_HEADER: &str = "flf2a\t\t1 1 4 -1 0";

impl Check {
    /// A line where the row of code 161 is due, with its line end.
    fn row_line(&mut self, header: &str, line: &str, end: &str, row: Option<&str>) {
        let before = behind(banner_font(header, "\n"), "161\n");
        let font = [&before[..], line.as_bytes(), end.as_bytes()].concat();
        match row {
            None => {
                let must = Err((6, before.len() as u64));
                self.font(&font, must);
                self.draw(&font, "", b"\xa1", [32000, 20], must, "");
            }
            Some(row) => {
                self.font(&font, reads(103));
                self.draw(&font, "", b"\xa1", [32000, 20], Ok([0, 0, row.len() as u16]), &format!("{row}\n"));
            }
        }
    }

    /// "Only row lines": a tag, the end of the file and a comment stay what they were; and a row that ends the file.
    fn row_lines_only(&mut self) {
        let font = banner_font(HEADER, "\n");
        let with = |more: &str| behind(font.clone(), more);
        self.font(&with("161 \t\na@ \n"), reads(103));
        self.font(&with(" \t \n161\na@\n"), Err((7, 419)));
        self.font(&with(" \t \n \n"), reads(102));
        self.font(&with("161\na@ \n \t\n"), reads(103));
        self.font(&with("161\n  \n"), Err((6, 423)));
        self.font(&with("161\na@ \n  \na@\n"), Err((7, 427)));
        let text = String::from_utf8(font.clone()).expect("ASCII");
        self.font(text.replace(" 0\n", " 1\n \t\n").as_bytes(), reads(102));
        self.font(&[&font[..416], b"  "].concat(), Err((6, 416)));
        self.font(&[&font[..416], b"\t"].concat(), Err((6, 416)));
        self.font(&[&font[..416], b"@  "].concat(), reads(102));
        for end in ["\n", "\r\n", "\r"] {
            let blanks = banner_font(HEADER, &format!(" \t {end}"));
            self.font(&blanks, reads(102));
            self.draw(&blanks, "", b"a b", [32000, 20], Ok([0, 0, 3]), "a b\n");
        }
    }

    /// Two rows: one width after dropping, and two.
    fn two_row_lines(&mut self) {
        let rows = |second: &str| format!("flf2a$ 2 1 4 -1 0\n{}{second}\n{}", "$@\n$@@\n!@ \n", "@\n@@\n".repeat(100));
        for second in ["!@@", "!@@ ", "!@\t", "!@@@      ", "!!    ", "!#"] {
            let must = if second == "!!    " { Err((6, 29)) } else { Ok([0, 2, 102]) };
            self.font(rows(second).as_bytes(), must);
        }
        for second in ["@@ ", "!!@ ", "!@ @", "  ", "!!@@@ "] {
            self.font(rows(second).as_bytes(), Err((6, 29)));
        }
    }

    pub fn rows(&mut self) {
        for end in ["\n", "\r\n", "\r", ""] {
            // Without an end the empty line is no line.
            for (line, row) in LINES.iter().filter(|(line, _)| !line.is_empty() || !end.is_empty()) {
                self.row_line(HEADER, line, end, *row);
            }
            for (line, row) in TAB_LINES {
                self.row_line(TAB_HEADER, line, end, *row);
            }
        }
        self.row_lines_only();
        self.two_row_lines();
    }
}
