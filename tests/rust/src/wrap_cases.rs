//! Request Q-4 of document 02: texts in lines, with the lines and drawings that each must give, both sides of each limit, and the order of refusals. Both
//! implementations are asked.
use crate::calls::{self, Apart};
use crate::cases::{banner_font, behind, Check, HEADER};
use crate::plain::wrap::{self, Areas, Request};

/// A line: its first byte, the place behind its last, and its drawing without the LF.
type Line = (usize, usize, &'static str);

/// Text, limit, lines; in the font of the program banner, whose letters are one column wide and whose blank is a hardblank.
type Case = (&'static [u8], usize, &'static [Line]);

const LINES: &[Case] = &[
    // "Each line takes the most words whose drawing, with the blanks between them, fits."
    (b"ab cd", 5, &[(0, 5, "ab cd")]),
    (b"ab cd", 4, &[(0, 2, "ab"), (3, 5, "cd")]),
    (b"ab cd", 2, &[(0, 2, "ab"), (3, 5, "cd")]),
    (b"a b c d e", 5, &[(0, 5, "a b c"), (6, 9, "d e")]),
    (b"a b c d e", 4, &[(0, 3, "a b"), (4, 7, "c d"), (8, 9, "e")]),
    (b"sw11 core ams", 9, &[(0, 9, "sw11 core"), (10, 13, "ams")]),
    (b"sw11 core ams", 8, &[(0, 4, "sw11"), (5, 13, "core ams")]),
    (b"sw11 core ams", 1000, &[(0, 13, "sw11 core ams")]),
    // A short word behind one that does not fit does not come forward.
    (b"ab cde f", 4, &[(0, 2, "ab"), (3, 6, "cde"), (7, 8, "f")]),
    // A word exactly as wide as the limit, and one column wider.
    (b"abc", 3, &[(0, 3, "abc")]),
    (b"abcd", 3, &[(0, 3, "abc"), (3, 4, "d")]),
    (b"abc", 1, &[(0, 1, "a"), (1, 2, "b"), (2, 3, "c")]),
    (b"abcdef", 3, &[(0, 3, "abc"), (3, 6, "def")]),
    (b"abcdefg", 3, &[(0, 3, "abc"), (3, 6, "def"), (6, 7, "g")]),
    // "Its rest is the next line's first word": further words join it.
    (b"abcde fg", 4, &[(0, 4, "abcd"), (4, 8, "e fg")]),
    (b"abcde fgh", 4, &[(0, 4, "abcd"), (4, 5, "e"), (6, 9, "fgh")]),
    (b"abcdef g h", 4, &[(0, 4, "abcd"), (4, 8, "ef g"), (9, 10, "h")]),
    // A second word too long even alone: the line before takes nothing of it.
    (b"a bcde", 3, &[(0, 1, "a"), (2, 5, "bcd"), (5, 6, "e")]),
    (b"a b cdefg h", 3, &[(0, 3, "a b"), (4, 7, "cde"), (7, 9, "fg"), (10, 11, "h")]),
    // "Such a line takes nothing of the next word."
    (b"abcd e", 3, &[(0, 3, "abc"), (3, 6, "d e")]),
    (b"abcd ef", 3, &[(0, 3, "abc"), (3, 4, "d"), (5, 7, "ef")]),
    // Several blanks: drawn between the words of a line, and not drawn at a break or at either end.
    (b"a   b", 5, &[(0, 5, "a   b")]),
    (b"a   b", 4, &[(0, 1, "a"), (4, 5, "b")]),
    (b"a   b", 1, &[(0, 1, "a"), (4, 5, "b")]),
    (b"  a b  ", 3, &[(2, 5, "a b")]),
    (b"  a b  ", 2, &[(2, 3, "a"), (4, 5, "b")]),
    (b" abc ", 3, &[(1, 4, "abc")]),
    (b"abc   ", 3, &[(0, 3, "abc")]),
    (b"  abcd  e  ", 3, &[(2, 5, "abc"), (5, 6, "d"), (8, 9, "e")]),
    (b"a  b   c", 4, &[(0, 4, "a  b"), (7, 8, "c")]),
    // "A text without words has no lines."
    (b"", 1, &[]),
    (b" ", 1, &[]),
    (b"     ", 1, &[]),
    (b"     ", 1000, &[]),
    // Only byte 32 parts words: byte 36, which this font draws as a hardblank, does not.
    (b"a$b", 1, &[(0, 1, "a"), (1, 2, " "), (2, 3, "b")]),
    (b"a$b", 2, &[(0, 2, "a "), (2, 3, "b")]),
];

/// Header, control file, text, limit, lines: how characters join, and what mapping does. No byte is missing in the font.
const DRAWN: &[(&str, &str, &[u8], usize, &[Line])] = &[
    // Right to left: the first word stands at the right, and the first line still comes first.
    ("flf2a$ 1 1 4 -1 0 1", "", b"ab cd", 5, &[(0, 5, "dc ba")]),
    ("flf2a$ 1 1 4 -1 0 1", "", b"ab cd", 4, &[(0, 2, "ba"), (3, 5, "dc")]),
    ("flf2a$ 1 1 4 -1 0 1", "", b"abcde f", 4, &[(0, 4, "dcba"), (4, 7, "f e")]),
    ("flf2a$ 1 1 4 1 0 1", "", b"aab bcc", 4, &[(0, 3, "ba"), (4, 7, "cb")]),
    ("flf2a$ 1 1 4 1 0 1", "", b"aab bcc", 5, &[(0, 7, "cb ba")]),
    // Equal letters become one: the drawing counts, and not the bytes.
    ("flf2a$ 1 1 4 1 0", "", b"aabb", 2, &[(0, 4, "ab")]),
    ("flf2a$ 1 1 4 1 0", "", b"aabbc", 2, &[(0, 4, "ab"), (4, 5, "c")]),
    ("flf2a$ 1 1 4 1 0", "", b"aaa aaa", 3, &[(0, 7, "a a")]),
    ("flf2a$ 1 1 4 1 0", "", b"aaa aaa", 2, &[(0, 3, "a"), (4, 7, "a")]),
    // Smushing between words: the hardblanks of two blanks become one by rule 32, and then the line fits.
    ("flf2a$ 1 1 4 32 0", "", b"a  b", 3, &[(0, 4, "a b")]),
    ("flf2a$ 1 1 4 32 0", "", b"a    b", 3, &[(0, 6, "a b")]),
    ("flf2a$ 1 1 4 32 0", "", b"a  b", 2, &[(0, 1, "a"), (3, 4, "b")]),
    ("flf2a$ 1 1 4 1 0", "", b"a  b", 3, &[(0, 1, "a"), (3, 4, "b")]),
    // Universal: the later letter stands, so all words fit into one column.
    ("flf2a$ 1 1 4 -1 0 0 128", "", b"a b cd", 1, &[(0, 6, "d")]),
    // A line is drawn as a text of its own: nothing is joined over a break.
    ("flf2a$ 1 1 4 1 0", "", b"abbc", 2, &[(0, 3, "ab"), (3, 4, "c")]),
    ("flf2a$ 1 1 4 1 0", "", b"ab bc", 2, &[(0, 2, "ab"), (3, 5, "bc")]),
    // Words are those of the text before mapping: a blank that is mapped to a letter still parts words, and a letter that is mapped to a blank does not.
    (HEADER, "t \\  x", b"a b", 3, &[(0, 3, "axb")]),
    (HEADER, "t \\  x", b"a b", 2, &[(0, 1, "a"), (2, 3, "b")]),
    (HEADER, "t \\  x", b"  a ", 2, &[(2, 3, "a")]),
    (HEADER, "t \\  x", b"   ", 9, &[]),
    (HEADER, "t x \\ ", b"axb", 3, &[(0, 3, "a b")]),
    (HEADER, "t x \\ ", b"axb", 2, &[(0, 2, "a "), (2, 3, "b")]),
    (HEADER, "t x \\ ", b"xx x", 2, &[(0, 2, "  "), (3, 4, " ")]),
    (HEADER, "t a-c x-z", b"ab c", 2, &[(0, 2, "xy"), (3, 4, "z")]),
];

/// What stands behind the font, control file, text, limit, how many drew nothing, how many were stood in, lines.
type Missing = (&'static str, &'static str, &'static [u8], usize, [u16; 2], &'static [Line]);

const MISSING: &[Missing] = &[
    // "A code that draws nothing is 0 wide": it belongs to the line before it, if that is its own word.
    ("", "", b"a\x01b", 1, [1, 0], &[(0, 2, "a"), (2, 3, "b")]),
    ("", "", b"\x01ab", 1, [1, 0], &[(0, 2, "a"), (2, 3, "b")]),
    ("", "", b"ab\x01\x02", 1, [2, 0], &[(0, 1, "a"), (1, 4, "b")]),
    ("", "", b"a\x01 b", 1, [1, 0], &[(0, 2, "a"), (3, 4, "b")]),
    // A word of nothing but such codes is a word, and a line of it has width 0.
    ("", "", b"\x01\x02", 1, [2, 0], &[(0, 2, "")]),
    ("", "", b"a \x01", 1, [1, 0], &[(0, 1, "a"), (2, 3, "")]),
    ("", "", b"a \x01", 2, [1, 0], &[(0, 3, "a ")]),
    ("", "", b"\x01 a", 1, [1, 0], &[(0, 1, ""), (2, 3, "a")]),
    ("", "", b"\x01 a", 2, [1, 0], &[(0, 3, " a")]),
    ("", "", b"\x01 \x02 \x03", 1, [3, 0], &[(0, 3, " "), (4, 5, "")]),
    // Width 0, found and as a stand-in.
    ("", "", b"a\xc4 b", 1, [0, 0], &[(0, 2, "a"), (3, 4, "b")]),
    ("0\n@@\n", "", b"a\x01b", 1, [0, 1], &[(0, 2, "a"), (2, 3, "b")]),
    // Stood in, as wide as the limit and less.
    ("0\n??@\n", "", b"a\x01b", 2, [0, 1], &[(0, 1, "a"), (1, 2, "??"), (2, 3, "b")]),
    ("0\n??@\n", "", b"a\x01b", 3, [0, 1], &[(0, 2, "a??"), (2, 3, "b")]),
    ("0\n??@\n", "", b"\x01\x02 \x03", 4, [0, 3], &[(0, 2, "????"), (3, 4, "??")]),
    // The counts are of the whole text: a blank that is mapped to a missing code counts where it is not drawn too, and is no reason for 19.
    ("", "t \\  \\200", b" a b ", 1, [3, 0], &[(1, 2, "a"), (3, 4, "b")]),
    ("", "t \\  \\200", b" a b ", 2, [3, 0], &[(1, 4, "ab")]),
    ("0\n???@\n", "t \\  \\200", b" a b ", 1, [0, 3], &[(1, 2, "a"), (3, 4, "b")]),
    ("0\n???@\n", "t \\  \\200", b"a b", 5, [0, 1], &[(0, 3, "a???b")]),
    ("0\n???@\n", "t \\  \\200", b"   ", 1, [0, 3], &[]),
    ("", "t \\  \\200", b"  ", 1, [2, 0], &[]),
    // A wide character, of which a narrower one is made by mapping.
    ("161\nxxx@\n", "161 97", b"\xa1\xa1", 1, [0, 0], &[(0, 1, "a"), (1, 2, "a")]),
    ("161\nxxx@\n", "", b"a\xa1 b", 3, [0, 0], &[(0, 1, "a"), (1, 2, "xxx"), (3, 4, "b")]),
    ("161\nxxx@\n", "", b"a\xa1 b", 4, [0, 0], &[(0, 2, "axxx"), (3, 4, "b")]),
];

/// What stands behind the font, control file, text, limit, place: 19.
const TOO_WIDE: &[(&str, &str, &[u8], usize, u64)] = &[
    ("161\nxxx@\n", "", b"\xa1", 2, 0),
    ("161\nxxx@\n", "", b"a\xa1", 2, 1),
    ("161\nxxx@\n", "", b"  ab \xa1 \xa1", 1, 5),
    ("161\nxxx@\n162\nyyy@\n", "", b"a\xa2\xa1", 2, 1),
    // After mapping and stand-in, and code 0 itself.
    ("161\nxxx@\n", "t A \\161", b"aA", 2, 1),
    ("161\nx@\n162\nyyy@\n", "t A \\161\nf\n161 162", b"aA", 2, 1),
    ("0\n???@\n", "", b"a\x01", 2, 1),
    ("0\n???@\n", "", b"a\0", 2, 1),
    ("0\n???@\n", "t A \\-1", b" A", 1, 1),
];

/// Sizes of scratch, the two lists and the output.
type Rooms = [usize; 4];

fn room_for(out: usize) -> Rooms {
    [32000, 1024, 1024, out]
}

fn font_with(more: &str) -> Vec<u8> {
    behind(banner_font(HEADER, "\n"), more)
}

fn areas([scratch, firsts, ends, out]: Rooms) -> Areas {
    Areas { scratch: vec![1; scratch], firsts: vec![9; firsts], ends: vec![9; ends], out: vec![1; out] }
}

impl Check {
    /// One request: the answer, and every entry of every area.
    fn wrapping(&mut self, request: &Request, rooms: Rooms, must: Apart, lines: &[(usize, usize)], drawn: &str) {
        let (mut a, mut b) = (areas(rooms), areas(rooms));
        let (x, y) = (calls::draw_wrapped(request, &mut a), wrap::draw_wrapped(request, &mut b));
        let text = request.text.escape_ascii().to_string();
        let what = format!("{:.40} {text:.60} within {} {rooms:?}", request.control.escape_ascii().to_string(), request.limit);
        self.same(&what, x, y, must);
        self.bytes(&what, &a.scratch, &b.scratch, "", rooms[0]);
        self.bytes(&what, &a.out, &b.out, drawn, rooms[3]);
        let list = |part: fn(&(usize, usize)) -> usize, room: usize| {
            let mut must: Vec<usize> = lines.iter().map(part).collect();
            must.resize(room, 0);
            must
        };
        self.area(&what, &a.firsts, &b.firsts, &list(|line| line.0, rooms[1]));
        self.area(&what, &a.ends, &b.ends, &list(|line| line.1, rooms[2]));
    }

    /// A request that is not refused, in an output to the byte and in a larger one, with longer lists; a byte less is 9.
    fn wraps(&mut self, request: &Request, [nothing, stood_in]: [u16; 2], lines: &[(usize, usize)], drawn: &str) {
        let must = Ok([nothing, stood_in, lines.len() as u16]);
        self.wrapping(request, room_for(drawn.len()), must, lines, drawn);
        self.wrapping(request, [32001, 1025, 1027, drawn.len() + 5], must, lines, drawn);
        if !drawn.is_empty() {
            self.wrapping(request, room_for(drawn.len() - 1), Err((9, 0)), &[], "");
            self.wrapping(request, room_for(0), Err((9, 0)), &[], "");
        }
    }

    /// The same of one-row drawings, each with its line.
    fn wraps_lines(&mut self, request: &Request, counts: [u16; 2], lines: &[Line]) {
        let parts: Vec<(usize, usize)> = lines.iter().map(|line| (line.0, line.1)).collect();
        let drawn: String = lines.iter().map(|line| format!("{}\n", line.2)).collect();
        self.wraps(request, counts, &parts, &drawn);
    }

    /// "A blank wider than the limit" is no reason for 19: it stands at a break then.
    fn wide_blank(&mut self) {
        let font = String::from_utf8(banner_font(HEADER, "\n")).expect("ASCII").replacen("\n$@@\n", "\n$$$@\n", 1);
        let request = |text, limit| Request { font: font.as_bytes(), control: b"", text, limit };
        self.wraps_lines(&request(b"a b", 2), [0, 0], &[(0, 1, "a"), (2, 3, "b")]);
        self.wraps_lines(&request(b" a  b ", 1), [0, 0], &[(1, 2, "a"), (4, 5, "b")]);
        self.wraps_lines(&request(b"a b", 4), [0, 0], &[(0, 1, "a"), (2, 3, "b")]);
        self.wraps_lines(&request(b"a b", 5), [0, 0], &[(0, 3, "a   b")]);
        self.wraps_lines(&request(b"  ", 1), [0, 0], &[]);
    }

    /// Two rows, of `a` they are `a.` and `aa`: the drawings follow one another, each in its own width.
    fn wrapped_rows(&mut self) {
        let letter = |c: u8| {
            let (c, mark) = (c as char, if c == b'@' { '#' } else { '@' });
            format!("{c}.{mark}\n{c}{c}{mark}\n")
        };
        let letters: String = (33..127).map(letter).collect();
        let font = format!("flf2a$ 2 1 4 -1 0\n$@\n$@\n{letters}{}", "@\n@\n".repeat(7));
        let request = |text, limit| Request { font: font.as_bytes(), control: b"", text, limit };
        self.wraps(&request(b"ab c", 5), [0, 0], &[(0, 2), (3, 4)], "a.b.\naabb\nc.\ncc\n");
        self.wraps(&request(b"ab c", 7), [0, 0], &[(0, 4)], "a.b. c.\naabb cc\n");
        self.wraps(&request(b"abc", 3), [0, 0], &[(0, 1), (1, 2), (2, 3)], "a.\naa\nb.\nbb\nc.\ncc\n");
        self.wrapping(&request(b" b", 1), room_for(0), Err((19, 1)), &[], "");
    }

    /// Limits 1 and 1,000, 0 and 1,001, and those that do not fit in 16 or 32 bits.
    fn wrapped_limits(&mut self) {
        let font = font_with("");
        let request = |text, limit| Request { font: &font, control: b"", text, limit };
        for limit in [0, 1001, 1024, 65536, 65537, 1 << 32, (1 << 32) + 1, usize::MAX] {
            self.wrapping(&request(b"a", limit), room_for(9), Err((17, 0)), &[], "");
            self.wrapping(&request(b"", limit), room_for(0), Err((17, 0)), &[], "");
        }
        let letters = "x".repeat(1024);
        let text = |n: usize| &letters.as_bytes()[..n];
        let drawn = |n: usize| format!("{}\n", &letters[..n]);
        // "16 is not given by this call."
        self.wraps(&request(text(1000), 1000), [0, 0], &[(0, 1000)], &drawn(1000));
        self.wraps(&request(text(1001), 1000), [0, 0], &[(0, 1000), (1000, 1001)], &(drawn(1000) + "x\n"));
        self.wraps(&request(text(1024), 1000), [0, 0], &[(0, 1000), (1000, 1024)], &(drawn(1000) + &drawn(24)));
        self.wraps(&request(text(1024), 999), [0, 0], &[(0, 999), (999, 1024)], &(drawn(999) + &drawn(25)));
        self.wrapping(&request(&vec![b'x'; 1025], 1000), room_for(2000), Err((15, 0)), &[], "");
    }

    /// 1,024 one-letter lines, by letters and by words: as many as there can be. A list of 1,023 is refused whatever the text.
    fn most_lines(&mut self) {
        let font = font_with("");
        let request = |text, limit| Request { font: &font, control: b"", text, limit };
        let each: Vec<(usize, usize)> = (0..1024).map(|at| (at, at + 1)).collect();
        self.wraps(&request(&[b'x'; 1024], 1), [0, 0], &each, &"x\n".repeat(1024));
        let pairs: Vec<(usize, usize)> = (0..512).map(|at| (2 * at, 2 * at + 1)).collect();
        let words = "x ".repeat(512);
        for limit in [1, 2] {
            self.wraps(&request(words.as_bytes(), limit), [0, 0], &pairs, &"x\n".repeat(512));
        }
        let nothing = Request { font: &font, control: b"", text: &[1; 1024], limit: 1 };
        self.wraps(&nothing, [1024, 0], &[(0, 1024)], "\n");
        for rooms in
            [[32000, 1023, 1024, 9], [32000, 1024, 1023, 9], [31999, 1024, 1024, 9], [32000, 0, 1024, 9], [32000, 1024, 0, 9], [0, 1024, 1024, 9]]
        {
            self.wrapping(&request(b"a", 1), rooms, Err((9, 0)), &[], "");
            self.wrapping(&request(b"", 1), rooms, Err((9, 0)), &[], "");
        }
    }

    /// The order of refusals: each is given where all that come behind it are due too.
    fn wrapped_refusals(&mut self) {
        let font = font_with("161\nxxx@\n");
        let (long, wide) = (vec![0xa1; 1025], b"a\xa1");
        let request = |font, control, text, limit| Request { font, control, text, limit };
        for rooms in [[31999, 1024, 1024, 0], [32000, 1023, 1024, 0], [32000, 1024, 1023, 0]] {
            self.wrapping(&request(b"flf2b", b"x", &long, 0), rooms, Err((9, 0)), &[], "");
        }
        self.wrapping(&request(b"flf2b", b"x", &long, 0), room_for(0), Err((2, 0)), &[], "");
        self.wrapping(&request(&font[..416], b"x", &long, 0), room_for(0), Err((5, 416)), &[], "");
        self.wrapping(&request(&font, b"t A B\nx", &long, 0), room_for(0), Err((11, 6)), &[], "");
        self.wrapping(&request(&font, b"", &long, 0), room_for(0), Err((15, 0)), &[], "");
        self.wrapping(&request(&font, b"", &long, 2), room_for(0), Err((15, 0)), &[], "");
        self.wrapping(&request(&font, b"", wide, 0), room_for(0), Err((17, 0)), &[], "");
        self.wrapping(&request(&font, b"", wide, 1001), room_for(0), Err((17, 0)), &[], "");
        self.wrapping(&request(&font, b"", wide, 2), room_for(0), Err((19, 1)), &[], "");
        self.wrapping(&request(&font, b"", wide, 3), room_for(0), Err((9, 0)), &[], "");
        // Of a text that is refused nothing is in any area, also where its first lines would have had room.
        self.wrapping(&request(&font, b"", b"a b c d", 1), room_for(7), Err((9, 0)), &[], "");
        self.wrapping(&request(&font, b"", b"a b c \xa1", 1), room_for(99), Err((19, 6)), &[], "");
    }

    pub fn wrapped(&mut self) {
        let font = font_with("");
        for (text, limit, lines) in LINES {
            self.wraps_lines(&Request { font: &font, control: b"", text, limit: *limit }, [0, 0], lines);
        }
        for (header, control, text, limit, lines) in DRAWN {
            let font = banner_font(header, "\n");
            self.wraps_lines(&Request { font: &font, control: control.as_bytes(), text, limit: *limit }, [0, 0], lines);
        }
        for (more, control, text, limit, counts, lines) in MISSING {
            self.wraps_lines(&Request { font: &font_with(more), control: control.as_bytes(), text, limit: *limit }, *counts, lines);
        }
        for (more, control, text, limit, place) in TOO_WIDE {
            let font = font_with(more);
            self.wrapping(&Request { font: &font, control: control.as_bytes(), text, limit: *limit }, room_for(20), Err((19, *place)), &[], "");
        }
        self.wide_blank();
        self.wrapped_rows();
        self.wrapped_limits();
        self.most_lines();
        self.wrapped_refusals();
    }
}
