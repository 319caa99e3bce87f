//! Request Q-6's cases of drawing from a pack, with what each must give, beside a font's own drawing. Both implementations are asked; packs and drawings were written
//! by hand.
use crate::calls::{self, Apart};
use crate::cases::{banner_font, tries, Check, HEADER};
use crate::pack_cases::{behind_head, padded, shown, wide, DAMAGED, HEAD};
use crate::plain::pack::{self, Request};

/// The letters s, w, 1 and - of 01's font, one row each.
const FOUR: &[u8] = b"CFP\0\x01\x01$\x01\0\0\0s\x01s\x01\0\0\0w\x01w\x01\0\0\x001\x011\x01\0\0\0-\x01-";

/// The same four of fonts/console.flf, as they stand there: 139 bytes.
const CONSOLE: &[u8] = b"CFP\0\x01\x06$\
\x01\0\0\0s\x04      $  _$ (_ $__)$   $\
\x01\0\0\0w\x06                 $| | |$\\_|_/$     $\
\x01\0\0\x001\x04  $ /|$  |$  | $_|_$   $\
\x01\0\0\0-\x04$$$$$$$$$$$$___$$$$$$$$$";

const CONSOLE_SW11: &str =
    "                  \n          /|  /|  \n _         |   |  \n(_  | | |  |   |  \n__) \\_|_/ _|_ _|_ \n                  \n";

/// Header of a font, its layout and direction, text, drawing: from the font, and from the pack of four letters.
const BESIDE: &[(&str, usize, usize, &str, &str)] = &[
    (HEADER, 0, 0, "sw11", "sw11\n"),
    ("flf2a$ 1 1 4 0 0", 64, 0, "sw11", "sw11\n"),
    ("flf2a$ 1 1 4 1 0", 129, 0, "sw11", "sw1\n"),
    ("flf2a$ 1 1 4 63 0", 191, 0, "sw-11", "sw-1\n"),
    ("flf2a$ 1 1 4 -1 0 0 128", 128, 0, "sw11", "1\n"),
    ("flf2a$ 1 1 4 -1 0 1", 0, 1, "sw1", "1ws\n"),
    ("flf2a$ 1 1 4 1 0 1", 129, 1, "sw11", "1ws\n"),
    ("flf2a$ 1 1 4 -1 0 1 32767", 32767, 1, "s-11", "1-s\n"),
    (HEADER, 0, 0, "", "\n"),
];

/// Pack, control file, text, how many drew nothing, how many were stood in, drawing at full width.
const DRAWN: &[(&[u8], &str, &[u8], u16, u16, &str)] = &[
    (b"CFP\0\x01\x01$", "", b"ab", 2, 0, "\n"),
    (b"CFP\0\x01\x01$\x01\0\0\0a\x01x", "", b"aba", 1, 0, "xx\n"),
    (b"CFP\0\x01\x01$\x01\0\0\0a\x01x\x01\0\0\0\0\x01?", "", b"aba\0", 0, 1, "x?x?\n"),
    // A free record is no letter, with code 0 neither.
    (b"CFP\0\x01\x01$\x02\0\0\0a\x01x\x01\0\0\0\0\x01?", "", b"a", 0, 1, "?\n"),
    (b"CFP\0\x01\x01$\x01\0\0\0a\x01x\x02\0\0\0\0\x01?", "", b"ab", 1, 0, "x\n"),
    (b"CFP\0\x01\x01$\x02\0\0\0a\x01x\x01\0\0\0a\x01y", "", b"a", 0, 0, "y\n"),
    // Hardblanks come out as blanks; a text byte is a code from 0 to 255; mapping comes first.
    (b"CFP\0\x01\x01\t\x01\0\0\0a\x03\tx\t", "", b"aa", 0, 0, " x  x \n"),
    (b"CFP\0\x01\x01$\x01\0\0\0\xe4\x01x", "", b"\xe4", 0, 0, "x\n"),
    (b"CFP\0\x01\x01$\x01\xff\xff\xff\xe4\x01x", "", b"\xe4", 1, 0, "\n"),
    (b"CFP\0\x01\x01$\x01\xff\xff\xff\xfe\x01x", "t a \\-2", b"ab", 1, 0, "x\n"),
    // Two rows, and zeros behind the records.
    (b"CFP\0\x01\x02$\x01\0\0\0a\x02abcd\0\0\0", "", b"aa", 0, 0, "abab\ncdcd\n"),
    (b"CFP\0\x01\x02$\x01\0\0\0a\0", "", b"aa", 0, 0, "\n\n"),
];

impl Check {
    fn drawing(&mut self, request: &Request, rooms: [usize; 2], must: Apart, drawn: &str) {
        let text = request.text.escape_ascii().to_string();
        let what = format!("{text:.40} by {}, {} {rooms:?} {}", request.layout, request.direction, shown(request.pack));
        self.drawn(&what, rooms, must, drawn, |s, o| calls::draw_pack(request, s, o), |s, o| pack::draw_pack(request, s, o));
    }

    fn draws(&mut self, request: &Request, counts: [u16; 2], drawn: &str) {
        for (rooms, must, drawn) in tries(counts, drawn) {
            self.drawing(request, rooms, must, drawn);
        }
    }

    /// `sw11` from a pack of four letters, and the font's own drawing beside it.
    fn beside_fonts(&mut self) {
        for (header, layout, direction, text, drawn) in BESIDE {
            let request = Request { pack: FOUR, layout: *layout, direction: *direction, control: b"", text: text.as_bytes() };
            self.draws(&request, [0, 0], drawn);
            self.font_draws(&banner_font(header, "\n"), text, drawn);
        }
        let console = include_bytes!("../../../fonts/console.flf");
        let request = Request { pack: CONSOLE, layout: 8256, direction: 0, control: b"", text: b"sw11" };
        assert_eq!(CONSOLE.len(), 139);
        self.draws(&request, [0, 0], CONSOLE_SW11);
        self.font_draws(console, "sw11", CONSOLE_SW11);
    }

    fn font_draws(&mut self, font: &[u8], text: &str, drawn: &str) {
        let (rooms, must, _) = tries([0, 0], drawn)[0];
        self.draw(font, "", text.as_bytes(), rooms, must, drawn);
    }

    /// "9 (scratch), 20, 17 (layout of bad shape), the control file's, 15, 16, 9 (out)": each where all that come behind it are due too.
    fn pack_drawing_refused(&mut self) {
        let (wide, longer, long) = (behind_head(&wide(1, 199)), padded(HEAD, 65537), vec![b'A'; 1025]);
        let request = |pack, layout, direction, control, text| Request { pack, layout, direction, control, text };
        self.drawing(&request(b"CFP", 32768, 2, b"x", &long), [31999, 0], Err((9, 0)), "");
        self.drawing(&request(b"CFP", 32768, 2, b"x", &long), [32000, 9], DAMAGED, "");
        self.drawing(&request(&longer, 0, 0, b"x", &long), [32000, 9], DAMAGED, "");
        for (layout, direction) in [(32768, 0), (65536, 0), (1 << 32, 0), (usize::MAX, 1), (0, 2), (128, 256), (0, usize::MAX), (1 << 32 | 64, 0)] {
            self.drawing(&request(&wide, layout, direction, b"x", &long), [32000, 9], Err((17, 0)), "");
        }
        self.drawing(&request(&wide, 32767, 1, b"t A B\nx", &long), [32000, 9], Err((11, 6)), "");
        self.drawing(&request(&wide, 0, 0, b"", &long), [32000, 9], Err((15, 0)), "");
        self.drawing(&request(&wide, 0, 0, b"", b"AAAAAA"), [32000, 9], Err((16, 0)), "");
        self.drawing(&request(&wide, 0, 0, b"", b"AAAAA"), [32000, 995], Err((9, 0)), "");
        self.drawing(&request(&wide, 0, 0, b"", b"AAAAA"), [32000, 996], Ok([0, 0, 995]), &("x".repeat(995) + "\n"));
    }

    pub fn pack_drawings(&mut self) {
        for (pack, control, text, nothing, stood_in, drawn) in DRAWN {
            let request = Request { pack, layout: 0, direction: 0, control: control.as_bytes(), text };
            self.draws(&request, [*nothing, *stood_in], drawn);
        }
        self.beside_fonts();
        self.pack_drawing_refused();
    }
}
