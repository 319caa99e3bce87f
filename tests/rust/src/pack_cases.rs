//! Request Q-6's cases, with what each must give: damage and its limits, what is found, and changes one after another. Both implementations
//! are asked; the bytes of every pack were written by hand.
use crate::calls::{self, Apart};
use crate::cases::Check;
use crate::plain::pack;

/// The head of a pack of one row with hardblank `$`.
pub const HEAD: &[u8] = b"CFP\0\x01\x01$";
pub const DAMAGED: Apart = Err((20, 0));

/// Heads of empty packs.
pub const HEADS: &[(&[u8], Apart)] = &[
    (HEAD, Ok([0, 1, 0])),
    (b"CFP\0\x01\x20$", Ok([0, 32, 0])),
    (b"CFP\0\x01\x01\t", Ok([0, 1, 0])),
    (b"CFP\0\x01\x01\x01", Ok([0, 1, 0])),
    (b"CFP\0\x01\x01\x7f", Ok([0, 1, 0])),
    (b"CFP\0\x01\x01\xff", Ok([0, 1, 0])),
    // "A Height, hardblank .. that 01 refuses."
    (b"CFP\0\x01\0$", DAMAGED),
    (b"CFP\0\x01\x21$", DAMAGED),
    (b"CFP\0\x01\xff$", DAMAGED),
    (b"CFP\0\x01\x01 ", DAMAGED),
    (b"CFP\0\x01\x01\r", DAMAGED),
    (b"CFP\0\x01\x01\n", DAMAGED),
    (b"CFP\0\x01\x01\0", DAMAGED),
    // "The mark CFP, version 1 in two bytes high first."
    (b"CFQ\0\x01\x01$", DAMAGED),
    (b"cFP\0\x01\x01$", DAMAGED),
    (b"FCP\0\x01\x01$", DAMAGED),
    (b"CFP\0\0\x01$", DAMAGED),
    (b"CFP\0\x02\x01$", DAMAGED),
    (b"CFP\x01\0\x01$", DAMAGED),
    (b"CFP\x01\x01\x01$", DAMAGED),
    // No whole head.
    (b"", DAMAGED),
    (b"CFP", DAMAGED),
    (b"CFP\0\x01\x01", DAMAGED),
    (b"\0\0\0\0\0\0\0", DAMAGED),
];

/// What stands behind the head, and how many live records there are.
const RECORDS: &[(&[u8], Apart)] = &[
    (b"", Ok([0, 1, 0])),
    (b"\0", Ok([0, 1, 0])),
    (b"\0\0\0\0\0\0\0\0\0\0\0\0", Ok([0, 1, 0])),
    (b"\x01\0\0\0a\x01a", Ok([0, 1, 1])),
    (b"\x01\0\0\0a\x01a\0\0\0", Ok([0, 1, 1])),
    (b"\x02\0\0\0a\x01a", Ok([0, 1, 0])),
    (b"\x01\0\0\0a\x01a\x02\0\0\0b\x02bb\x01\0\0\0c\x01c", Ok([0, 1, 2])),
    // Width 0, also with code 0: six bytes, of which the first alone is not zero.
    (b"\x01\0\0\0a\0", Ok([0, 1, 1])),
    (b"\x01\0\0\0\0\0", Ok([0, 1, 1])),
    (b"\x01\0\0\0a\0\x01\0\0\0b\0", Ok([0, 1, 2])),
    // "A record cut off by the buffer's end", in its head and in its rows, live or free.
    (b"\x01", DAMAGED),
    (b"\x01\0\0\0\0", DAMAGED),
    (b"\x01\0\0\0a\x01", DAMAGED),
    (b"\x01\0\0\0a\x03aa", DAMAGED),
    (b"\x02\0\0\0a\x03aa", DAMAGED),
    (b"\x01\0\0\0a\x01a\x02\0\0", DAMAGED),
    // "A first byte of a record other than 1 and 2."
    (b"\x03\0\0\0a\x01a", DAMAGED),
    (b"\xff\0\0\0a\x01a", DAMAGED),
    (b"\x01\0\0\0a\x01a\x03\0\0\0b\x01b", DAMAGED),
    // "Behind the last record all is zero."
    (b"\0\x01", DAMAGED),
    (b"\0\x01\0\0\0a\x01a", DAMAGED),
    (b"\x01\0\0\0a\x01a\0\0\0\x01", DAMAGED),
    (b"\x01\0\0\0a\x01aa", DAMAGED),
    // Code -1, live and free, and those beside it and at both ends.
    (b"\x01\xff\xff\xff\xff\x01a", DAMAGED),
    (b"\x02\xff\xff\xff\xff\x01a", DAMAGED),
    (b"\x01\xff\xff\xff\xfe\x01a", Ok([0, 1, 1])),
    (b"\x01\x80\0\0\0\x01a\x01\x7f\xff\xff\xff\x01a", Ok([0, 1, 2])),
    // "A row byte under 32 that is not the hardblank (in live and free records alike)."
    (b"\x01\0\0\0a\x01\x1f", DAMAGED),
    (b"\x02\0\0\0a\x01\x1f", DAMAGED),
    (b"\x01\0\0\0a\x02a\0", DAMAGED),
    (b"\x01\0\0\0a\x05 $\x7f\x80\xff", Ok([0, 1, 1])),
    // "Two live records of one code", beside each other and not; a free one may have it.
    (b"\x01\0\0\0a\x01a\x01\0\0\0a\x01a", DAMAGED),
    (b"\x01\0\0\0a\x01a\x01\0\0\0b\x01b\x01\0\0\0a\0", DAMAGED),
    (b"\x01\0\0\0a\x01a\x02\0\0\0a\x01a", Ok([0, 1, 1])),
    (b"\x02\0\0\0a\x01a\x01\0\0\0a\x01a", Ok([0, 1, 1])),
    (b"\x02\0\0\0a\x01a\x02\0\0\0a\x01a", Ok([0, 1, 0])),
];

/// Records, code, and what find answers: the place of the rows, which is under 65,536 here, and the width.
const FOUND: &[(&[u8], i32, Apart)] = &[
    (b"", 97, Err((22, 0))),
    (b"\x01\0\0\0a\x01x", 97, Ok([0, 13, 1])),
    (b"\x01\0\0\0a\x01x", 98, Err((22, 0))),
    (b"\x02\0\0\0a\x01x", 97, Err((22, 0))),
    (b"\x01\0\0\0a\x01x\x01\0\0\0b\x02yz", 98, Ok([0, 20, 2])),
    (b"\x02\0\0\0b\x01x\x01\0\0\0b\x02yz", 98, Ok([0, 20, 2])),
    (b"\x01\0\0\0b\x02yz\x02\0\0\0b\x01x", 98, Ok([0, 13, 2])),
    (b"\x01\0\0\0a\0", 97, Ok([0, 13, 0])),
    (b"\x01\x01\x02\x03\x04\x01x", 0x01020304, Ok([0, 13, 1])),
    (b"\x01\xff\xff\xff\xfe\x01x", -2, Ok([0, 13, 1])),
    // No other code stands in, code 0 neither.
    (b"\x01\0\0\0\0\x01x", 97, Err((22, 0))),
    (b"\x01\0\0\0\0\x01x", 0, Ok([0, 13, 1])),
    // "20, 17 (code -1), 22."
    (b"\x01\0\0\0a\x01x", -1, Err((17, 0))),
    (b"", -1, Err((17, 0))),
    (b"\x03", -1, DAMAGED),
    (b"\x01\0\0\0a\x01x\x01", 97, DAMAGED),
];

/// A call that may change a pack of one row.
#[derive(Clone, Copy, Debug)]
enum Do {
    /// Code and row, whose length is the width.
    Put(i32, &'static [u8]),
    /// Code, width and rows.
    PutAs(i32, usize, &'static [u8]),
    Remove(i32),
    Compact,
}
use Do::{Compact, Put, PutAs, Remove};

/// How many bytes stand behind the head, what they begin with, and calls one after another: each with its refusal, 0 for none, and the bytes then; zeros behind them.
type Changes = (usize, &'static [u8], &'static [(Do, u64, &'static [u8])]);

const CHANGES: &[Changes] = &[
    // A full pack to the last byte; put, remove, put again into the freed record, which no other width takes.
    (
        7,
        b"",
        &[
            (Put(65, b"a"), 0, b"\x01\0\0\0A\x01a"),
            (Put(66, b"b"), 23, b"\x01\0\0\0A\x01a"),
            (Put(65, b"b"), 21, b"\x01\0\0\0A\x01a"),
            (Put(66, b""), 23, b"\x01\0\0\0A\x01a"),
            (Remove(66), 22, b"\x01\0\0\0A\x01a"),
            (Remove(65), 0, b"\x02\0\0\0A\x01a"),
            (Remove(65), 22, b"\x02\0\0\0A\x01a"),
            (Put(66, b""), 23, b"\x02\0\0\0A\x01a"),
            (Put(66, b"bb"), 23, b"\x02\0\0\0A\x01a"),
            (Put(66, b"$"), 0, b"\x01\0\0\0B\x01$"),
            (Put(65, b"a"), 23, b"\x01\0\0\0B\x01$"),
        ],
    ),
    // One byte short, and room for a letter of width 0; no byte, and not even a head.
    (
        6,
        b"",
        &[
            (Put(65, b"a"), 23, b""),
            (Put(65, b""), 0, b"\x01\0\0\0A\0"),
            (Remove(65), 0, b"\x02\0\0\0A\0"),
            (Put(-2, b""), 0, b"\x01\xff\xff\xff\xfe\0"),
        ],
    ),
    (5, b"", &[(Put(65, b""), 23, b""), (Compact, 0, b"")]),
    (0, b"", &[(Put(65, b""), 23, b""), (Remove(65), 22, b""), (Compact, 0, b"")]),
    // The first free record of the width, and not the tail; then the second, then the tail.
    (
        40,
        b"\x02\0\0\0A\x02aa\x02\0\0\0B\x01b\x02\0\0\0C\x01c",
        &[
            (Put(68, b"d"), 0, b"\x02\0\0\0A\x02aa\x01\0\0\0D\x01d\x02\0\0\0C\x01c"),
            (Put(65, b"e"), 0, b"\x02\0\0\0A\x02aa\x01\0\0\0D\x01d\x01\0\0\0A\x01e"),
            (Put(67, b"f"), 0, b"\x02\0\0\0A\x02aa\x01\0\0\0D\x01d\x01\0\0\0A\x01e\x01\0\0\0C\x01f"),
            (Put(66, b"ggg"), 0, b"\x02\0\0\0A\x02aa\x01\0\0\0D\x01d\x01\0\0\0A\x01e\x01\0\0\0C\x01f\x01\0\0\0B\x03ggg"),
            (Put(69, b"h"), 23, b"\x02\0\0\0A\x02aa\x01\0\0\0D\x01d\x01\0\0\0A\x01e\x01\0\0\0C\x01f\x01\0\0\0B\x03ggg"),
            (Put(69, b"hh"), 0, b"\x01\0\0\0E\x02hh\x01\0\0\0D\x01d\x01\0\0\0A\x01e\x01\0\0\0C\x01f\x01\0\0\0B\x03ggg"),
        ],
    ),
    // Compact and put: the room of a free record of another width, the live ones in order, zeros behind.
    (
        22,
        b"\x01\0\0\0A\x01a\x02\0\0\0B\x02bb\x01\0\0\0C\x01c",
        &[
            (Put(68, b"d"), 23, b"\x01\0\0\0A\x01a\x02\0\0\0B\x02bb\x01\0\0\0C\x01c"),
            (Compact, 0, b"\x01\0\0\0A\x01a\x01\0\0\0C\x01c"),
            (Put(68, b"ddd"), 23, b"\x01\0\0\0A\x01a\x01\0\0\0C\x01c"),
            (Put(68, b"d"), 0, b"\x01\0\0\0A\x01a\x01\0\0\0C\x01c\x01\0\0\0D\x01d"),
            (Compact, 0, b"\x01\0\0\0A\x01a\x01\0\0\0C\x01c\x01\0\0\0D\x01d"),
            (Remove(65), 0, b"\x02\0\0\0A\x01a\x01\0\0\0C\x01c\x01\0\0\0D\x01d"),
            (Remove(68), 0, b"\x02\0\0\0A\x01a\x01\0\0\0C\x01c\x02\0\0\0D\x01d"),
            (Compact, 0, b"\x01\0\0\0C\x01c"),
            (Remove(67), 0, b"\x02\0\0\0C\x01c"),
            (Compact, 0, b""),
        ],
    ),
    // Of one code the live record is removed, a free one before it stays; then both are free, and the code is put again.
    (
        14,
        b"\x02\0\0\0A\x01a\x01\0\0\0A\x01b",
        &[
            (Put(65, b"c"), 21, b"\x02\0\0\0A\x01a\x01\0\0\0A\x01b"),
            (Remove(65), 0, b"\x02\0\0\0A\x01a\x02\0\0\0A\x01b"),
            (Put(65, b"c"), 0, b"\x01\0\0\0A\x01c\x02\0\0\0A\x01b"),
        ],
    ),
    // 17, each reason; before 21 and before 23.
    (
        7,
        b"\x01\0\0\0A\x01a",
        &[
            (Put(-1, b"a"), 17, b"\x01\0\0\0A\x01a"),
            (Put(65, b"\x1f"), 17, b"\x01\0\0\0A\x01a"),
            (Put(66, b"a\0"), 17, b"\x01\0\0\0A\x01a"),
            (PutAs(66, 0, b"a"), 17, b"\x01\0\0\0A\x01a"),
            (PutAs(66, 2, b"a"), 17, b"\x01\0\0\0A\x01a"),
            (PutAs(65, 2, b"aaa"), 17, b"\x01\0\0\0A\x01a"),
            (PutAs(66, 256, b""), 17, b"\x01\0\0\0A\x01a"),
            (PutAs(66, 257, b"a"), 17, b"\x01\0\0\0A\x01a"),
            (PutAs(66, 1 << 32, b""), 17, b"\x01\0\0\0A\x01a"),
            (PutAs(66, usize::MAX, b""), 17, b"\x01\0\0\0A\x01a"),
            (Remove(-1), 17, b"\x01\0\0\0A\x01a"),
            (Put(66, b"\x20"), 23, b"\x01\0\0\0A\x01a"),
        ],
    ),
    // 20 before all else: a damaged pack stays as it is.
    (
        8,
        b"\x01\0\0\0A\x01a\x03",
        &[
            (Put(-1, b"a"), 20, b"\x01\0\0\0A\x01a\x03"),
            (Put(65, b"a"), 20, b"\x01\0\0\0A\x01a\x03"),
            (Remove(-1), 20, b"\x01\0\0\0A\x01a\x03"),
            (Remove(65), 20, b"\x01\0\0\0A\x01a\x03"),
            (Compact, 20, b"\x01\0\0\0A\x01a\x03"),
        ],
    ),
];

pub fn behind_head(records: &[u8]) -> Vec<u8> {
    [HEAD, records].concat()
}

/// A pack of so many bytes that begins with some, and zeros behind.
pub fn padded(start: &[u8], length: usize) -> Vec<u8> {
    let mut made = start.to_vec();
    made.resize(length, 0);
    made
}

/// One row of that width: 1 or 2, the code A, the width, and so many letters.
pub fn wide(kind: u8, width: usize) -> Vec<u8> {
    [&[kind, 0, 0, 0, 65, width as u8][..], &vec![b'x'; width]].concat()
}

pub fn shown(bytes: &[u8]) -> String {
    format!("pack {:.200}", bytes.escape_ascii().to_string())
}

impl Check {
    fn pack(&mut self, pack: &[u8], must: Apart) {
        self.same(&shown(pack), calls::pack_check(pack), pack::check(pack), must);
    }

    fn finds(&mut self, pack: &[u8], code: i32, must: Apart) {
        self.same(&format!("find {code} {}", shown(pack)), calls::pack_find(pack, code), pack::find(pack, code), must);
    }

    /// One call on a pack: its refusal, and every byte then.
    fn changes(&mut self, pack: &mut [u8], call: Do, number: u64, must: &[u8]) {
        let what = format!("{call:.40?} {}", shown(pack));
        let mut other = pack.to_vec();
        let (x, y) = match call {
            Put(code, row) => (calls::pack_put(pack, code, row.len(), row), pack::put(&mut other, code, row.len(), row)),
            PutAs(code, width, rows) => (calls::pack_put(pack, code, width, rows), pack::put(&mut other, code, width, rows)),
            Remove(code) => (calls::pack_remove(pack, code), pack::remove(&mut other, code)),
            Compact => (calls::pack_compact(pack), pack::compact(&mut other)),
        };
        self.same(&what, x, y, if number == 0 { Ok([0, 0, 0]) } else { Err((number, 0)) });
        self.area(&what, pack, &other, must);
    }

    /// Widths 0, 199 and 200, in live records, in free ones and of letters that are put.
    fn pack_widths(&mut self) {
        let put = |width: usize| -> &'static [u8] { &[b'x'; 201][..width] };
        for kind in [1, 2] {
            for (width, live) in [(0, 1), (199, 1), (200, 0), (255, 0)] {
                let must = if live == 1 { Ok([0, 1, u16::from(kind == 1)]) } else { DAMAGED };
                self.pack(&behind_head(&wide(kind, width)), must);
            }
        }
        let record = wide(1, 199);
        self.changes(&mut padded(HEAD, 7 + 205), Put(65, put(199)), 0, &behind_head(&record));
        self.changes(&mut padded(HEAD, 7 + 204), Put(65, put(199)), 23, &padded(HEAD, 7 + 204));
        self.changes(&mut padded(HEAD, 7 + 206), Put(65, put(200)), 17, &padded(HEAD, 7 + 206));
        self.finds(&behind_head(&record), 65, Ok([0, 13, 199]));
    }

    /// Packs of 65,536 and 65,537 bytes, and a letter of width 0 whose rows are at the end of the largest: 319 free records of 205 bytes, one of 128, and six bytes.
    fn pack_sizes(&mut self) {
        self.pack(&padded(HEAD, 65536), Ok([0, 1, 0]));
        self.pack(&padded(HEAD, 65537), DAMAGED);
        let last = [1, 0, 0, 0, 66, 0];
        let full = [HEAD.to_vec(), wide(2, 199).repeat(319), wide(2, 122), last.to_vec()].concat();
        assert_eq!(full.len(), 65536);
        self.pack(&full, Ok([0, 1, 1]));
        self.finds(&full, 66, Ok([1, 0, 0]));
        let mut before = full.clone();
        before[65530..].fill(0);
        self.changes(&mut before, Put(66, b""), 0, &full);
        self.changes(&mut before, Compact, 0, &padded(&[HEAD, &last].concat(), 65536));
        let longer = padded(&full, 65537);
        self.finds(&longer, 66, DAMAGED);
        for call in [Put(65, b"a"), Remove(66), Compact] {
            self.changes(&mut longer.clone(), call, 20, &longer);
        }
    }

    /// As many live records as there can be: 10,921 of width 0, and three bytes.
    fn most_records(&mut self) {
        let records: Vec<u8> = (0..10921u32).flat_map(|code| [&[1][..], &code.to_be_bytes(), &[0]].concat()).collect();
        let pack = padded(&behind_head(&records), 65536);
        self.pack(&pack, Ok([0, 1, 10921]));
        self.finds(&pack, 10920, Ok([0, 65533, 0]));
        self.changes(&mut pack.clone(), Put(10921, b""), 23, &pack);
        self.changes(&mut pack.clone(), Compact, 0, &pack);
    }

    pub fn packs(&mut self) {
        for (pack, must) in HEADS {
            self.pack(pack, *must);
        }
        for (records, must) in RECORDS {
            self.pack(&behind_head(records), *must);
        }
        // A byte under 32 may stand in a row where it is the hardblank.
        self.pack(b"CFP\0\x01\x01\t\x01\0\0\0a\x01\t", Ok([0, 1, 1]));
        self.pack(b"CFP\0\x01\x01\t\x01\0\0\0a\x01\x08", DAMAGED);
        for (records, code, must) in FOUND {
            self.finds(&behind_head(records), *code, *must);
        }
        for (room, records, calls) in CHANGES {
            let mut pack = padded(&behind_head(records), 7 + room);
            for (call, number, bytes) in *calls {
                self.changes(&mut pack, *call, *number, &padded(&behind_head(bytes), 7 + room));
            }
        }
        self.pack_widths();
        self.pack_sizes();
        self.most_records();
        self.pack_drawings();
    }
}
