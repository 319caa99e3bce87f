//! A font pack in a lent buffer: request Q-6 of document 02. "Refusals: 20 damaged pack, 17 .., 21 code present, 22 code absent, 23 no room, in that order."
use super::control;
use super::draw::{line, replaced, shown};
use super::font::{Character, Font};
use super::header::{full_layout, Header};
use super::pairs::is_hardblank;
use super::{output, packed, refuse, Refusal};

/// "The mark CFP, version 1 in two bytes high first, one byte height, one byte hardblank."
pub const HEAD: usize = 7;
/// "One byte 1 for live or 2 for free, the code in four bytes high first, one byte width."
pub const RECORD_HEAD: usize = 6;
const LIVE: u8 = 1;
const FREE: u8 = 2;

#[derive(Clone, Copy, Debug)]
pub struct Record {
    pub place: usize,
    pub live: bool,
    pub code: i32,
    pub width: usize,
}

impl Record {
    /// Where its rows begin.
    pub fn rows(&self) -> usize {
        self.place + RECORD_HEAD
    }
}

#[derive(Clone, Debug)]
pub struct Pack {
    pub height: usize,
    pub hardblank: u8,
    pub records: Vec<Record>,
    /// Behind the last record.
    pub end: usize,
}

/// "Damaged is whatever breaks this layout": each way to break it.
#[derive(Clone, Copy, PartialEq, Eq, Debug)]
pub enum Damage {
    TooLong,
    NoHead,
    Mark,
    Version,
    Height,
    Hardblank,
    /// The first byte of a record is none of 0, 1 and 2.
    Kind,
    /// Behind a 0 not all is zero.
    Behind,
    CutHead,
    CutRows,
    /// These three "in live and free records alike": whether it is live.
    CodeMinusOne(bool),
    Width(bool),
    RowByte(bool),
    RepeatedCode,
}

/// "A row byte that 01 refuses": under 32 and not the hardblank.
pub fn is_row_byte(byte: u8, hardblank: u8) -> bool {
    byte >= 32 || byte == hardblank
}

fn head(pack: &[u8]) -> Result<Pack, Damage> {
    let broken = [
        (pack.len() > 65536, Damage::TooLong),
        (pack.len() < HEAD, Damage::NoHead),
        (!pack.starts_with(b"CFP"), Damage::Mark),
        (pack.get(3..5) != Some(&[0, 1]), Damage::Version),
        (!pack.get(5).map_or(false, |height| (1..=32).contains(height)), Damage::Height),
        (!pack.get(6).map_or(false, |byte| is_hardblank(*byte)), Damage::Hardblank),
    ];
    match broken.iter().find(|(is_so, _)| *is_so) {
        Some((_, damage)) => Err(*damage),
        None => Ok(Pack { height: pack[5] as usize, hardblank: pack[6], records: Vec::new(), end: HEAD }),
    }
}

impl Pack {
    pub fn size(&self, width: usize) -> usize {
        RECORD_HEAD + self.height * width
    }

    /// The record at the end of those that were read.
    fn next(&self, pack: &[u8]) -> Result<Record, Damage> {
        let place = self.end;
        let live = match pack[place] {
            LIVE => true,
            FREE => false,
            0 => return Err(Damage::Behind),
            _ => return Err(Damage::Kind),
        };
        let head = pack.get(place..place + RECORD_HEAD).ok_or(Damage::CutHead)?;
        let (code, width) = (i32::from_be_bytes([head[1], head[2], head[3], head[4]]), head[5] as usize);
        if code == -1 {
            return Err(Damage::CodeMinusOne(live));
        }
        if width > 199 {
            return Err(Damage::Width(live));
        }
        let rows = pack.get(place + RECORD_HEAD..place + self.size(width)).ok_or(Damage::CutRows)?;
        if !rows.iter().all(|byte| is_row_byte(*byte, self.hardblank)) {
            return Err(Damage::RowByte(live));
        }
        Ok(Record { place, live, code, width })
    }

    pub fn live(&self) -> impl Iterator<Item = &Record> {
        self.records.iter().filter(|record| record.live)
    }

    pub fn find(&self, code: i32) -> Option<&Record> {
        self.live().find(|record| record.code == code)
    }

    /// "The first free record of the same width."
    pub fn free(&self, width: usize) -> Option<&Record> {
        self.records.iter().find(|record| !record.live && record.width == width)
    }

    /// "A letter of such a width or row byte or not Height times width long", or code -1.
    fn is_letter(&self, code: i32, width: usize, rows: &[u8]) -> bool {
        code != -1 && width <= 199 && rows.len() == self.height * width && rows.iter().all(|byte| is_row_byte(*byte, self.hardblank))
    }
}

/// "Behind the last record all is zero."
pub fn intact(pack: &[u8]) -> Result<Pack, Damage> {
    let mut read = head(pack)?;
    while pack[read.end..].iter().any(|byte| *byte != 0) {
        let record = read.next(pack)?;
        if record.live && read.find(record.code).is_some() {
            return Err(Damage::RepeatedCode);
        }
        read.end += read.size(record.width);
        read.records.push(record);
    }
    Ok(read)
}

pub fn read(pack: &[u8]) -> Result<Pack, Refusal> {
    intact(pack).or_else(|_| refuse(20, 0))
}

/// Height, and how many live records.
pub fn check(pack: &[u8]) -> u64 {
    packed(read(pack).map(|p| [0, p.height, p.live().count()]))
}

fn found(pack: &[u8], code: i32) -> Result<Record, Refusal> {
    let read = read(pack)?;
    if code == -1 {
        return refuse(17, 0);
    }
    read.find(code).copied().map_or_else(|| refuse(22, 0), Ok)
}

/// The place of the rows times 65,536, and the width.
pub fn find(pack: &[u8], code: i32) -> u64 {
    packed(found(pack, code).map(|record| [record.rows() >> 16, record.rows() & 0xffff, record.width]))
}

/// Where a letter is put, or why not: "20; 17; 21; 23".
fn place_for(pack: &[u8], code: i32, width: usize, rows: &[u8]) -> Result<usize, Refusal> {
    let read = read(pack)?;
    if !read.is_letter(code, width, rows) {
        return refuse(17, 0);
    }
    if read.find(code).is_some() {
        return refuse(21, 0);
    }
    match read.free(width) {
        Some(record) => Ok(record.place),
        None if read.end + read.size(width) <= pack.len() => Ok(read.end),
        None => refuse(23, 0),
    }
}

/// "It writes 1, code, width and rows .. every other byte stays."
pub fn put(pack: &mut [u8], code: i32, width: usize, rows: &[u8]) -> u64 {
    let place = place_for(pack, code, width, rows);
    if let Ok(place) = place {
        let record = [&[LIVE][..], &code.to_be_bytes(), &[width as u8], rows].concat();
        pack[place..place + record.len()].copy_from_slice(&record);
    }
    packed(place.map(|_| [0, 0, 0]))
}

/// "Remove changes only the 1 to 2."
pub fn remove(pack: &mut [u8], code: i32) -> u64 {
    let record = found(pack, code);
    if let Ok(record) = record {
        pack[record.place] = FREE;
    }
    packed(record.map(|_| [0, 0, 0]))
}

/// "Compact drops free records, keeps the live ones in order."
pub fn compact(pack: &mut [u8]) -> u64 {
    let read = read(pack);
    if let Ok(read) = &read {
        let bytes = |record: &Record| pack[record.place..record.place + read.size(record.width)].to_vec();
        let mut left: Vec<u8> = pack[..HEAD].iter().copied().chain(read.live().flat_map(bytes)).collect();
        left.resize(pack.len(), 0);
        pack.copy_from_slice(&left);
    }
    packed(read.map(|_| [0, 0, 0]))
}

/// What is drawn, with layout and direction as a header's numbers.
#[derive(Clone, Copy)]
pub struct Request<'a> {
    pub pack: &'a [u8],
    pub layout: usize,
    pub direction: usize,
    pub control: &'a [u8],
    pub text: &'a [u8],
}

impl Request<'_> {
    /// The pack as a font of its live records, whose rows lie in the pack.
    pub fn font(&self, read: &Pack) -> Font {
        let header = Header {
            hardblank: read.hardblank,
            height: read.height,
            max_length: 200,
            comment_lines: 0,
            right_to_left: self.direction == 1,
            layout: full_layout(self.layout),
            full_layout: Some(self.layout),
        };
        let character = |record: &Record| Character {
            code: record.code,
            width: record.width,
            rows: (0..read.height).map(|row| record.rows() + row * record.width).collect(),
        };
        Font { header, characters: read.live().map(character).collect() }
    }

    /// "9 (scratch), 20, 17 (layout of bad shape), the control file's, 15, 16, 9 (out)."
    fn answer(&self, scratch: usize, out: &mut [u8]) -> Result<[usize; 3], Refusal> {
        if scratch < 32000 {
            return refuse(9, 0);
        }
        let read = read(self.pack)?;
        if self.layout > 32767 || self.direction > 1 {
            return refuse(17, 0);
        }
        let (font, control) = (self.font(&read), control::read(self.control)?);
        if self.text.len() > 1024 {
            return refuse(15, 0);
        }
        let line = line(self.pack, &font, &control, self.text);
        if line.width > 1000 {
            return refuse(16, 0);
        }
        output(&shown(&line, read.hardblank), out)?;
        let [stood_in, nothing] = replaced(&font, &control, self.text);
        Ok([nothing, stood_in, line.width])
    }
}

/// As `draw`, from a pack.
pub fn draw_pack(request: &Request, scratch: &mut [u8], out: &mut [u8]) -> u64 {
    scratch.fill(0);
    out.fill(0);
    packed(request.answer(scratch.len(), out))
}
