//! Drawing a line of text, and two of them one above the other: "9 for all working areas, the font's, the control file's, 15, 16, then 9 for the output".
use super::control::{self, Control};
use super::font::{self, Character, Font, LookUp};
use super::join::{put, Block};
use super::stack;
use super::{output, packed, refuse, Refusal};

pub fn block(font: &[u8], character: &Character) -> Block {
    let rows = character.rows.iter().map(|at| font[*at..*at + character.width].to_vec()).collect();
    Block { width: character.width, rows }
}

/// What is found for a text byte: "drawing maps each text byte's code, looks it up".
pub fn look_up<'a>(font: &'a Font, control: &Control, byte: u8) -> LookUp<'a> {
    font.look_up(control.map(byte as i32))
}

/// "How many text bytes are in the second and in the third group": stood in, and nothing.
pub fn replaced(font: &Font, control: &Control, text: &[u8]) -> [usize; 2] {
    let count = |group: fn(&LookUp) -> bool| text.iter().filter(|byte| group(&look_up(font, control, **byte))).count();
    [count(|found| matches!(found, LookUp::StoodIn(_))), count(|found| matches!(found, LookUp::Nothing))]
}

/// How many bytes at the start of a text fit in a line of so many columns, and the line of these and of the byte that does not fit, where there is one: a line
/// never becomes narrower.
pub fn line_within(bytes: &[u8], font: &Font, control: &Control, text: &[u8], limit: usize) -> (usize, Block) {
    let mode = font.header.mode();
    let mut line = Block { width: 0, rows: vec![Vec::new(); font.header.height] };
    for (at, byte) in text.iter().enumerate() {
        if let Some(character) = look_up(font, control, *byte).character() {
            line = put(mode, &line, &block(bytes, character)).1;
        }
        if line.width > limit {
            return (at, line);
        }
    }
    (text.len(), line)
}

/// The line, or one wider than 1,000 as soon as there is one.
pub fn line(bytes: &[u8], font: &Font, control: &Control, text: &[u8]) -> Block {
    line_within(bytes, font, control, text, 1000).1
}

/// The files that were read, and the lines of some texts.
struct Lines {
    font: Font,
    control: Control,
    lines: Vec<Block>,
}

/// The lines of some texts, in one font: "9 for all working areas, the font's, the control file's, 15, 16", each of the last two for any of the texts.
fn lines(bytes: &[u8], file: &[u8], texts: &[&[u8]], scratch: usize) -> Result<Lines, Refusal> {
    if scratch < 32000 * texts.len() {
        return refuse(9, 0);
    }
    let font = font::read(bytes)?;
    let control = control::read(file)?;
    if texts.iter().any(|text| text.len() > 1024) {
        return refuse(15, 0);
    }
    let lines: Vec<Block> = texts.iter().map(|text| line(bytes, &font, &control, text)).collect();
    if lines.iter().any(|line| line.width > 1000) {
        return refuse(16, 0);
    }
    Ok(Lines { font, control, lines })
}

/// "Each row .., then LF."
fn rows(block: &Block) -> Vec<u8> {
    block.rows.iter().flat_map(|row| row.iter().copied().chain([b'\n'])).collect()
}

/// "Each row with hardblanks as blanks, then LF": what a line looks like.
pub fn shown(line: &Block, hardblank: u8) -> Vec<u8> {
    rows(&stack::made_ready(line, hardblank, line.width))
}

fn answer(bytes: &[u8], file: &[u8], text: &[u8], scratch: usize, out: &mut [u8]) -> Result<[usize; 3], Refusal> {
    let Lines { font, control, lines } = lines(bytes, file, &[text], scratch)?;
    output(&shown(&lines[0], font.header.hardblank), out)?;
    let [stood_in, nothing] = replaced(&font, &control, text);
    Ok([nothing, stood_in, lines[0].width])
}

fn stacked_answer(bytes: &[u8], file: &[u8], texts: [&[u8]; 2], scratch: usize, out: &mut [u8]) -> Result<[usize; 3], Refusal> {
    let Lines { font, lines, .. } = lines(bytes, file, &texts, scratch)?;
    let (overlap, result) = stack::put(font.header.vertical(), font.header.hardblank, &lines[0], &lines[1]);
    output(&rows(&result), out)?;
    Ok([overlap, result.rows.len(), result.width])
}

/// How many text bytes drew nothing, how many were stood in, and the width, with zeros behind the output and all through the scratch.
pub fn draw(font: &[u8], control: &[u8], text: &[u8], scratch: &mut [u8], out: &mut [u8]) -> u64 {
    scratch.fill(0);
    out.fill(0);
    packed(answer(font, control, text, scratch.len(), out))
}

/// Overlap, height and width of both texts' lines, the first above the second; zeros as in `draw`.
pub fn draw_stacked(font: &[u8], control: &[u8], upper: &[u8], lower: &[u8], scratch: &mut [u8], out: &mut [u8]) -> u64 {
    scratch.fill(0);
    out.fill(0);
    packed(stacked_answer(font, control, [upper, lower], scratch.len(), out))
}
