//! A plain implementation of document 01 and of the requests of document 02, written from those papers and sharing no code with the crates: short, and not fast.
pub mod check;
pub mod control;
pub mod draw;
pub mod font;
pub mod header;
pub mod join;
pub mod lines;
pub mod numbers;
pub mod pack;
pub mod pairs;
pub mod stack;
pub mod two;
pub mod wrap;

/// "A refusal answers its number and place."
#[derive(Clone, Copy, PartialEq, Eq, Debug)]
pub struct Refusal {
    pub number: u64,
    pub place: u64,
}

pub fn refuse<T>(number: u64, place: usize) -> Result<T, Refusal> {
    Err(Refusal { number, place: place as u64 })
}

/// An answer as one number: 0 in the upper 16 bits and three values of 16 bits, or a refusal's number above its place.
pub fn packed(answer: Result<[usize; 3], Refusal>) -> u64 {
    match answer {
        Ok([a, b, c]) => (a as u64) << 32 | (b as u64) << 16 | c as u64,
        Err(r) => r.number << 48 | r.place,
    }
}

/// What is put out, and 9 for an output that has no room for it.
pub fn output(bytes: &[u8], out: &mut [u8]) -> Result<(), Refusal> {
    if out.len() < bytes.len() {
        return refuse(9, 0);
    }
    out[..bytes.len()].copy_from_slice(bytes);
    Ok(())
}

/// Height and count of characters of a font.
pub fn check_font(font: &[u8]) -> u64 {
    packed(font::read(font).map(|f| [0, f.header.height, f.characters.len()]))
}

/// Counts of stages and commands of a control file.
pub fn check_control(file: &[u8]) -> u64 {
    packed(control::read(file).map(|c| [0, c.stages, c.commands.len()]))
}
