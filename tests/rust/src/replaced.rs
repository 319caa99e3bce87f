//! What the random drawings met of request Q-2: bytes that are found, stood in or draw nothing, where they come from, and the refusals that tell neither.
//! That one text has bytes of the second and of the third group is no case: a font has a code 0, which stands in for all, or has none.
use crate::calls;
use crate::met::Met;
use crate::plain::control::{self, Control};
use crate::plain::draw;
use crate::plain::font::{self, Font, LookUp};
use crate::plain::pairs::{Layout, Smushing};

pub const CASES: &[&str] = &[
    "an empty text",
    "every byte found",
    "some bytes stood in",
    "every byte stood in, of several",
    "some bytes drew nothing",
    "every byte drew nothing, of several",
    "a byte stood in twice",
    "a byte drew nothing twice",
    // Where a byte of the group came from.
    "text byte 0 found",
    "text byte 0 drew nothing",
    "mapped to code 0, which is found",
    "mapped to a code that is missing, stood in",
    "mapped to a code that is missing, nothing drawn",
    "missing, mapped to a code that is there",
    "code -1 stood in",
    "found with width 0",
    "stood in with width 0",
    "stood in by the last of several codes 0",
    // The layout, which decides no count.
    "stood in, full width",
    "stood in, fitting",
    "stood in, universal",
    "stood in, controlled",
    "stood in, right to left",
    "nothing drawn, right to left",
    // Refusals with such bytes in the text.
    "9 for the scratch, a byte would be stood in",
    "9 for the scratch, a byte would draw nothing",
    "15, a byte would be stood in",
    "15, a byte would draw nothing",
    "16, a byte would be stood in",
    "16, a byte would draw nothing",
    "9 for the output, a byte would be stood in",
    "9 for the output, a byte would draw nothing",
];

fn twice(bytes: &[u8]) -> bool {
    (1..bytes.len()).any(|k| bytes[..k].contains(&bytes[k]))
}

/// Where each byte came from.
fn byte(font: &Font, control: &Control, byte: u8, met: &mut Met) {
    let code = control.map(byte as i32);
    let (mapped, has) = (code != byte as i32, |code: i32| font.characters.iter().filter(|c| c.code == code).count());
    match draw::look_up(font, control, byte) {
        LookUp::Itself(character) => {
            met.add_if(!mapped && code == 0, "text byte 0 found");
            met.add_if(mapped && code == 0, "mapped to code 0, which is found");
            met.add_if(mapped && has(byte as i32) == 0, "missing, mapped to a code that is there");
            met.add_if(character.width == 0, "found with width 0");
        }
        LookUp::StoodIn(character) => {
            met.add_if(mapped && has(byte as i32) > 0, "mapped to a code that is missing, stood in");
            met.add_if(code == -1, "code -1 stood in");
            met.add_if(character.width == 0, "stood in with width 0");
            met.add_if(has(0) > 1, "stood in by the last of several codes 0");
        }
        LookUp::Nothing => {
            met.add_if(!mapped && code == 0, "text byte 0 drew nothing");
            met.add_if(mapped && has(byte as i32) > 0, "mapped to a code that is missing, nothing drawn");
        }
    }
}

fn drawn(font: &Font, text: &[u8], stood_in: &[u8], nothing: &[u8], met: &mut Met) {
    let several = text.len() > 1;
    met.add_if(text.is_empty(), "an empty text");
    met.add_if(several && stood_in.is_empty() && nothing.is_empty(), "every byte found");
    met.add_if(!stood_in.is_empty() && stood_in.len() < text.len(), "some bytes stood in");
    met.add_if(several && stood_in.len() == text.len(), "every byte stood in, of several");
    met.add_if(!nothing.is_empty() && nothing.len() < text.len(), "some bytes drew nothing");
    met.add_if(several && nothing.len() == text.len(), "every byte drew nothing, of several");
    met.add_if(twice(stood_in), "a byte stood in twice");
    met.add_if(twice(nothing), "a byte drew nothing twice");
    met.add_if(font.header.right_to_left && !nothing.is_empty(), "nothing drawn, right to left");
    if stood_in.is_empty() {
        return;
    }
    met.add_if(font.header.right_to_left, "stood in, right to left");
    met.add(match font.header.layout {
        Layout::FullWidth => "stood in, full width",
        Layout::Fitting => "stood in, fitting",
        Layout::Smushing(Smushing::Universal) => "stood in, universal",
        Layout::Smushing(Smushing::Controlled(_)) => "stood in, controlled",
    });
}

/// What a drawing met; its answer and the scratch that it was lent.
pub fn draw(font: &[u8], control: &[u8], text: &[u8], answer: u64, scratch: usize, met: &mut Met) {
    let (Ok(font), Ok(control)) = (font::read(font), control::read(control)) else { return };
    let group = |of: fn(&LookUp) -> bool| text.iter().copied().filter(|b| of(&draw::look_up(&font, &control, *b))).collect();
    let stood_in: Vec<u8> = group(|found| matches!(found, LookUp::StoodIn(_)));
    let nothing: Vec<u8> = group(|found| matches!(found, LookUp::Nothing));
    let names = match calls::number(answer) {
        9 if scratch < 32000 => ["9 for the scratch, a byte would be stood in", "9 for the scratch, a byte would draw nothing"],
        9 => ["9 for the output, a byte would be stood in", "9 for the output, a byte would draw nothing"],
        15 => ["15, a byte would be stood in", "15, a byte would draw nothing"],
        16 => ["16, a byte would be stood in", "16, a byte would draw nothing"],
        _ => {
            text.iter().for_each(|b| byte(&font, &control, *b, met));
            return drawn(&font, text, &stood_in, &nothing, met);
        }
    };
    met.add_if(!stood_in.is_empty(), names[0]);
    met.add_if(!nothing.is_empty(), names[1]);
}
