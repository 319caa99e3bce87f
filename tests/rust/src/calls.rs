//! The calls of the static library, in safe functions. They ask nothing of their input, so nothing is tested here.
use crate::plain::{check, join, pack, stack, two, wrap};

extern "C" {
    fn wattleslate_check_font(font: *const u8, font_len: usize) -> u64;
    fn wattleslate_check_control(file: *const u8, file_len: usize) -> u64;
    fn wattleslate_draw(
        font: *const u8,
        font_len: usize,
        control: *const u8,
        control_len: usize,
        text: *const u8,
        text_len: usize,
        scratch: *mut u8,
        scratch_len: usize,
        out: *mut u8,
        out_len: usize,
    ) -> u64;
    fn wattleslate_draw_wrapped(
        font: *const u8,
        font_len: usize,
        control: *const u8,
        control_len: usize,
        text: *const u8,
        text_len: usize,
        limit: usize,
        scratch: *mut u8,
        scratch_len: usize,
        firsts: *mut usize,
        firsts_len: usize,
        ends: *mut usize,
        ends_len: usize,
        out: *mut u8,
        out_len: usize,
    ) -> u64;
    fn wattleslate_join(
        line: *const u8,
        line_len: usize,
        line_width: usize,
        character: *const u8,
        character_len: usize,
        character_width: usize,
        height: usize,
        hardblank: u8,
        layout: usize,
        direction: usize,
        out: *mut u8,
        out_len: usize,
    ) -> u64;
    fn wattleslate_stack(
        upper: *const u8,
        upper_len: usize,
        upper_width: usize,
        upper_height: usize,
        lower: *const u8,
        lower_len: usize,
        lower_width: usize,
        lower_height: usize,
        hardblank: u8,
        layout: usize,
        out: *mut u8,
        out_len: usize,
    ) -> u64;
    fn wattleslate_draw_stacked(
        font: *const u8,
        font_len: usize,
        control: *const u8,
        control_len: usize,
        upper: *const u8,
        upper_len: usize,
        lower: *const u8,
        lower_len: usize,
        scratch: *mut u8,
        scratch_len: usize,
        out: *mut u8,
        out_len: usize,
    ) -> u64;
    fn wattleslate_pack_check(pack: *const u8, pack_len: usize) -> u64;
    fn wattleslate_pack_find(pack: *const u8, pack_len: usize, code: i32) -> u64;
    fn wattleslate_pack_put(pack: *mut u8, pack_len: usize, code: i32, width: usize, rows: *const u8, rows_len: usize) -> u64;
    fn wattleslate_pack_remove(pack: *mut u8, pack_len: usize, code: i32) -> u64;
    fn wattleslate_pack_compact(pack: *mut u8, pack_len: usize) -> u64;
    fn wattleslate_draw_pack(
        pack: *const u8,
        pack_len: usize,
        layout: usize,
        direction: usize,
        control: *const u8,
        control_len: usize,
        text: *const u8,
        text_len: usize,
        scratch: *mut u8,
        scratch_len: usize,
        out: *mut u8,
        out_len: usize,
    ) -> u64;
    fn wattleslate_draw_two(
        first: *const u8,
        first_len: usize,
        second: *const u8,
        second_len: usize,
        control: *const u8,
        control_len: usize,
        text: *const u8,
        text_len: usize,
        scratch: *mut u8,
        scratch_len: usize,
        out: *mut u8,
        out_len: usize,
    ) -> u64;
    fn wattleslate_check_drawing(
        font: *const u8,
        font_len: usize,
        control: *const u8,
        control_len: usize,
        text: *const u8,
        text_len: usize,
        figure: *const u8,
        figure_len: usize,
        overlaps: *const usize,
        overlaps_len: usize,
        scratch: *mut u8,
        scratch_len: usize,
    ) -> u64;
}

/// The bits of a place and of a value: an answer is a refusal's number above its place, or 0 above three values.
const PLACE_BITS: u32 = 48;
const VALUE_BITS: u32 = 16;

/// The three values of a success, or a refusal's number and place.
pub type Apart = Result<[u16; 3], (u64, u64)>;

/// A refusal's number, 0 for a success.
pub fn number(answer: u64) -> u64 {
    answer >> PLACE_BITS
}

pub fn apart(answer: u64) -> Apart {
    match number(answer) {
        0 => Ok([2, 1, 0].map(|k| (answer >> (k * VALUE_BITS)) as u16)),
        number => Err((number, answer & ((1 << PLACE_BITS) - 1))),
    }
}

pub fn check_font(font: &[u8]) -> u64 {
    // SAFETY: the pointer and the length are those of a slice.
    unsafe { wattleslate_check_font(font.as_ptr(), font.len()) }
}

pub fn check_control(file: &[u8]) -> u64 {
    // SAFETY: as above.
    unsafe { wattleslate_check_control(file.as_ptr(), file.len()) }
}

pub fn draw(font: &[u8], control: &[u8], text: &[u8], scratch: &mut [u8], out: &mut [u8]) -> u64 {
    // SAFETY: as above; two `&mut` slices never lie in one another.
    unsafe {
        wattleslate_draw(
            font.as_ptr(),
            font.len(),
            control.as_ptr(),
            control.len(),
            text.as_ptr(),
            text.len(),
            scratch.as_mut_ptr(),
            scratch.len(),
            out.as_mut_ptr(),
            out.len(),
        )
    }
}

pub fn draw_wrapped(r: &wrap::Request, areas: &mut wrap::Areas) -> u64 {
    // SAFETY: as above.
    unsafe {
        wattleslate_draw_wrapped(
            r.font.as_ptr(),
            r.font.len(),
            r.control.as_ptr(),
            r.control.len(),
            r.text.as_ptr(),
            r.text.len(),
            r.limit,
            areas.scratch.as_mut_ptr(),
            areas.scratch.len(),
            areas.firsts.as_mut_ptr(),
            areas.firsts.len(),
            areas.ends.as_mut_ptr(),
            areas.ends.len(),
            areas.out.as_mut_ptr(),
            areas.out.len(),
        )
    }
}

pub fn join(r: &join::Request, out: &mut [u8]) -> u64 {
    // SAFETY: as above.
    unsafe {
        wattleslate_join(
            r.line.as_ptr(),
            r.line.len(),
            r.line_width,
            r.character.as_ptr(),
            r.character.len(),
            r.character_width,
            r.height,
            r.hardblank,
            r.layout,
            r.direction,
            out.as_mut_ptr(),
            out.len(),
        )
    }
}

pub fn stack(r: &stack::Request, out: &mut [u8]) -> u64 {
    // SAFETY: as above.
    unsafe {
        wattleslate_stack(
            r.upper.as_ptr(),
            r.upper.len(),
            r.upper_width,
            r.upper_height,
            r.lower.as_ptr(),
            r.lower.len(),
            r.lower_width,
            r.lower_height,
            r.hardblank,
            r.layout,
            out.as_mut_ptr(),
            out.len(),
        )
    }
}

pub fn draw_stacked(font: &[u8], control: &[u8], upper: &[u8], lower: &[u8], scratch: &mut [u8], out: &mut [u8]) -> u64 {
    // SAFETY: as above.
    unsafe {
        wattleslate_draw_stacked(
            font.as_ptr(),
            font.len(),
            control.as_ptr(),
            control.len(),
            upper.as_ptr(),
            upper.len(),
            lower.as_ptr(),
            lower.len(),
            scratch.as_mut_ptr(),
            scratch.len(),
            out.as_mut_ptr(),
            out.len(),
        )
    }
}

pub fn pack_check(pack: &[u8]) -> u64 {
    // SAFETY: as above.
    unsafe { wattleslate_pack_check(pack.as_ptr(), pack.len()) }
}

pub fn pack_find(pack: &[u8], code: i32) -> u64 {
    // SAFETY: as above.
    unsafe { wattleslate_pack_find(pack.as_ptr(), pack.len(), code) }
}

pub fn pack_put(pack: &mut [u8], code: i32, width: usize, rows: &[u8]) -> u64 {
    // SAFETY: as above.
    unsafe { wattleslate_pack_put(pack.as_mut_ptr(), pack.len(), code, width, rows.as_ptr(), rows.len()) }
}

pub fn pack_remove(pack: &mut [u8], code: i32) -> u64 {
    // SAFETY: as above.
    unsafe { wattleslate_pack_remove(pack.as_mut_ptr(), pack.len(), code) }
}

pub fn pack_compact(pack: &mut [u8]) -> u64 {
    // SAFETY: as above.
    unsafe { wattleslate_pack_compact(pack.as_mut_ptr(), pack.len()) }
}

pub fn draw_pack(r: &pack::Request, scratch: &mut [u8], out: &mut [u8]) -> u64 {
    // SAFETY: as above.
    unsafe {
        wattleslate_draw_pack(
            r.pack.as_ptr(),
            r.pack.len(),
            r.layout,
            r.direction,
            r.control.as_ptr(),
            r.control.len(),
            r.text.as_ptr(),
            r.text.len(),
            scratch.as_mut_ptr(),
            scratch.len(),
            out.as_mut_ptr(),
            out.len(),
        )
    }
}

pub fn draw_two(r: &two::Request, scratch: &mut [u8], out: &mut [u8]) -> u64 {
    // SAFETY: as above; what is only read may be the same slice twice.
    unsafe {
        wattleslate_draw_two(
            r.first.as_ptr(),
            r.first.len(),
            r.second.as_ptr(),
            r.second.len(),
            r.control.as_ptr(),
            r.control.len(),
            r.text.as_ptr(),
            r.text.len(),
            scratch.as_mut_ptr(),
            scratch.len(),
            out.as_mut_ptr(),
            out.len(),
        )
    }
}

pub fn check_drawing(r: &check::Request, scratch: &mut [u8]) -> u64 {
    // SAFETY: as above.
    unsafe {
        wattleslate_check_drawing(
            r.font.as_ptr(),
            r.font.len(),
            r.control.as_ptr(),
            r.control.len(),
            r.text.as_ptr(),
            r.text.len(),
            r.figure.as_ptr(),
            r.figure.len(),
            r.overlaps.as_ptr(),
            r.overlaps.len(),
            scratch.as_mut_ptr(),
            scratch.len(),
        )
    }
}
