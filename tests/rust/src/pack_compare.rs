//! Compares the calls on packs: changes of one pack one after another, drawings from any pack, and drawings from a pack of a font's characters beside the font's.
use crate::compared::{differ, drawn, rooms, shown, Count};
use crate::met::Met;
use crate::plain::font::{self, Font};
use crate::plain::pack;
use crate::plain::pairs::{Layout, Smushing};
use crate::random::Random;
use crate::{calls, inputs, pack_met, packs, wraps};

/// Compares one call on two copies of a pack, answer and every byte.
fn same(name: &str, input: String, packs: [&mut [u8]; 2], [x, y]: [u64; 2], count: &mut Count) {
    let [a, b] = packs;
    if x != y || a != b {
        differ(name, &[("input", input)], (x, &[a]), (y, &[b]));
    }
    count.add(x);
}

/// One call on a pack, of those that read one and those that change one; `counts` are theirs, from check on.
fn pack_step(r: &mut Random, a: &mut [u8], b: &mut [u8], counts: &mut [Count], met: &mut Met) {
    let (before, read) = (b.to_vec(), pack::intact(b).ok());
    let code = packs::code(r, &read);
    let input = format!("{code} {}", shown(&before));
    match r.below(12) {
        0 => {
            let answers = [calls::pack_compact(a), pack::compact(b)];
            same("pack_compact", input, [a, b], answers, &mut counts[4]);
            pack_met::compact(&before, met);
        }
        1..=3 => {
            let answers = [calls::pack_remove(a, code), pack::remove(b, code)];
            same("pack_remove", input, [a, b], answers, &mut counts[3]);
            pack_met::sought(&before, code, met, true);
        }
        4..=6 => {
            let answers = [calls::pack_find(a, code), pack::find(b, code)];
            same("pack_find", input, [a, b], answers, &mut counts[1]);
            pack_met::sought(&before, code, met, false);
        }
        _ => {
            let letter = packs::letter(r, &read, before.len());
            let answers = [calls::pack_put(a, letter.code, letter.width, &letter.rows), pack::put(b, letter.code, letter.width, &letter.rows)];
            same("pack_put", format!("{letter:?} {input}"), [a, b], answers, &mut counts[2]);
            pack_met::put(&before, &letter, answers[0], met);
        }
    }
}

/// A pack, intact or damaged, is checked and then changed by some calls one after another.
fn compare_packs(r: &mut Random, counts: &mut [Count], cases: &mut [Met]) {
    let mut a = packs::pack(r);
    if r.one_in(3) {
        packs::damage(r, &mut a);
    }
    let mut b = a.clone();
    for _ in 0..r.between(1, 8) {
        let answers = [calls::pack_check(&a), pack::check(&b)];
        same("pack_check", shown(&b), [&mut a, &mut b], answers, &mut counts[0]);
        pack_met::check(&b, &mut cases[0]);
        pack_step(r, &mut a, &mut b, counts, &mut cases[1]);
    }
}

fn compare_draw_pack(r: &mut Random, q: &pack::Request, count: &mut Count, met: &mut Met) -> (u64, usize, Vec<u8>) {
    let sizes = rooms(r, 32000, |s, o| pack::draw_pack(q, s, o));
    let input = || {
        let by = format!("{}, {}", q.layout, q.direction);
        vec![("pack", shown(q.pack)), ("layout, direction", by), ("control", shown(q.control)), ("text", shown(q.text))]
    };
    let (x, [_, a]) = drawn(r, "draw_pack", sizes, input, |s, o| calls::draw_pack(q, s, o), |s, o| pack::draw_pack(q, s, o));
    count.add(x);
    pack_met::draw(q, x, sizes[0], met);
    (x, sizes[0], a)
}

/// "With a font's own it equals drawing from that font": a font's layout as a Full_Layout.
fn own_layout(font: &Font) -> usize {
    font.header.full_layout.unwrap_or(match font.header.layout {
        Layout::FullWidth => 0,
        Layout::Fitting => 64,
        Layout::Smushing(Smushing::Universal) => 128,
        Layout::Smushing(Smushing::Controlled(rules)) => 128 + rules as usize,
    })
}

/// A text drawn from a pack of a font's characters, and from the font into areas of the same sizes.
fn compare_with_font(r: &mut Random, bytes: &[u8], control: &[u8], text: &[u8], count: &mut Count, met: &mut Met) {
    let Ok(font) = font::read(bytes) else { return };
    let Some(made) = packs::of_font(r, bytes, &font) else { return };
    let q = pack::Request { pack: &made, layout: own_layout(&font), direction: font.header.right_to_left as usize, control, text };
    let (answer, scratch, from_pack) = compare_draw_pack(r, &q, count, met);
    let (mut s, mut out) = (r.bytes(scratch), r.bytes(from_pack.len()));
    let own = calls::draw(bytes, control, text, &mut s, &mut out);
    if own != answer || out != from_pack {
        let input = [("font", shown(bytes)), ("pack", shown(&made)), ("control", shown(control)), ("text", shown(text))];
        differ("draw_pack and draw", &input, (answer, &[&from_pack]), (own, &[&out]));
    }
    pack_met::same_as_font(&q, font.header.full_layout.is_none(), answer, met);
}

/// A text of letters that most packs have, sometimes many.
fn pack_text(r: &mut Random) -> Vec<u8> {
    let length = if r.one_in(12) { r.between(100, 1026) } else { r.below(12) };
    (0..length).map(|_| r.pick(b"abcdABCD|_ \0\x01\xff")).collect()
}

/// What the calls on packs are compared by: changes of packs, a drawing from a pack of any letters, and one from a pack of the font's.
pub fn round(r: &mut Random, font: &[u8], control: &[u8], counts: &mut [Count], cases: &mut [Met]) {
    for _ in 0..3 {
        compare_packs(r, counts, cases);
    }
    let (mut made, text) = (packs::pack(r), pack_text(r));
    if r.one_in(8) {
        packs::damage(r, &mut made);
    }
    let q = pack::Request { pack: &made, layout: inputs::layout(r), direction: packs::direction(r), control, text: &text };
    compare_draw_pack(r, &q, &mut counts[5], &mut cases[2]);
    let text = if r.one_in(2) { inputs::text(r) } else { wraps::text(r) };
    compare_with_font(r, font, control, &text, &mut counts[5], &mut cases[2]);
}
