//! Compares drawings by two fonts, and beside them the drawings of the first font alone where the two must be the same.
use crate::compared::{differ, drawn, rooms, shown, used, with_rooms, Count, Input};
use crate::met::Met;
use crate::plain::two::{self, Request};
use crate::plain::Refusal;
use crate::random::Random;
use crate::{calls, two_met, twos};

fn input(q: &Request) -> Input {
    vec![("first", shown(q.first)), ("second", shown(q.second)), ("control", shown(q.control)), ("text", shown(q.text))]
}

/// What a request comes to in areas that are large enough: how long its output is, or its refusal.
fn comes_to(q: &Request) -> Result<usize, Refusal> {
    let mut out = vec![0; 33000];
    match calls::apart(two::draw_two(q, &mut vec![0; 32000], &mut out)) {
        Ok(_) => Ok(used(&out)),
        Err((number, place)) => Err(Refusal { number, place }),
    }
}

/// "With the same font twice every answer is that font's; a text whose codes the first font has is drawn as by the first alone": into areas of the same sizes.
fn as_one(r: &mut Random, q: &Request, answer: u64, [scratch, out]: [&[u8]; 2], met: &mut Met) {
    if q.first != q.second && !two_met::is_covered(q) {
        return;
    }
    let (mut s, mut own) = (r.bytes(scratch.len()), r.bytes(out.len()));
    let alone = calls::draw(q.first, q.control, q.text, &mut s, &mut own);
    if alone != answer || own != out || s != scratch {
        differ("draw_two and draw", &with_rooms(input(q), [scratch.len(), out.len()]), (answer, &[out, scratch]), (alone, &[&own, &s]));
    }
    two_met::as_one(q, calls::number(answer), met);
}

/// One drawing; `own` are two fonts that go together.
pub fn round(r: &mut Random, own: [&[u8]; 2], count: &mut Count, met: &mut Met) {
    let made = twos::made(r, own);
    let q = Request { first: &made.first, second: &made.second, control: &made.control, text: &made.text };
    let comes_to = comes_to(&q);
    let mut sizes = rooms(r, 32000, |s, o| two::draw_two(&q, s, o));
    if comes_to.is_err() && r.one_in(4) {
        sizes[1] = 0;
    }
    let (x, [s, a]) = drawn(r, "draw_two", sizes, || input(&q), |s, o| calls::draw_two(&q, s, o), |s, o| two::draw_two(&q, s, o));
    count.add(x);
    two_met::draw(&q, x, sizes, comes_to, met);
    as_one(r, &q, x, [&s, &a], met);
}
