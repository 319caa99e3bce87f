//! Compares checks of drawings, and beside them that what the proved drawing puts out is accepted with its overlaps.
use crate::cases::{banner_font, HEADER};
use crate::compared::{about, differ, shown, Count};
use crate::met::Met;
use crate::plain::check::{self, Request, Right};
use crate::random::Random;
use crate::{calls, check_met, checks};

fn input(q: &Request, scratch: usize) -> [(&'static str, String); 6] {
    [
        ("font", shown(q.font)),
        ("control", shown(q.control)),
        ("text", shown(q.text)),
        ("figure", shown(q.figure)),
        ("overlaps", format!("{:?}", q.overlaps)),
        ("scratch room", scratch.to_string()),
    ]
}

/// "What draw puts out with the overlaps of its trace is accepted": the proved drawing, and the overlaps of the plain one.
fn draws(r: &mut Random, q: &Request, right: &Right, met: &mut Met) {
    let (mut scratch, mut out) = (r.bytes(32000), vec![0; right.figure.len()]);
    let drawn = calls::draw(q.font, q.control, q.text, &mut scratch, &mut out);
    let own = Request { figure: &out, overlaps: &right.overlaps, ..*q };
    let answer = calls::check_drawing(&own, &mut scratch);
    if calls::number(drawn) != 0 || answer != 0 {
        differ("check_drawing and draw", &input(&own, 32000), (answer, &[]), (drawn, &[&out]));
    }
    met.add("what draw puts out, accepted");
}

/// One check; `own` is a font.
pub fn round(r: &mut Random, own: &[u8], count: &mut Count, met: &mut Met) {
    let made = checks::made(r, own, &banner_font(HEADER, "\n"));
    let bare = Request { font: &made.font, control: &made.control, text: &made.text, figure: b"\n", overlaps: &[] };
    let right = bare.right();
    let hardblank = made.font.get(5).copied().unwrap_or(b'$');
    let (figure, overlaps) = match &right {
        Ok(right) => (checks::figure(r, right, hardblank), checks::overlaps(r, right)),
        Err(_) => (r.bytes(9), checks::any_overlaps(r, &made.text)),
    };
    let q = Request { figure: &figure, overlaps: &overlaps, ..bare };
    let room = about(r, 32000);
    let mut s = r.bytes(room);
    let mut t = s.clone();
    let x = calls::check_drawing(&q, &mut s);
    let y = check::check_drawing(&q, &mut t);
    if x != y || s != t {
        differ("check_drawing", &input(&q, room), (x, &[&s]), (y, &[&t]));
    }
    count.add(x);
    check_met::check(&q, x, room, &right, met);
    if let (Ok(right), 0) = (&right, calls::number(x)) {
        draws(r, &q, right, met);
    }
}
