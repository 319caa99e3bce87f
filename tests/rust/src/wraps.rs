//! Random texts to wrap, with limits near what their words and characters need, and areas on both sides of what they must have.
use crate::compared::{about, out_room};
use crate::plain::draw::{line, look_up};
use crate::plain::wrap::{self, Areas, Request, Wrapped};
use crate::plain::Refusal;
use crate::random::Random;

const LETTERS: &[u8] = b"abcdABCD|/_";
/// Bytes that few fonts have: nothing is drawn for them, or code 0 stands in.
const RARE: &[u8] = &[0, 1, 7, 10, 27, 128, 160, 200, 255];
/// Control files that map the blank, or to it, or letters to others of another width.
const CONTROLS: &[&[u8]] = &[b"t \\  \\200", b"t \\  \\0", b"t \\  x", b"t a \\ \nt b \\ ", b"t a-d A-D\nt A-D a-d", b"t a \\-1\nt b \\0\n1 65"];
const LIMITS: &[usize] = &[0, 0, 1, 1, 1, 999, 1000, 1000, 1001, 1001, 65536, 65537, 1 << 32, usize::MAX];

/// The control file of a text: sometimes one of these in place of another.
pub fn control<'a>(r: &mut Random, other: &'a [u8]) -> &'a [u8] {
    if r.one_in(6) {
        r.pick(CONTROLS)
    } else {
        other
    }
}

fn byte(r: &mut Random, rare: bool) -> u8 {
    match r.below(10) {
        0..=4 if rare => r.pick(RARE),
        0 => r.pick(RARE),
        1..=3 => r.between(33, 126) as u8,
        _ => r.pick(LETTERS),
    }
}

/// Words of some lengths with blanks between them, until there are so many bytes; sometimes blanks at both ends.
fn words(r: &mut Random, longest: usize, room: usize) -> Vec<u8> {
    let (rare, gap) = (r.one_in(6), r.pick(&[1, 1, 1, 2, 5]));
    let mut text = vec![b' '; r.below(3) * r.below(2)];
    while text.len() < room {
        let (length, blanks) = (r.between(1, longest), r.between(1, gap));
        text.extend((0..length).map(|_| byte(r, rare)));
        text.extend(vec![b' '; blanks]);
    }
    text.truncate(room);
    if r.one_in(2) {
        text.truncate(text.iter().rposition(|b| *b != b' ').map_or(0, |k| k + 1));
    }
    text
}

/// A text: mostly of a few words, sometimes of none or of one, and sometimes as long as a text may be, in long words or in short ones.
pub fn text(r: &mut Random) -> Vec<u8> {
    match r.below(200) {
        0 | 1 => vec![r.pick(LETTERS); r.pick(&[1023, 1024, 1024, 1024, 1025, 1026])],
        2 => {
            let room = r.between(1023, 1025);
            b"a b ".iter().copied().cycle().take(room).collect()
        }
        3 | 4 => {
            let (longest, room) = (r.pick(&[1, 3, 20, 300]), r.between(1000, 1026));
            words(r, longest, room)
        }
        5..=9 => vec![b' '; r.below(5)],
        10..=29 => {
            let length = r.below(40);
            (0..length).map(|_| byte(r, false)).collect()
        }
        _ => {
            let (longest, room) = (r.pick(&[1, 2, 4, 4, 12]), r.below(40));
            words(r, longest, room)
        }
    }
}

/// The width of something in the text: of a character, or of words from the start of one to the end of one.
fn some_width(r: &mut Random, request: &Request, files: &wrap::Files) -> usize {
    let words = wrap::words(&request.text[..request.text.len().min(200)]);
    if words.is_empty() {
        return 1;
    }
    let from = r.below(words.len());
    let (first, last) = (words[from], words[r.between(from, words.len() - 1)]);
    if r.one_in(3) || request.text.len() > 1000 && r.one_in(2) {
        let byte = request.text[r.between(first.first, first.end - 1)];
        return look_up(&files.font, &files.control, byte).character().map_or(0, |c| c.width);
    }
    line(request.font, &files.font, &files.control, &request.text[first.first..last.end]).width
}

/// A limit for a request, whose own does not count: mostly about as wide as some of the words.
pub fn limit(r: &mut Random, request: &Request) -> usize {
    match (r.below(20), request.files()) {
        (0, _) => r.pick(LIMITS),
        (1..=8, _) if request.text.len() > 1024 => r.pick(LIMITS),
        (1, _) => r.between(1, 1000),
        (2..=4, _) | (_, Err(_)) => r.between(1, 30),
        (_, Ok(files)) => {
            let width = some_width(r, request, &files);
            r.pick(&[width, width, width, width + 1, width.saturating_sub(1)]).clamp(1, 1000)
        }
    }
}

/// Areas for a request that comes to this, with former contents: mostly to the byte, sometimes short.
pub fn areas(r: &mut Random, comes_to: &Result<Wrapped, Refusal>) -> Areas {
    let needed = comes_to.as_ref().ok().map(|wrapped| wrapped.drawn.len());
    let out = out_room(r, needed, |r| r.below(60) * r.below(2));
    let (scratch, firsts, ends) = (about(r, 32000), about(r, 1024), about(r, 1024));
    let list = |r: &mut Random, length: usize| (0..length).map(|_| r.next() as usize).collect();
    Areas { scratch: r.bytes(scratch), firsts: list(r, firsts), ends: list(r, ends), out: r.bytes(out) }
}
