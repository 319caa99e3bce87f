//! What the comparisons share: the counts of answers, how a difference is told, the sizes of areas, and how both implementations are asked for a drawing.
use crate::calls;
use crate::random::Random;
use std::process::exit;

/// How often a call was made and how often each refusal came; 0 is success.
pub struct Count {
    name: &'static str,
    /// The refusals that it can give.
    refusals: &'static [u64],
    answers: [u64; 26],
}

impl Count {
    pub fn new((name, refusals): (&'static str, &'static [u64])) -> Count {
        Count { name, refusals, answers: [0; 26] }
    }

    pub fn add(&mut self, answer: u64) {
        self.answers[calls::number(answer) as usize] += 1;
    }

    /// Prints the counts; how many of the refusals that it can give never came.
    pub fn print(&self) -> usize {
        let total: u64 = self.answers.iter().sum();
        print!("{}: {total}, of these {} not refused", self.name, self.answers[0]);
        for (number, times) in self.answers.iter().enumerate().skip(1).filter(|(_, t)| **t > 0) {
            print!(", {number}: {times}");
        }
        println!();
        let never: Vec<&u64> = self.refusals.iter().filter(|n| self.answers[**n as usize] == 0).collect();
        if !never.is_empty() {
            println!("  NEVER MET: {never:?}");
        }
        never.len()
    }
}

pub fn shown(bytes: &[u8]) -> String {
    format!("b\"{}\"", bytes.escape_ascii())
}

/// What a call was given, each thing with its name.
pub type Input = Vec<(&'static str, String)>;

/// With the sizes of scratch and output.
pub fn with_rooms(mut input: Input, [scratch, out]: [usize; 2]) -> Input {
    input.extend([("scratch room", scratch.to_string()), ("out room", out.to_string())]);
    input
}

/// Prints a difference and ends the program.
pub fn differ(call: &str, input: &[(&str, String)], proved: (u64, &[&[u8]]), plain: (u64, &[&[u8]])) -> ! {
    println!("{call} differs");
    for (name, value) in input {
        println!("  {name} = {value}");
    }
    for (who, (answer, areas)) in [("proved", proved), ("plain", plain)] {
        println!("  {who}: answer {:?}", calls::apart(answer));
        for area in areas {
            println!("    area {}", shown(area));
        }
    }
    exit(1)
}

/// How long a list is without the zeros at its end.
pub fn used<T: Default + PartialEq>(list: &[T]) -> usize {
    list.iter().rposition(|entry| *entry != T::default()).map_or(0, |k| k + 1)
}

/// Nearly always what an area must have at least, sometimes a little less or more.
pub fn about(r: &mut Random, least: usize) -> usize {
    if r.one_in(20) {
        r.between(least - 2, least + 1)
    } else {
        least
    }
}

/// The size of an output: mostly to the byte, sometimes short or larger; `refused` says it where nothing is drawn.
pub fn out_room(r: &mut Random, needed: Option<usize>, refused: impl Fn(&mut Random) -> usize) -> usize {
    match (r.below(24), needed) {
        (_, None) => refused(r),
        (0, Some(needed)) => needed.saturating_sub(1),
        (1, Some(needed)) => r.below(needed + 1),
        (2, Some(needed)) => needed + r.below(100),
        (_, Some(needed)) => needed,
    }
}

/// The sizes of scratch and output. `draw` draws into areas that are large enough, and `least` is what the scratch must have.
pub fn rooms(r: &mut Random, least: usize, draw: impl Fn(&mut [u8], &mut [u8]) -> u64) -> [usize; 2] {
    let scratch = about(r, least);
    let mut out = vec![0; 66000];
    let answer = draw(&mut vec![0; least], &mut out);
    let needed = (calls::number(answer) == 0).then(|| used(&out));
    [scratch, out_room(r, needed, |r| r.below(100))]
}

/// Asks both implementations for a drawing, into areas of these sizes with the same former contents. A difference is told with the input; else the answer, and what the
/// proved one left in scratch and output.
pub fn drawn(
    r: &mut Random,
    call: &str,
    rooms: [usize; 2],
    input: impl Fn() -> Input,
    proved: impl Fn(&mut [u8], &mut [u8]) -> u64,
    plain: impl Fn(&mut [u8], &mut [u8]) -> u64,
) -> (u64, [Vec<u8>; 2]) {
    let (mut s, mut a) = (r.bytes(rooms[0]), r.bytes(rooms[1]));
    let (mut t, mut b) = (s.clone(), a.clone());
    let (x, y) = (proved(&mut s, &mut a), plain(&mut t, &mut b));
    if x != y || a != b || s != t {
        differ(call, &with_rooms(input(), rooms), (x, &[&a, &s]), (y, &[&b, &t]));
    }
    (x, [s, a])
}
