//! Compares the proved implementation with the plain one on random input: answers, and every byte of every lent area.
//! compare [SEED [TIMES]]: exits 1 at the first difference, after printing the input, or at the end where a refusal or a case was never met.
use std::process::exit;
use std::time::Instant;
use wattleslate_tests::compared::{differ, drawn, rooms, shown, used, Count};
use wattleslate_tests::met::{self, Drawing, Met};
use wattleslate_tests::plain::wrap::{self, Areas, Request};
use wattleslate_tests::random::Random;
use wattleslate_tests::wrapped::{self, Asked};
use wattleslate_tests::{
    calls, cases, check_compare, check_met, inputs, pack_compare, pack_met, plain, replaced, rows, stacks, two_compare, two_met, wraps,
};

const CALLS: [(&str, &[u64]); 15] = [
    ("join", &[9, 16, 17]),
    ("check_font", &[1, 2, 3, 4, 5, 6, 7, 8]),
    ("check_control", &[10, 11, 12, 13, 14]),
    ("draw", &[1, 2, 3, 4, 5, 6, 7, 8, 9, 10, 11, 12, 13, 14, 15, 16]),
    ("stack", &[9, 17, 18]),
    ("draw_stacked", &[1, 2, 3, 4, 5, 6, 7, 8, 9, 10, 11, 12, 13, 14, 15, 16]),
    ("draw_wrapped", &[1, 2, 3, 4, 5, 6, 7, 8, 9, 10, 11, 12, 13, 14, 15, 17, 19]),
    ("pack_check", &[20]),
    ("pack_find", &[17, 20, 22]),
    ("pack_put", &[17, 20, 21, 23]),
    ("pack_remove", &[17, 20, 22]),
    ("pack_compact", &[20]),
    ("draw_pack", &[9, 10, 11, 12, 13, 14, 15, 16, 17, 20]),
    ("draw_two", &[1, 2, 3, 4, 5, 6, 7, 8, 9, 10, 11, 12, 13, 14, 15, 16, 24]),
    ("check_drawing", &[1, 2, 3, 4, 5, 6, 7, 8, 9, 10, 11, 12, 13, 14, 15, 16, 25]),
];

fn compare_join(r: &mut Random, count: &mut Count) {
    let j = inputs::join(r);
    let (mut a, mut b) = (j.out.clone(), j.out.clone());
    let x = calls::join(&j.request(), &mut a);
    let y = plain::join::join(&j.request(), &mut b);
    if x != y || a != b {
        differ("join", &[("request", format!("{:?}", j.request())), ("room", j.out.len().to_string())], (x, &[&a]), (y, &[&b]));
    }
    count.add(x);
}

fn compare_stack(r: &mut Random, count: &mut Count, met: &mut Met) {
    let s = stacks::stack(r);
    let (mut a, mut b) = (s.out.clone(), s.out.clone());
    let x = calls::stack(&s.request(), &mut a);
    let y = plain::stack::stack(&s.request(), &mut b);
    if x != y || a != b {
        differ("stack", &[("request", format!("{:?}", s.request())), ("room", s.out.len().to_string())], (x, &[&a]), (y, &[&b]));
    }
    count.add(x);
    met::stack(&s.request(), x, s.out.len(), met);
}

fn compare_font(font: &[u8], count: &mut Count, met: &mut Met) {
    let (x, y) = (calls::check_font(font), plain::check_font(font));
    if x != y {
        differ("check_font", &[("font", shown(font))], (x, &[]), (y, &[]));
    }
    count.add(x);
    rows::font(font, x, met);
}

fn compare_control(file: &[u8], count: &mut Count) {
    let (x, y) = (calls::check_control(file), plain::check_control(file));
    if x != y {
        differ("check_control", &[("file", shown(file))], (x, &[]), (y, &[]));
    }
    count.add(x);
}

/// Cuts a long text where its line becomes too wide, or one byte behind.
fn cut(r: &mut Random, font: &[u8], control: &[u8], text: &mut Vec<u8>) {
    let (mut scratch, mut out) = (vec![0; 32000], vec![0; 33000]);
    let mut is_wide = |n: usize| calls::number(plain::draw::draw(font, control, &text[..n], &mut scratch, &mut out)) == 16;
    let (mut fits, mut wide) = (0, text.len());
    if !is_wide(wide) {
        return;
    }
    while fits + 1 < wide {
        let middle = (fits + wide) / 2;
        if is_wide(middle) {
            wide = middle;
        } else {
            fits = middle;
        }
    }
    text.truncate(if r.one_in(3) { wide } else { fits });
}

fn compare_draw(r: &mut Random, font: &[u8], control: &[u8], text: &[u8], count: &mut Count, met: &mut Met) {
    let by_paper = |s: &mut [u8], o: &mut [u8]| plain::draw::draw(font, control, text, s, o);
    let sizes = rooms(r, 32000, by_paper);
    let input = || vec![("font", shown(font)), ("control", shown(control)), ("text", shown(text))];
    let (x, _) = drawn(r, "draw", sizes, input, |s, o| calls::draw(font, control, text, s, o), by_paper);
    count.add(x);
    replaced::draw(font, control, text, x, sizes[0], met);
}

fn compare_draw_stacked(r: &mut Random, font: &[u8], control: &[u8], [upper, lower]: [&[u8]; 2], count: &mut Count, met: &mut Met) {
    let by_paper = |s: &mut [u8], o: &mut [u8]| plain::draw::draw_stacked(font, control, upper, lower, s, o);
    let sizes = rooms(r, 64000, by_paper);
    let input = || vec![("font", shown(font)), ("control", shown(control)), ("upper", shown(upper)), ("lower", shown(lower))];
    let (x, _) = drawn(r, "draw_stacked", sizes, input, |s, o| calls::draw_stacked(font, control, upper, lower, s, o), by_paper);
    count.add(x);
    met::draw_stacked(&Drawing { font, control, texts: [upper, lower], scratch: sizes[0], out: sizes[1] }, x, met);
}

/// The entries of a list up to the last that is not 0, and how many it has.
fn listed(list: &[usize]) -> String {
    format!("{:?} of {}", &list[..used(list)], list.len())
}

fn compare_draw_wrapped(r: &mut Random, font: &[u8], control: &[u8], count: &mut Count, met: &mut Met) {
    let (control, text) = (wraps::control(r, control), wraps::text(r));
    let limit = wraps::limit(r, &Request { font, control, text: &text, limit: 1 });
    let request = Request { font, control, text: &text, limit };
    let comes_to = request.wrapped();
    let mut a = wraps::areas(r, &comes_to);
    let mut b = a.clone();
    let x = calls::draw_wrapped(&request, &mut a);
    let y = wrap::draw_wrapped(&request, &mut b);
    if x != y || a != b {
        let lists = |areas: &Areas| format!("firsts {}, ends {}", listed(&areas.firsts), listed(&areas.ends));
        let input = [
            ("font", shown(font)),
            ("control", shown(control)),
            ("text", shown(&text)),
            ("limit", limit.to_string()),
            ("scratch room", a.scratch.len().to_string()),
            ("out room", a.out.len().to_string()),
            ("proved lists", lists(&a)),
            ("plain lists", lists(&b)),
        ];
        differ("draw_wrapped", &input, (x, &[&a.out, &a.scratch]), (y, &[&b.out, &b.scratch]));
    }
    count.add(x);
    wrapped::draw_wrapped(&Asked { request: &request, comes_to: &comes_to }, x, &a, met);
}

/// What one round compares: ten joins and stacks, a font, three control files, a line, two lines and a wrapped text drawn with the font, and packs.
fn round(r: &mut Random, mut font: Vec<u8>, damaged: bool, counts: &mut [Count; 15], cases: &mut [Met; 10]) {
    for _ in 0..10 {
        compare_join(r, &mut counts[0]);
        compare_stack(r, &mut counts[4], &mut cases[0]);
    }
    if damaged {
        inputs::damage(r, &mut font);
    }
    compare_font(&font, &mut counts[1], &mut cases[3]);
    for _ in 0..3 {
        compare_control(&inputs::control(r), &mut counts[2]);
    }
    let (control, mut text) = (inputs::control(r), inputs::text(r));
    let control = if r.one_in(2) { b"" } else { &control[..] };
    if text.len() > 100 && r.one_in(2) {
        cut(r, &font, control, &mut text);
    }
    compare_draw(r, &font, control, &text, &mut counts[3], &mut cases[2]);
    let mut texts = inputs::two_texts(r);
    for text in texts.iter_mut().filter(|text| text.len() > 100) {
        if !r.one_in(4) {
            cut(r, &font, control, text);
        }
    }
    compare_draw_stacked(r, &font, control, [&texts[0], &texts[1]], &mut counts[5], &mut cases[1]);
    compare_draw_wrapped(r, &font, control, &mut counts[6], &mut cases[4]);
    pack_compare::round(r, &font, control, &mut counts[7..13], &mut cases[5..8]);
}

fn main() {
    let mut given = std::env::args().skip(1).map(|a| a.parse::<u64>().expect("a number"));
    let seed = given.next().unwrap_or(2026_11_15);
    let times = given.next().unwrap_or(20_000);
    let (made, wrong) = cases::run();
    println!("cases of the paper: {made}, {wrong} wrong\nseed {seed}");
    if wrong > 0 {
        exit(1);
    }
    let start = Instant::now();
    let mut r = Random::new(seed);
    let own = |name: &str| std::fs::read(format!("{}/../../fonts/{name}", env!("CARGO_MANIFEST_DIR"))).expect(name);
    let (console, accents) = (own("console.flf"), own("accents.flf"));
    let mut counts = CALLS.map(Count::new);
    let mut cases = [
        Met::new("stacks met", met::STACKS),
        Met::new("drawings of two lines met", met::DRAWINGS),
        Met::new("bytes that are not in the font met", replaced::CASES),
        Met::new("row lines met", rows::CASES),
        Met::new("wrapped texts met", wrapped::CASES),
        Met::new("packs met", pack_met::PACKS),
        Met::new("letters of packs met", pack_met::LETTERS),
        Met::new("drawings from packs met", pack_met::DRAWINGS),
        Met::new("drawings by two fonts met", two_met::CASES),
        Met::new("checks of drawings met", check_met::CASES),
    ];
    for k in 0..times {
        let font = if k % 8 == 0 { console.clone() } else { inputs::font(&mut r) };
        round(&mut r, font, k % 32 == 0, &mut counts, &mut cases);
    }
    for _ in 0..times {
        two_compare::round(&mut r, [&console, &accents], &mut counts[13], &mut cases[8]);
    }
    for _ in 0..times {
        check_compare::round(&mut r, &console, &mut counts[14], &mut cases[9]);
    }
    let never = counts.iter().map(Count::print).sum::<usize>() + cases.iter().map(Met::print).sum::<usize>();
    println!("no difference, {:.1} s; never met: {never}", start.elapsed().as_secs_f64());
    exit((never > 0) as i32)
}
