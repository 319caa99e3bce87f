//! Joins and drawings a second, by the proved implementation and by the plain one, on the same input.
//! The output and the scratch are cleared by the calls themselves, as document 01 asks.
use std::hint::black_box;
use std::time::Instant;
use wattleslate_tests::plain::join::Request;
use wattleslate_tests::{calls, plain};

const NAMES: &[&str] = &["sw11", "core-router-7.ams", "lab-3", "uplink-b2", "console 14", "gw.campus"];

/// How many calls are made in a second: rounds of `each` calls until a second has passed, the best of three.
fn rate(each: u64, mut round: impl FnMut()) -> u64 {
    let mut best = 0.0f64;
    for _ in 0..3 {
        let start = Instant::now();
        let mut calls = 0;
        while start.elapsed().as_millis() < 1000 {
            round();
            calls += each;
        }
        best = best.max(calls as f64 / start.elapsed().as_secs_f64());
    }
    best as u64
}

/// A drawing's rows without their LFs, as a block of the given width.
fn block(font: &[u8], text: &str) -> (Vec<u8>, usize, usize) {
    let (mut scratch, mut out) = (vec![0; 32000], vec![0; 33000]);
    let answer = plain::draw::draw(font, b"", text.as_bytes(), &mut scratch, &mut out);
    let [_, _, width] = calls::apart(answer).expect("a drawing");
    let height = out.iter().filter(|b| **b == b'\n').count();
    (out.into_iter().filter(|b| *b != 0 && *b != b'\n').collect(), width as usize, height)
}

type Join = fn(&Request, &mut [u8]) -> u64;
type Draw = fn(&[u8], &[u8], &[u8], &mut [u8], &mut [u8]) -> u64;

fn joins(font: &[u8], layout: usize, join: Join) -> u64 {
    let lines: Vec<_> = NAMES.iter().map(|n| block(font, n)).collect();
    let letters: Vec<_> = ["a", "W", "1", "/", "|"].iter().map(|n| block(font, n)).collect();
    let mut out = vec![0; 2000];
    rate((lines.len() * letters.len()) as u64, || {
        for (line, line_width, height) in &lines {
            for (character, character_width, _) in &letters {
                let request = Request {
                    line,
                    line_width: *line_width,
                    character,
                    character_width: *character_width,
                    height: *height,
                    hardblank: b'$',
                    layout,
                    direction: 0,
                };
                black_box(join(black_box(&request), &mut out));
            }
        }
    })
}

fn drawings(font: &[u8], draw: Draw) -> u64 {
    let (mut scratch, mut out) = (vec![0; 32000], vec![0; 2048]);
    rate(NAMES.len() as u64, || {
        for name in NAMES {
            black_box(draw(black_box(font), b"", name.as_bytes(), &mut scratch, &mut out));
        }
    })
}

fn main() {
    let path = std::env::args().nth(1).unwrap_or(concat!(env!("CARGO_MANIFEST_DIR"), "/../../fonts/console.flf").into());
    let font = std::fs::read(&path).expect("a font");
    println!("| Calls a second | proved | plain |\n|---|---|---|");
    for (name, layout) in [("join, fitting", 64), ("join, rules 15", 143), ("join, universal", 128)] {
        println!("| {name} | {} | {} |", joins(&font, layout, calls::join), joins(&font, layout, plain::join::join));
    }
    println!("| draw | {} | {} |", drawings(&font, calls::draw), drawings(&font, plain::draw::draw));
}
