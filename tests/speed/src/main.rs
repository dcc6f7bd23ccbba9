//! `speed [RUNS]`: steps a second of the linked library (`core`; `predecoded`, which keeps decoded words; `inside`, which ends with
//! the first step that reaches past its memory; `until`, which ends at a stop and is given none; `reach`, which tells whether a
//! step reached; `42X`, which is `core` as a 42X), of the plain interpreter `second` and of Unicorn where it is built in, on the same
//! loops, how many times as fast as `core` `predecoded` is, and how many times as fast as `second` the others are. Each figure is
//! the best of RUNS runs.
//!
//! `speed PROGRAM STEPS RUNS`: the everyday bench, run as a user does, beside runs of the library one after the other.

mod everyday;
mod loops;
mod players;

use loops::{long, Loop, ARITHMETIC, BRANCHES, DOUBLEWORD, ENABLED, LEDGER, MEMORY, REWRITING, ROTATES};
use players::{OURS, PLAYERS};
use std::fmt::Display;

const RUNS: u32 = 20;
/// Few enough that some run goes undisturbed on a busy machine.
const STEPS: u32 = 1 << 18;
/// The least that Unicorn maps.
const SIZE: usize = 1 << 12;
/// What holds the long loops and their data.
const LARGER: usize = 1 << 14;

fn main() {
    let arguments: Vec<String> = std::env::args().skip(1).collect();
    if let [program, steps, runs] = &arguments[..] {
        return match (steps.parse(), runs.parse()) {
            (Ok(steps), Ok(runs)) => everyday::compare(program, steps, runs),
            _ => println!("steps and runs are plain numbers, as in 1000000000 3"),
        };
    }
    let runs = arguments.first().and_then(|word| word.parse().ok()).unwrap_or(RUNS);
    println!("million steps a second, the best of {runs} runs, and ratios of speeds: 2.00 is twice as fast");
    show([""; 3], [""; 8], "predecoded", ["as fast", "as second:", "", "", "", "", ""]);
    let ratios = ["core", "predecoded", "inside", "until", "reach", "42X", "Unicorn"];
    let rates = ["core", "predecoded", "inside", "until", "reach", "42X", "second", "Unicorn"];
    show(["loop", "M", "steps"], rates, "/core", ratios);
    for each in [ARITHMETIC, MEMORY, BRANCHES, LEDGER, ENABLED, DOUBLEWORD, ROTATES, REWRITING] {
        measure(&each, SIZE, STEPS, runs);
    }
    for (name, words) in [("128 words", 128), ("300 words", 300), ("512 words", 512), ("1024 words", 1024)] {
        measure(&long(name, words), LARGER, STEPS, runs);
    }
    for size in [1 << 16, 1 << 20] {
        measure(&LEDGER, size, STEPS, runs);
    }
    for steps in [STEPS / 4, STEPS / 16] {
        measure(&LEDGER, SIZE, steps, runs);
    }
}

fn measure(each: &Loop, size: usize, steps: u32, runs: u32) {
    let best = best(each, size, steps, runs);
    let [core, predecoded, inside, until, reach, of_42x, second, unicorn @ ..] = &best[..] else {
        unreachable!("seven play every loop")
    };
    let [core, predecoded, inside, until, reach, of_42x] = [core, predecoded, inside, until, reach, of_42x].map(Some);
    let players = [core, predecoded, inside, until, reach, of_42x, Some(second), unicorn.first()];
    let shown = |figure: Option<String>| figure.unwrap_or("-".into());
    let rates = players.map(|best| shown(best.map(|seconds| format!("{:.1}", f64::from(steps) / seconds / 1e6))));
    let ratios = [core, predecoded, inside, until, reach, of_42x, unicorn.first()];
    let ratios = ratios.map(|best| shown(best.map(|seconds| format!("{:.2}", second / seconds))));
    let over_core = core.zip(predecoded).map(|(core, predecoded)| format!("{:.2}", core / predecoded));
    show([each.name, &size.to_string(), &steps.to_string()], rates, shown(over_core), ratios);
}

/// The least seconds of each player. They take turns, so that they meet the same machine, and must end alike.
fn best(each: &Loop, size: usize, steps: u32, runs: u32) -> Vec<f64> {
    let start = each.start(size);
    let players = if each.on_405 { PLAYERS } else { &PLAYERS[..OURS] };
    let mut best = vec![f64::INFINITY; players.len()];
    for _ in 0..runs {
        let mut end = None;
        for (best, play) in best.iter_mut().zip(players) {
            let mut state = start.clone();
            *best = best.min(play(&mut state, steps));
            assert!(*end.get_or_insert_with(|| state.clone()) == state, "the players differ after {}", each.name);
        }
    }
    best
}

/// A row: what is played, steps a second, predecoded over core, and the others over second.
fn show<T: Display>(what: [&str; 3], rates: [T; 8], over_core: impl Display, ratios: [T; 7]) {
    const RATES: [usize; 8] = [7, 10, 7, 7, 7, 7, 7, 7];
    const RATIOS: [usize; 7] = [7, 10, 7, 7, 7, 7, 7];
    let row = |cells: &[T], widths: &[usize]| {
        let cells: Vec<_> = cells.iter().zip(widths).map(|(cell, width)| format!("{cell:>width$}")).collect();
        cells.join(" ")
    };
    let [name, size, steps] = what;
    let (rates, ratios) = (row(&rates, &RATES), row(&ratios, &RATIOS));
    println!("{}", format!("{name:10} {size:>7} {steps:>6} {rates} {over_core:>10} {ratios}").trim_end());
}
