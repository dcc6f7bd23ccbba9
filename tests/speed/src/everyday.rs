//! The everyday bench beside the library's own speed: `run` of a capture by the program, and the same steps by `ppe42_run` and by
//! `ppe42_run_predecoded` in runs of the longest budget, one after the other. Then a debugger's `continue`, free, with a breakpoint and
//! with a watchpoint that it does not meet. They take turns, and the least time of each counts.

use crate::loops::{Loop, ARITHMETIC, BRANCHES, LEDGER, MEMORY};
use crate::players::record;
use linked::{Play, LINKED};
use std::fs;
use std::io::{BufRead, BufReader, Read, Write};
use std::net::TcpStream;
use std::path::Path;
use std::process::{Command, Stdio};
use std::thread;
use std::time::{Duration, Instant};

/// Bytes of memory, as firmware has them.
const SIZE: usize = 1 << 14;
const BUDGET: u64 = 1 << 20;
/// Bytes of a capture after its state.
const TRAILER: usize = 12;

pub fn compare(program: &str, steps: u64, runs: u32) {
    println!("seconds for {steps} steps, the least of {runs}; a ratio over 1.00 is the program being slower than predecoded runs");
    println!("continue, break and watch: as many steps under a debugger, from what it took in two seconds");
    let names = ["library", "predecoded", "program", "ratio", "continue", "break", "watch"];
    println!("{:10} {}", "loop", names.map(|name| format!("{name:>10}")).join(" "));
    for each in [ARITHMETIC, MEMORY, BRANCHES, LEDGER] {
        let capture = std::env::temp_dir().join(format!("speed-{}-{}", std::process::id(), each.name));
        fs::write(&capture, captured(&each)).expect("a capture can be written");
        let [mut library, mut predecoded, mut played] = [f64::INFINITY; 3];
        let mut debugged = [f64::INFINITY; 3];
        for _ in 0..runs {
            library = library.min(runs_of_the_library(LINKED.run, &each, steps));
            predecoded = predecoded.min(runs_of_the_library(LINKED.run_predecoded, &each, steps));
            played = played.min(runs_of_the_program(program, &capture, steps));
            for (least, stop) in debugged.iter_mut().zip(["", "Z0,3ffc,4", "Z2,3ffc,4"]) {
                *least = least.min(steps as f64 / rate_under_a_debugger(program, &capture, stop));
            }
        }
        let [free, stop, watch] = debugged;
        let figures = [library, predecoded, played, played / predecoded, free, stop, watch];
        println!("{:10} {}", each.name, figures.map(|figure| format!("{figure:>10.3}")).join(" "));
        fs::remove_file(&capture).expect("the capture can be removed");
    }
}

fn captured(each: &Loop) -> Vec<u8> {
    let start = each.start(SIZE);
    let mut capture = vec![0; SIZE + second::STATE + TRAILER];
    let answer = (LINKED.capture_write)(&record(&start), &start.memory, &mut capture);
    assert_eq!(answer, capture.len() as u64, "the loop's capture is refused");
    capture
}

fn runs_of_the_library(run: Play, each: &Loop, steps: u64) -> f64 {
    let mut start = each.start(SIZE);
    let mut state = record(&start);
    let mut left = steps;
    let began = Instant::now();
    while left > 0 {
        let budget = left.min(BUDGET);
        assert_eq!(run(&mut state, &mut start.memory, &[], budget as u32), budget);
        left -= budget;
    }
    began.elapsed().as_secs_f64()
}

/// From its start to its end, with reading the capture and the report.
fn runs_of_the_program(program: &str, capture: &Path, steps: u64) -> f64 {
    let mut command = Command::new(program);
    command.arg("run").arg(capture).args(["--steps", &steps.to_string()]).stdout(Stdio::null());
    let began = Instant::now();
    assert!(command.status().expect("the program starts").success());
    began.elapsed().as_secs_f64()
}

/// Steps a second of a debugger's `continue`, with a stop that is set before it.
fn rate_under_a_debugger(program: &str, capture: &Path, stop: &str) -> f64 {
    let mut command = Command::new(program);
    command.arg("gdb").arg(capture).args(["--port", "0"]).stdout(Stdio::piped());
    let mut server = command.spawn().expect("the program starts");
    let mut line = String::new();
    BufReader::new(server.stdout.take().expect("it is piped")).read_line(&mut line).expect("it says its port");
    let port = line.split([':', ';']).nth(1).and_then(|port| port.parse().ok()).expect("a port");
    let mut stream = TcpStream::connect(("127.0.0.1", port)).expect("it serves");
    if !stop.is_empty() {
        assert_eq!(asked(&mut stream, stop), "OK");
    }
    let before = dec(&mut stream);
    let began = Instant::now();
    stream.write_all(&packet("c")).expect("it reads");
    thread::sleep(Duration::from_secs(2));
    stream.write_all(b"\x03").expect("it reads");
    assert_eq!(answer(&mut stream), "T02");
    let seconds = began.elapsed().as_secs_f64();
    let steps = before.wrapping_sub(dec(&mut stream));
    server.kill().expect("it is our child");
    server.wait().expect("it is our child");
    f64::from(steps) / seconds
}

/// DEC, which goes down by one a step; its number there is 28.
fn dec(stream: &mut TcpStream) -> u32 {
    u32::from_str_radix(&asked(stream, "p28"), 16).expect("a word")
}

fn packet(data: &str) -> Vec<u8> {
    let sum = data.bytes().fold(0u8, u8::wrapping_add);
    format!("${data}#{sum:02x}").into_bytes()
}

fn asked(stream: &mut TcpStream, data: &str) -> String {
    stream.write_all(&packet(data)).expect("it reads");
    answer(stream)
}

/// The data of the next packet.
fn answer(stream: &mut TcpStream) -> String {
    let mut bytes = stream.bytes().map(|byte| char::from(byte.expect("it answers")));
    let data = bytes.by_ref().skip_while(|&byte| byte != '$').skip(1).take_while(|&byte| byte != '#').collect();
    bytes.nth(1);
    data
}
