//! The server under clients that no debugger is: packets that make no sense, that are cut, too long or too many, and what it must
//! never do then. Its speed, beside that of `run`.

mod common;
#[path = "common/server.rs"]
mod server;

use common::{content, ppe42, text};
use everyday::capture::Capture;
use everyday::gdb::core::Core;
use everyday::gdb::history::History;
use everyday::gdb::packet::{hex, packed, LONGEST};
use everyday::gdb::schedule::Schedule;
use everyday::gdb::session::{Session, Then};
use everyday::profile::Profile;
use everyday::registers::State;
use everyday::symbols::Symbols;
use serde_json::Value;
use server::{Client, Server};
use std::fs;
use std::io::{ErrorKind, Read, Write};
use std::net::Shutdown;
use std::path::{Path, PathBuf};
use std::thread::{self, JoinHandle};
use std::time::{Duration, Instant};

/// addi r3,r3,1; stw r3,256(0); lwz r4,256(0); bdnz 0; trap
const COUNTS: [u32; 5] = [0x38630001, 0x90600100, 0x80800100, 0x4200FFF4, 0x7FE00008];

/// Counts in memory, CTR times and in all states that follow from what is written; a trap halts it.
fn counting(turns: u32) -> Capture {
    let mut memory: Vec<u8> = COUNTS.iter().flat_map(|word| word.to_be_bytes()).collect();
    memory.resize(512, 0);
    let mut capture = Capture { profile: Profile::Ppe42, state: State::zero(), memory };
    capture.set(&["DBCR=01000000".into(), format!("CTR={turns:X}")]).expect("it is accepted");
    capture
}

fn folder(name: &str, turns: u32) -> PathBuf {
    let folder = Path::new(env!("CARGO_TARGET_TMPDIR")).join("packets").join(name);
    let _ = fs::remove_dir_all(&folder);
    fs::create_dir_all(&folder).expect("a folder for the test");
    counting(turns).write(&folder.join("start.capture")).expect("it is written");
    folder
}

struct Random(u64);

impl Random {
    fn below(&mut self, end: usize) -> usize {
        self.0 = self.0.wrapping_mul(6_364_136_223_846_793_005).wrapping_add(1_442_695_040_888_963_407);
        (self.0 >> 33) as usize % end
    }

    fn of<T: Copy>(&mut self, all: &[T]) -> T {
        all[self.below(all.len())]
    }

    fn bytes(&mut self, length: usize) -> Vec<u8> {
        (0..length).map(|_| self.below(256) as u8).collect()
    }
}

/// Packets as gdb has them; what runs is rarer than the rest.
const KNOWN: [&str; 36] = [
    "?",
    "g",
    "p20",
    "p33",
    "p40",
    "P20=00000008",
    "P3=12345678",
    "P33=00000000",
    "Pb=00000001",
    "m0,40",
    "m1f0,40",
    "mfffffffc,8",
    "M100,4:deadbeef",
    "M1fe,4:deadbeef",
    "X100,2:ab",
    "X100,0:",
    "s",
    "S05",
    "bs",
    "Z0,8,4",
    "z0,8,4",
    "Z1,c,4",
    "z1,c,4",
    "Z2,100,4",
    "z2,100,4",
    "Z3,100,2",
    "z3,100,2",
    "Z4,102,1",
    "z4,102,1",
    "Hg0",
    "T1",
    "qAttached",
    "qSupported:swbreak+",
    "qXfer:features:read:target.xml:0,ffb",
    "vMustReplyEmpty",
    "vCont?",
];
const RUNNING: [&str; 3] = ["c", "C05", "bc"];
const MONITORED: [&str; 9] = [
    "event now external",
    "event hold 5",
    "event release",
    "event every 3 timer0",
    "events",
    "events clear",
    "steps",
    "halt",
    "refusal",
];

/// One of gdb's, one of them spoilt, or anything; none that ends the bench.
fn data(random: &mut Random) -> Vec<u8> {
    let mut data = match random.below(200) {
        0 => random.of(&RUNNING).into(),
        1..=20 => format!("qRcmd,{}", hex(random.of(&MONITORED).as_bytes())).into_bytes(),
        21..=40 => random_bytes(random),
        _ => random.of(&KNOWN).into(),
    };
    if random.below(3) == 0 {
        spoil(random, &mut data);
    }
    if data.starts_with(b"k") || data.starts_with(b"vKill") {
        data.clear();
    }
    data
}

fn random_bytes(random: &mut Random) -> Vec<u8> {
    let length = match random.below(200) {
        0 => LONGEST - 2 + random.below(4),
        1 => random.below(3 * LONGEST),
        _ => random.below(60),
    };
    random.bytes(length)
}

fn spoil(random: &mut Random, data: &mut Vec<u8>) {
    for _ in 0..=random.below(3) {
        let (at, kind) = (random.below(data.len() + 1), random.below(4));
        match kind {
            1 if at < data.len() => data[at] = random.below(256) as u8,
            2 if at < data.len() => drop(data.remove(at)),
            3 => data.truncate(at),
            _ => data.insert(at, random.of(b"0123456789abcdefxX,:;=-#$}*")),
        }
    }
}

/// May a packet change the core, if it is answered well?
fn may_write(data: &[u8]) -> bool {
    data.first().is_some_and(|kind| b"GPMXcCsSb".contains(kind))
}

/// 100,000 packets, one after the other: nothing changes that was not asked for, and what comes of it a run accepts.
#[test]
fn packets_do_what_they_ask_for_and_nothing_else() {
    let mut random = Random(1);
    let start = counting(1000);
    let mut session = Session::new(Core::new(History::new(start.clone(), Schedule::default()), Symbols::default()));
    let mut before = start.clone();
    let (mut changed, mut refused) = (0, 0);
    for _ in 0..100_000 {
        let data = data(&mut random);
        let answer = session.answer(&data, &mut || true);
        let after = session.core.capture();
        let same = after.state == before.state && after.memory == before.memory;
        let last = answer.packets.last().expect("each is answered");
        let refuses = last.starts_with(b"E") || last.is_empty();
        assert!(same || may_write(&data) && !refuses, "{}: {}", data.escape_ascii(), last.escape_ascii());
        assert_eq!(after.profile.start_check(&after.state, &after.memory), Ok(()), "{}", data.escape_ascii());
        assert_eq!(after.memory.len(), start.memory.len());
        assert!(answer.packets.iter().all(|packet| packet.len() <= LONGEST) && answer.then != Then::End);
        changed += u32::from(!same);
        refused += u32::from(refuses);
        before.clone_from(after);
    }
    assert!(changed > 1_000 && refused > 10_000, "{changed} changed something, {refused} were refused");
}

/// Writes change their own bytes and no other.
#[test]
fn writes_change_what_they_name() {
    let mut random = Random(2);
    let mut session = Session::new(Core::new(History::new(counting(9), Schedule::default()), Symbols::default()));
    for _ in 0..2000 {
        let (at, bytes) = (random.below(600), random.below(40));
        let bytes = random.bytes(bytes);
        let mut wanted = session.core.capture().memory.clone();
        let fits = wanted.get_mut(at..at + bytes.len()).map(|place| place.copy_from_slice(&bytes)).is_some();
        let text = format!("M{at:x},{:x}:{}", bytes.len(), hex(&bytes));
        let binary = [format!("X{at:x},{:x}:", bytes.len()).as_bytes(), &bytes].concat();
        let packet = if random.below(2) == 0 { text.into_bytes() } else { binary };
        let answer = session.answer(&packet, &mut || true);
        assert_eq!(answer.packets, [if fits { b"OK".to_vec() } else { b"E02".to_vec() }]);
        assert!(session.core.capture().memory == wanted);
    }
}

/// The packet as it is sent: mostly well, but also with a wrong sum, cut, or among other bytes.
fn sent(random: &mut Random, data: &[u8]) -> Vec<u8> {
    let mut bytes = packed(data);
    match random.below(20) {
        0 => {
            let end = bytes.len();
            bytes[end - 1] ^= 1;
        }
        1 => bytes.truncate(random.below(bytes.len())),
        2 => bytes.splice(0..0, random.bytes(5)).for_each(drop),
        3 => bytes.extend(random.bytes(5)),
        _ => {}
    }
    bytes
}

/// A client that is served: one that comes while the server is still busy with the last is turned away, and its line is reset if its
/// packet was not read by then.
fn served(server: &Server) -> Client {
    for _ in 0..100 {
        let mut client = server.client();
        let asked = client.stream.write_all(&packed(b"qAttached"));
        match asked.and_then(|()| client.try_answer()) {
            Ok(answer) if answer.as_deref() == Some("1") => return client,
            Ok(_) => {}
            Err(error) => {
                assert!(matches!(error.kind(), ErrorKind::ConnectionReset | ErrorKind::BrokenPipe), "{error}")
            }
        }
        thread::sleep(Duration::from_millis(50));
    }
    panic!("no client is served");
}

/// Reads and forgets all answers, until the line is closed.
fn drained(client: &Client) -> JoinHandle<()> {
    let mut stream = client.stream.try_clone().expect("a second end");
    thread::spawn(move || while matches!(stream.read(&mut [0; 4096]), Ok(1..)) {})
}

/// 100,000 packets and pieces of packets at the program, by clients that come and go, some in the middle of a packet.
#[test]
fn random_packets_leave_the_server_alive() {
    let folder = folder("random", 1000);
    let mut server = Server::start(&folder, &["start.capture"]);
    let mut random = Random(3);
    let mut left = 100_000;
    while left > 0 {
        let mut client = served(&server);
        let reader = drained(&client);
        for _ in 0..left.min(1 + random.below(4000)) {
            let data = data(&mut random);
            let bytes = sent(&mut random, &data);
            // a packet that detaches closes the line
            if client.stream.write_all(&bytes).is_err() {
                break;
            }
            left -= 1;
        }
        let _ = client.stream.shutdown(Shutdown::Both);
        reader.join().expect("the reader ends");
    }
    served(&server);
    assert!(server.is_there());
    assert_eq!(files(&folder), ["start.capture"], "nothing is written that was not asked for");
}

fn files(folder: &Path) -> Vec<String> {
    let entries = fs::read_dir(folder).expect("the folder is there");
    entries.map(|entry| entry.expect("an entry").file_name().to_string_lossy().into_owned()).collect()
}

/// Answers that are not read fill the line; the server gives such a client up, and serves the next.
#[test]
fn a_client_that_does_not_read_is_given_up() {
    let server = Server::start(&folder("deaf", 1000), &["start.capture"]);
    let mut client = server.client();
    client.stream.set_write_timeout(Some(Duration::from_secs(30))).expect("a time");
    let packet = packed(b"qXfer:features:read:target.xml:0,ffff");
    while client.stream.write_all(&packet).is_ok() {}
    drop(client);
    served(&server);
}

#[test]
fn a_client_that_goes_in_a_packet_or_a_run_leaves_the_core() {
    let server = Server::start(&folder("gone", 0), &["start.capture"]);
    for last in [&b"$m0,"[..], b"$c#63", b"$", b"$c#", b"\x03", b"-", b"$c#63$bc#c5"] {
        let mut client = served(&server);
        client.send(last);
        drop(client);
    }
    let mut client = served(&server);
    assert_eq!(client.ask("m0,4"), "38630001");
    assert_ne!(client.ask("p3"), "00000000", "it ran meanwhile");
}

#[test]
fn one_client_at_a_time() {
    let server = Server::start(&folder("two", 1000), &["start.capture"]);
    let mut first = served(&server);
    let mut second = server.client();
    assert_eq!(second.answer(), None, "it is turned away");
    assert_eq!((first.ask("m0,4").as_str(), first.ask("Z0,8,4").as_str()), ("38630001", "OK"));
    assert_eq!(first.ask("c"), "T05", "its breakpoint stops the core");
    drop(first);
    assert_eq!(served(&server).ask("c"), "T07", "which is gone with it, and the trap halts the core");
}

#[test]
fn a_client_that_was_turned_away_is_served_when_it_comes_again() {
    let server = Server::start(&folder("again", 1000), &["start.capture"]);
    let first = served(&server);
    let leaving = thread::spawn(move || {
        thread::sleep(Duration::from_millis(900));
        drop(first);
    });
    assert_eq!(served(&server).ask("m0,4"), "38630001");
    leaving.join().expect("the first goes");
}

/// What listens has the loopback address, as /proc/net/tcp writes it.
#[test]
fn only_the_loopback_address_is_served() {
    let server = Server::start(&folder("loopback", 1000), &["start.capture"]);
    let sockets = fs::read_to_string("/proc/net/tcp").expect("Linux tells its sockets");
    let port = format!(":{:04X}", server.port);
    let own: Vec<&str> = sockets.lines().filter_map(|line| line.split_whitespace().nth(1)).collect();
    let own: Vec<&str> = own.into_iter().filter(|address| address.ends_with(&port)).collect();
    assert_eq!(own, [format!("0100007F{port}")]);
}

#[test]
fn kill_ends_the_bench_with_a_sentence() {
    for packet in ["k", "vKill;1"] {
        let mut server = Server::start(&folder("kill", 1000), &["start.capture"]);
        let mut client = server.client();
        client.ask("s");
        client.send(&packed(packet.as_bytes()));
        assert_eq!(server.line(), "the debugger ended the bench after 1 steps\n");
        assert!(server.end().success());
    }
}

#[test]
fn ctrl_c_stops_a_run() {
    let server = Server::start(&folder("interrupt", 0), &["start.capture"]);
    let mut client = server.client();
    client.send(&packed(b"c"));
    thread::sleep(Duration::from_millis(100));
    client.send(b"\x03");
    assert_eq!(client.answer().as_deref(), Some("T02"));
    assert_ne!(client.ask("p3"), "00000000");
}

/// Seconds that a packet takes.
fn timed(client: &mut Client, packet: &str, wanted: &str) -> f64 {
    let started = Instant::now();
    assert_eq!(client.ask(packet), wanted);
    started.elapsed().as_secs_f64()
}

/// Without a watchpoint, with a breakpoint or none, a run here takes at most three times as long as `run`.
#[test]
fn going_on_is_a_third_as_fast_as_run() {
    let folder = folder("speed", 10_000_000);
    let mut least = [f64::MAX; 3];
    for _ in 0..3 {
        let run = content(ppe42(&folder, &["run", "start.capture", "--steps", "1G", "--json", "--expect", "halt 3"]));
        let report: Value = serde_json::from_str(&text(&run.stdout)).expect("a report");
        let server = Server::start(&folder, &["start.capture"]);
        let mut client = server.client();
        let free = timed(&mut client, "c", "T07");
        assert_eq!(client.ask("p33"), "00000003", "it halted by the trap");
        assert_eq!((client.ask("bc").as_str(), client.ask("Z0,20,4").as_str()), ("T05replaylog:begin;", "OK"));
        let with_breakpoint = timed(&mut client, "c", "T07");
        let seconds = [report["seconds"].as_f64().expect("seconds"), free, with_breakpoint];
        least.iter_mut().zip(seconds).for_each(|(least, seconds)| *least = least.min(seconds));
    }
    let [run, free, with_breakpoint] = least;
    println!("run {run:.2} s, continue {free:.2} s, with a breakpoint {with_breakpoint:.2} s");
    assert!(
        free < 3.0 * run && with_breakpoint < 3.0 * run,
        "run {run}, continue {free}, with a breakpoint {with_breakpoint}"
    );
}
