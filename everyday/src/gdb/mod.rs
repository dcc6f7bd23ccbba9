//! `gdb`: a server for gdb's remote protocol, so that a stock debugger looks into a core whose every step is the library's.

pub mod core;
pub mod description;
pub mod history;
pub mod link;
pub mod monitor;
pub mod packet;
pub mod schedule;
pub mod session;
pub mod stops;

use self::core::Core;
use self::history::History;
use self::link::Link;
use self::packet::Sent;
use self::schedule::Schedule;
use self::session::{Session, Then};
use crate::args::Gdb;
use crate::capture::Capture;
use crate::files::{self, MOST_FIRMWARE};
use crate::load;
use crate::make;
use crate::numbers::grouped;
use crate::profile::Profile;
use crate::symbols::Symbols;
use crate::{complain, say};
use std::io::{self, ErrorKind};
use std::net::{Ipv4Addr, TcpListener, TcpStream};
use std::process::ExitCode;
use std::sync::atomic::{AtomicBool, Ordering};
use std::sync::mpsc::{self, Receiver};
use std::sync::Arc;
use std::thread;
use std::time::Duration;

pub fn gdb(profile: Profile, args: &Gdb) -> Result<ExitCode, String> {
    let Some((capture, symbols)) = read(profile, args)? else {
        complain!("nothing is served; write the firmware without these (docs/FIRMWARE.md), or add --anyway");
        return Ok(ExitCode::from(1));
    };
    let mut schedule = Schedule::default();
    if args.events.is_some() || !args.event.is_empty() {
        schedule.add("those of the command line".into(), load::events(&args.events, &args.event)?, 0);
    }
    let listener = TcpListener::bind((Ipv4Addr::LOCALHOST, args.port))
        .map_err(|error| format!("--port {}: {error}; name another, or 0 for any that is free", args.port))?;
    let port = listener.local_addr().map_err(|error| format!("no port: {error}"))?.port();
    say!("listening on 127.0.0.1:{port}; in gdb-multiarch: target remote :{port}");
    let mut session = Session::new(Core::new(History::new(capture, schedule), symbols));
    let busy = Arc::new(AtomicBool::new(false));
    for stream in debuggers(listener, busy.clone()) {
        let then = Link::new(stream).and_then(|link| serve(&mut session, link));
        let steps = grouped(session.core.history.now.at);
        match then {
            Ok(Then::End) => {
                say!("the debugger ended the bench after {steps} steps");
                return Ok(ExitCode::SUCCESS);
            }
            Err(error) if matches!(error.kind(), ErrorKind::WouldBlock | ErrorKind::TimedOut) => {
                complain!("the debugger takes no answers and is given up after {steps} steps; another may come");
            }
            // it said so, or was found gone
            _ => {
                say!("the debugger went after {steps} steps; another may come");
            }
        }
        busy.store(false, Ordering::SeqCst);
    }
    Err("no debugger can come any more; start the bench again".into())
}

/// A capture, or firmware in so much memory; nothing if the core lacks words of it.
fn read(profile: Profile, args: &Gdb) -> Result<Option<(Capture, Symbols)>, String> {
    let file = files::read(&args.file, MOST_FIRMWARE, "a capture or a firmware")?;
    let Some(memory) = &args.memory else {
        let of_file =
            |wrong| format!("{}: {wrong}; with --memory BYTES firmware can be named too", args.file.display());
        let mut capture = Capture::of(profile, &file).map_err(of_file)?;
        capture.set(&args.set)?;
        return Ok(Some((capture, load::symbols(&args.elf)?)));
    };
    let Some((capture, symbols)) = make::made(profile, &args.file, &file, memory, &args.set, args.anyway)? else {
        return Ok(None);
    };
    let symbols = if args.elf.is_some() { load::symbols(&args.elf)? } else { symbols };
    Ok(Some((capture, symbols)))
}

/// How long a debugger that comes waits for the one before it to be gone.
const TURNS: u32 = 20;
const TURN: Duration = Duration::from_millis(10);

/// Debuggers as they come, one at a time: one that comes while another is served is turned away.
fn debuggers(listener: TcpListener, busy: Arc<AtomicBool>) -> Receiver<TcpStream> {
    let (sender, receiver) = mpsc::channel();
    thread::spawn(move || {
        for stream in listener.incoming() {
            match stream {
                Ok(stream) if is_turn(&busy) => {
                    if sender.send(stream).is_err() {
                        break;
                    }
                }
                Ok(_) => complain!("a second debugger was turned away; one is served at a time"),
                Err(error) => {
                    complain!("a debugger could not come: {error}");
                    thread::sleep(TURN);
                }
            }
        }
    });
    receiver
}

/// Whether the debugger that came is the one that is served now.
fn is_turn(busy: &AtomicBool) -> bool {
    (0..TURNS).any(|_| {
        let free = !busy.swap(true, Ordering::SeqCst);
        if !free {
            thread::sleep(TURN);
        }
        free
    })
}

/// Answers a debugger until it goes.
fn serve(session: &mut Session, mut link: Link) -> io::Result<Then> {
    session.begin();
    while let Some(sent) = link.next() {
        match sent {
            Sent::Packet(packet) => {
                link.acknowledge(b'+')?;
                let answer = session.answer(&packet, &mut || link.interrupted());
                answer.packets.iter().try_for_each(|packet| link.send(packet))?;
                match answer.then {
                    Then::GoOn => {}
                    Then::WithoutAcks => link.without_acks(),
                    then => return Ok(then),
                }
            }
            Sent::Garbled if link.acks() => link.acknowledge(b'-')?,
            Sent::Garbled | Sent::TooLong => {
                link.acknowledge(b'+')?;
                link.send(session::MALFORMED.as_bytes())?;
            }
            Sent::Again => link.send_again()?,
            // nothing runs that could be interrupted
            Sent::Interrupt => {}
        }
    }
    Ok(Then::Detach)
}
