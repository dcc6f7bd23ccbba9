//! The line to a debugger. What it sends is read apart, so that Ctrl-C is seen while the core runs.

use super::packet::{packed, Parser, Sent};
use std::collections::VecDeque;
use std::io::{self, Read, Write};
use std::net::{Shutdown, TcpStream};
use std::sync::mpsc::{self, Receiver};
use std::thread;
use std::time::Duration;

pub struct Link {
    stream: TcpStream,
    bytes: Receiver<Vec<u8>>,
    parser: Parser,
    /// Sent and not yet answered.
    queue: VecDeque<Sent>,
    acks: bool,
    last: Vec<u8>,
}

/// Bytes that are read at once, and such pieces that wait.
const PIECE: usize = 4096;
const PIECES: usize = 16;

/// Packets that may wait while the core runs: gdb sends none.
const MOST_WAITING: usize = 64;

/// A debugger that takes no answer for so long is gone.
const PATIENCE: Duration = Duration::from_secs(10);

impl Link {
    pub fn new(stream: TcpStream) -> io::Result<Link> {
        stream.set_nodelay(true)?;
        stream.set_write_timeout(Some(PATIENCE))?;
        let mut reader = stream.try_clone()?;
        let (sender, bytes) = mpsc::sync_channel(PIECES);
        thread::spawn(move || {
            let mut piece = [0; PIECE];
            while let Ok(length @ 1..) = reader.read(&mut piece) {
                if sender.send(piece[..length].to_vec()).is_err() {
                    break;
                }
            }
        });
        Ok(Link { stream, bytes, parser: Parser::default(), queue: VecDeque::new(), acks: true, last: Vec::new() })
    }

    /// What is sent next; nothing once the debugger is gone.
    pub fn next(&mut self) -> Option<Sent> {
        while self.queue.is_empty() {
            let piece = self.bytes.recv().ok()?;
            self.read(&piece);
        }
        self.queue.pop_front()
    }

    /// Whether the core is to stop: by Ctrl-C, because the debugger is gone, or because it does not wait for its answer.
    pub fn interrupted(&mut self) -> bool {
        loop {
            if let Some(at) = self.queue.iter().position(|sent| *sent == Sent::Interrupt) {
                self.queue.remove(at);
                return true;
            }
            if self.queue.len() > MOST_WAITING {
                return true;
            }
            match self.bytes.try_recv() {
                Ok(piece) => self.read(&piece),
                Err(mpsc::TryRecvError::Empty) => return false,
                Err(mpsc::TryRecvError::Disconnected) => return true,
            }
        }
    }

    fn read(&mut self, piece: &[u8]) {
        let sent = piece.iter().filter_map(|&byte| self.parser.take(byte));
        self.queue.extend(sent);
    }

    /// Whether packets are acknowledged.
    pub fn acks(&self) -> bool {
        self.acks
    }

    pub fn without_acks(&mut self) {
        self.acks = false;
    }

    /// `+` or `-`.
    pub fn acknowledge(&mut self, sign: u8) -> io::Result<()> {
        match self.acks {
            true => self.stream.write_all(&[sign]),
            false => Ok(()),
        }
    }

    pub fn send(&mut self, data: &[u8]) -> io::Result<()> {
        self.last = packed(data);
        self.stream.write_all(&self.last)
    }

    pub fn send_again(&mut self) -> io::Result<()> {
        self.stream.write_all(&self.last)
    }
}

impl Drop for Link {
    fn drop(&mut self) {
        // so that what reads it ends too
        let _ = self.stream.shutdown(Shutdown::Both);
    }
}
