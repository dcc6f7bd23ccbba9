//! ./ppe42 gdb as a user starts it, and a client that speaks its protocol.
#![allow(dead_code)]

use everyday::gdb::packet::{packed, Parser, Sent};
use std::io::{self, BufRead, BufReader, Read, Write};
use std::net::TcpStream;
use std::path::Path;
use std::process::{Child, ChildStdout, Command, ExitStatus, Stdio};
use std::time::Duration;

/// It ends with the test.
pub struct Server {
    child: Child,
    lines: BufReader<ChildStdout>,
    pub port: u16,
}

impl Server {
    pub fn start(folder: &Path, arguments: &[&str]) -> Server {
        let mut command = Command::new(env!("CARGO_BIN_EXE_ppe42"));
        command.current_dir(folder).arg("gdb").args(arguments).args(["--port", "0"]).stdout(Stdio::piped());
        let mut child = command.spawn().expect("the program runs");
        let lines = BufReader::new(child.stdout.take().expect("it is piped"));
        let mut server = Server { child, lines, port: 0 };
        while server.port == 0 {
            let line = server.line();
            assert!(!line.is_empty(), "the server ended early");
            let port = line.strip_prefix("listening on 127.0.0.1:").and_then(|rest| rest.split(';').next());
            server.port = port.map_or(0, |port| port.parse().expect("a port"));
        }
        server
    }

    pub fn client(&self) -> Client {
        let stream = TcpStream::connect(("127.0.0.1", self.port)).expect("the server is there");
        stream.set_read_timeout(Some(Duration::from_secs(60))).expect("a time");
        stream.set_nodelay(true).expect("no delay");
        Client { stream, parser: Parser::default() }
    }

    /// What it says next.
    pub fn line(&mut self) -> String {
        let mut line = String::new();
        self.lines.read_line(&mut line).expect("the program prints");
        line
    }

    pub fn is_there(&mut self) -> bool {
        self.child.try_wait().expect("it is our child").is_none()
    }

    pub fn end(mut self) -> ExitStatus {
        self.child.wait().expect("it is our child")
    }
}

impl Drop for Server {
    fn drop(&mut self) {
        let _ = self.child.kill();
        let _ = self.child.wait();
    }
}

pub struct Client {
    pub stream: TcpStream,
    parser: Parser,
}

impl Client {
    pub fn send(&mut self, bytes: &[u8]) {
        self.stream.write_all(bytes).expect("the server reads");
    }

    /// The next answer; nothing once the server has closed the line.
    pub fn answer(&mut self) -> Option<String> {
        self.try_answer().expect("the server answers in time")
    }

    /// The same, or what is wrong with the line.
    pub fn try_answer(&mut self) -> io::Result<Option<String>> {
        let mut byte = [0];
        while self.stream.read(&mut byte)? == 1 {
            if let Some(Sent::Packet(data)) = self.parser.take(byte[0]) {
                return Ok(Some(String::from_utf8(data).expect("answers are text")));
            }
        }
        Ok(None)
    }

    /// The answer to a packet; what goes to the console before it is passed over.
    pub fn ask(&mut self, packet: &str) -> String {
        self.send(&packed(packet.as_bytes()));
        loop {
            let answer = self.answer().expect("the server is there");
            if !answer.starts_with('O') || answer == "OK" {
                return answer;
            }
        }
    }
}
