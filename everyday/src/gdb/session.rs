//! The remote protocol: what a packet asks for and what it is answered. What is not known here is answered with nothing, which is
//! how gdb learns that it must do without.

use super::core::{Core, Interrupted, Stopped};
use super::description::{self, Described};
use super::monitor;
use super::packet::{bytes_of, hex, number, LONGEST};
use super::stops::{Kind, Stop, Stops};
use crate::library::Refusal;
use crate::registers::State;

/// A packet that makes no sense.
pub const MALFORMED: &str = "E01";
/// Bytes outside the memory lent, or a stop there.
const OUTSIDE: &str = "E02";

pub struct Session {
    pub core: Core,
    registers: Vec<Described>,
    stopped: Stopped,
}

/// What is sent for a packet, and what becomes of the session.
#[derive(Debug, PartialEq)]
pub struct Answer {
    pub packets: Vec<Vec<u8>>,
    pub then: Then,
}

#[derive(Clone, Copy, Debug, PartialEq)]
pub enum Then {
    GoOn,
    /// Packets are acknowledged no more.
    WithoutAcks,
    /// The debugger goes; another may come.
    Detach,
    /// The bench ends.
    End,
}

impl From<String> for Answer {
    fn from(text: String) -> Answer {
        Answer { packets: vec![text.into_bytes()], then: Then::GoOn }
    }
}

impl From<&str> for Answer {
    fn from(text: &str) -> Answer {
        String::from(text).into()
    }
}

impl Answer {
    fn and(self, then: Then) -> Answer {
        Answer { then, ..self }
    }
}

/// An answer that ends the work on a packet, because it makes no sense or the like.
type Answered<T> = Result<T, &'static str>;

impl Session {
    pub fn new(core: Core) -> Session {
        Session { core, registers: description::registers(), stopped: Stopped::here() }
    }

    /// A debugger comes: what one before it has set is gone, and the core is where it was left.
    pub fn begin(&mut self) {
        self.core.stops = Stops::new(self.core.capture().memory.len());
        self.stopped = Stopped::here();
    }

    /// The answer to a packet. A run looks now and then whether it is to stop.
    pub fn answer(&mut self, packet: &[u8], interrupted: Interrupted) -> Answer {
        self.answered(packet, interrupted).unwrap_or_else(Answer::from)
    }

    fn answered(&mut self, packet: &[u8], interrupted: Interrupted) -> Answered<Answer> {
        let Some((&kind, rest)) = packet.split_first() else { return Ok("".into()) };
        Ok(match kind {
            b'?' => self.stopped.told().into(),
            b'g' => self.all_registers().into(),
            b'G' => self.put_registers(rest)?.into(),
            b'p' => self.register(rest)?.into(),
            b'P' => self.put_register(rest)?.into(),
            b'm' => self.memory(rest)?.into(),
            b'M' => self.put_memory(rest, bytes_of)?.into(),
            b'X' => self.put_memory(rest, |bytes| Some(bytes.to_vec()))?.into(),
            b'c' | b'C' => self.go(kind, rest, |core| core.go_on(interrupted))?,
            b's' | b'S' => self.go(kind, rest, Core::step)?,
            b'b' => match rest {
                b"c" => self.gone(|core| core.go_back(interrupted)),
                b"s" => self.gone(Core::step_back),
                _ => "".into(),
            },
            b'Z' => self.set_stop(rest)?.into(),
            b'z' => self.unset_stop(rest)?.into(),
            // there is one core, and its thread is whichever is named
            b'H' | b'T' => "OK".into(),
            b'D' => Answer::from("OK").and(Then::Detach),
            b'k' => Answer { packets: Vec::new(), then: Then::End },
            _ => self.named(packet)?,
        })
    }

    /// Packets that have a name.
    fn named(&mut self, packet: &[u8]) -> Answered<Answer> {
        let (name, rest) =
            packet.split_at(packet.iter().position(|byte| b":;,?".contains(byte)).unwrap_or(packet.len()));
        Ok(match name {
            b"qSupported" => supported().into(),
            b"QStartNoAckMode" => Answer::from("OK").and(Then::WithoutAcks),
            // quitting gdb leaves the core to the next debugger
            b"qAttached" => "1".into(),
            b"qXfer" => self.described(rest)?,
            b"qRcmd" => self.monitored(rest)?,
            b"vKill" => Answer::from("OK").and(Then::End),
            _ => "".into(),
        })
    }

    fn all_registers(&self) -> String {
        let state = &self.core.capture().state;
        self.registers.iter().map(|register| description::shown(state, register)).collect()
    }

    fn register(&self, digits: &[u8]) -> Answered<String> {
        let register = self.numbered(digits)?;
        Ok(description::shown(&self.core.capture().state, register))
    }

    fn numbered(&self, digits: &[u8]) -> Answered<&Described> {
        let number = number(digits).ok_or(MALFORMED)?;
        self.registers.get(number as usize).ok_or(MALFORMED)
    }

    fn put_register(&mut self, rest: &[u8]) -> Answered<String> {
        let (register, digits) = split(rest, b'=')?;
        let Described { name, place } = self.numbered(register)?;
        let word = number(digits).filter(|_| digits.len() == 8).ok_or(MALFORMED)?;
        let Some(place) = *place else { return Ok(format!("E.the core has no {name}; there is nothing to write")) };
        let mut state = self.core.capture().state.clone();
        state.put(place, word);
        Ok(self.put_state(state))
    }

    /// All registers at once; what is not there is left as it is.
    fn put_registers(&mut self, digits: &[u8]) -> Answered<String> {
        if digits.len() != 8 * self.registers.len() {
            return Err(MALFORMED);
        }
        let mut state = self.core.capture().state.clone();
        for (register, digits) in self.registers.iter().zip(digits.chunks(8)) {
            if let (Some(place), false) = (register.place, digits == b"xxxxxxxx") {
                state.put(place, number(digits).ok_or(MALFORMED)?);
            }
        }
        Ok(self.put_state(state))
    }

    fn put_state(&mut self, state: State) -> String {
        self.core.put_state(state).map_or_else(|words| format!("E.{words}"), |()| "OK".into())
    }

    /// As many of the bytes asked for as are inside, or an error if the first is not.
    fn memory(&self, rest: &[u8]) -> Answered<String> {
        let (address, length) = split(rest, b',')?;
        let address = number(address).ok_or(MALFORMED)? as usize;
        let length = (number(length).ok_or(MALFORMED)? as usize).min(LONGEST / 2);
        let bytes = self.core.capture().memory.get(address..).filter(|bytes| !bytes.is_empty()).ok_or(OUTSIDE)?;
        Ok(hex(&bytes[..length.min(bytes.len())]))
    }

    fn put_memory(&mut self, rest: &[u8], read: impl Fn(&[u8]) -> Option<Vec<u8>>) -> Answered<&'static str> {
        let (place, data) = split(rest, b':')?;
        let (address, length) = split(place, b',')?;
        let address = number(address).ok_or(MALFORMED)?;
        let length = number(length).ok_or(MALFORMED)? as usize;
        let bytes = read(data).filter(|bytes| bytes.len() == length).ok_or(MALFORMED)?;
        if self.core.put_memory(address, &bytes) {
            Ok("OK")
        } else {
            Err(OUTSIDE)
        }
    }

    /// On from where the core is; a signal that gdb would pass on means nothing to it, and IAR is written by itself.
    fn go(
        &mut self,
        kind: u8,
        rest: &[u8],
        go: impl FnOnce(&mut Core) -> Result<Stopped, Refusal>,
    ) -> Answered<Answer> {
        let has_signal = kind.is_ascii_uppercase();
        if has_signal && (rest.len() != 2 || number(rest).is_none()) || !has_signal && !rest.is_empty() {
            return Err(MALFORMED);
        }
        Ok(self.gone(go))
    }

    fn gone(&mut self, go: impl FnOnce(&mut Core) -> Result<Stopped, Refusal>) -> Answer {
        let stopped = match go(&mut self.core) {
            Ok(stopped) => stopped,
            // what was accepted is accepted, so this does not come
            Err(refusal) => return format!("E.refusal {refusal}").into(),
        };
        let words = stopped.words.iter().map(|words| console(&format!("ppe42: {words}\n")));
        let packets = words.chain([stopped.told().into_bytes()]).collect();
        self.stopped = stopped;
        Answer { packets, then: Then::GoOn }
    }

    fn set_stop(&mut self, rest: &[u8]) -> Answered<&'static str> {
        let Some(stop) = stop(rest)? else { return Ok("") };
        if self.core.stops.set(stop) {
            Ok("OK")
        } else {
            Err(OUTSIDE)
        }
    }

    fn unset_stop(&mut self, rest: &[u8]) -> Answered<&'static str> {
        let Some(stop) = stop(rest)? else { return Ok("") };
        self.core.stops.unset(stop);
        Ok("OK")
    }

    /// A part of the description of the registers.
    fn described(&self, rest: &[u8]) -> Answered<Answer> {
        let Some(part) = rest.strip_prefix(b":features:read:target.xml:") else { return Ok("".into()) };
        let (offset, length) = split(part, b',')?;
        let offset = number(offset).ok_or(MALFORMED)? as usize;
        let length = (number(length).ok_or(MALFORMED)? as usize).min(LONGEST / 2);
        let xml = description::xml(self.core.capture().profile);
        let left = xml.get(offset..).ok_or(MALFORMED)?;
        let more = length < left.len();
        Ok(format!("{}{}", if more { "m" } else { "l" }, if more { &left[..length] } else { left }).into())
    }

    fn monitored(&mut self, rest: &[u8]) -> Answered<Answer> {
        let line = rest.strip_prefix(b",").and_then(bytes_of).ok_or(MALFORMED)?;
        let text = monitor::command(&mut self.core, &String::from_utf8_lossy(&line));
        let parts = text.as_bytes().chunks(LONGEST / 4).map(|part| [b"O", hex(part).as_bytes()].concat());
        Ok(Answer { packets: parts.chain([b"OK".to_vec()]).collect(), then: Then::GoOn })
    }
}

fn supported() -> String {
    format!("PacketSize={LONGEST:x};qXfer:features:read+;QStartNoAckMode+;ReverseStep+;ReverseContinue+")
}

/// Text for gdb's console, while the core runs.
fn console(text: &str) -> Vec<u8> {
    format!("O{}", hex(text.as_bytes())).into_bytes()
}

fn split(bytes: &[u8], at: u8) -> Answered<(&[u8], &[u8])> {
    let middle = bytes.iter().position(|&byte| byte == at).ok_or(MALFORMED)?;
    Ok((&bytes[..middle], &bytes[middle + 1..]))
}

/// `0,ADDRESS,BYTES`; none of another kind than there is. Conditions and commands are gdb's to look after.
fn stop(rest: &[u8]) -> Answered<Option<Stop>> {
    let (kind, place) = split(rest, b',')?;
    let [digit] = *kind else { return Err(MALFORMED) };
    let Some(kind) = Kind::of(digit) else { return Ok(None) };
    let (address, bytes) = split(place, b',')?;
    let (address, bytes) = number(address).zip(number(bytes)).ok_or(MALFORMED)?;
    Ok(Some(Stop { kind, address, bytes }))
}

#[cfg(test)]
mod tests {
    use super::super::history::tests::counting;
    use super::super::history::History;
    use super::super::schedule::Schedule;
    use super::*;
    use crate::symbols::Symbols;

    fn session() -> Session {
        Session::new(Core::new(History::new(counting(), Schedule::default()), Symbols::default()))
    }

    fn ask(session: &mut Session, packet: &str) -> String {
        let answer = session.answer(packet.as_bytes(), &mut || true);
        String::from_utf8(answer.packets.concat()).expect("answers are text")
    }

    /// Packets that gdb sends only where it must: one register by itself, and all of them written.
    #[test]
    fn registers_one_by_one_and_all_at_once() {
        let mut session = session();
        let all = ask(&mut session, "g");
        assert_eq!(all.len(), 8 * 52);
        let one_by_one: String = (0..52).map(|number| ask(&mut session, &format!("p{number:x}"))).collect();
        assert_eq!(one_by_one, all);
        assert_eq!(all.matches("xxxxxxxx").count(), 16);
        let written = format!("00000007{}", &all[8..]);
        assert_eq!(ask(&mut session, &format!("G{written}")), "OK");
        assert_eq!(ask(&mut session, "g"), written);
        let refused = written.replace("xxxxxxxx", "00000000").replacen("00018000", "80018000", 1);
        assert!(ask(&mut session, &format!("G{refused}")).starts_with("E.refusal 3: MSR is 80018000"));
        assert_eq!(ask(&mut session, "g"), written, "nothing of it was written");
        assert_eq!(ask(&mut session, "Pb=00000000"), "E.the core has no r11; there is nothing to write");
        for wrong in
            ["p34", "p", "Pzz=0", "P0=0", "P0", "G00", "m", "m0", "mfffffffff,4", "c4", "C", "Z0", "Z0,0", "qRcmd,5"]
        {
            assert_eq!(ask(&mut session, wrong), MALFORMED, "{wrong}");
        }
    }

    #[test]
    fn the_description_comes_in_parts() {
        let mut session = session();
        let (mut parts, mut offset) = (String::new(), 0);
        loop {
            let part = ask(&mut session, &format!("qXfer:features:read:target.xml:{offset:x},c8"));
            parts += &part[1..];
            offset += part.len() - 1;
            if part.starts_with('l') {
                break;
            }
        }
        assert_eq!(parts, description::xml(counting().profile));
        assert!(ask(&mut session, "qXfer:features:read:other.xml:0,c8").is_empty());
    }

    #[test]
    fn memory_ends_where_it_ends() {
        let mut session = session();
        assert_eq!(ask(&mut session, "m0,4"), "38630001");
        assert_eq!(ask(&mut session, "m1fe,10"), "0000", "as much as there is");
        assert_eq!(ask(&mut session, "m1ff,ffffffff"), "00");
        for outside in ["m200,1", "mffffffff,1", "M1ff,2:0000", "Z0,200,4", "Z2,1ff,2"] {
            assert_eq!(ask(&mut session, outside), OUTSIDE, "{outside}");
        }
        assert_eq!(ask(&mut session, "M1fe,2:abcd"), "OK");
        assert_eq!(ask(&mut session, "m1fe,2"), "abcd");
        assert_eq!(ask(&mut session, "Z9,0,4"), "", "there is no such stop");
    }
}
