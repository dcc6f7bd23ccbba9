//! Packets of gdb's remote protocol: `$`, the data, `#`, and the sum of the data's bytes in two hex digits.

/// Most bytes of data that a packet has here; what is longer is passed over.
pub const LONGEST: usize = 0x10000;

/// What a debugger sends.
#[derive(Clone, Debug, PartialEq)]
pub enum Sent {
    Packet(Vec<u8>),
    /// The sum is another, or no sum.
    Garbled,
    TooLong,
    /// The last answer is wanted again.
    Again,
    /// Ctrl-C.
    Interrupt,
}

#[derive(Default)]
pub struct Parser {
    within: Within,
    data: Vec<u8>,
    sum: u8,
    too_long: bool,
}

#[derive(Clone, Copy, Default)]
enum Within {
    #[default]
    Nothing,
    Data,
    /// Behind #.
    Sum,
    /// Behind the first digit of the sum.
    SumFrom(u8),
}

impl Parser {
    /// What ends with this byte.
    pub fn take(&mut self, byte: u8) -> Option<Sent> {
        match (self.within, byte) {
            (Within::Nothing | Within::Data, b'$') => self.begin(),
            (Within::Nothing, b'-') => return Some(Sent::Again),
            (Within::Nothing, 3) => return Some(Sent::Interrupt),
            // an answer that came well, and what stands between packets
            (Within::Nothing, _) => {}
            (Within::Data, b'#') => self.within = Within::Sum,
            (Within::Data, _) => self.add(byte),
            (Within::Sum, _) => self.within = Within::SumFrom(byte),
            (Within::SumFrom(first), _) => return Some(self.end(first, byte)),
        }
        None
    }

    fn begin(&mut self) {
        *self = Parser { within: Within::Data, ..Parser::default() };
    }

    fn add(&mut self, byte: u8) {
        self.sum = self.sum.wrapping_add(byte);
        self.too_long |= self.data.len() == LONGEST;
        if !self.too_long {
            self.data.push(byte);
        }
    }

    fn end(&mut self, first: u8, second: u8) -> Sent {
        let packet = std::mem::take(self);
        let sum = hex_byte(first, second);
        if sum != Some(packet.sum) {
            Sent::Garbled
        } else if packet.too_long {
            Sent::TooLong
        } else {
            Sent::Packet(plain(&packet.data))
        }
    }
}

/// Bytes that stand for others in an answer; `*` would say that the one before it comes several times.
const ESCAPED: &[u8] = b"#$}*";
const ESCAPE: u8 = b'}';
const TURNED: u8 = 0x20;

/// The data as it was meant: the byte behind an escape has a bit turned.
fn plain(data: &[u8]) -> Vec<u8> {
    let mut plain = Vec::with_capacity(data.len());
    let mut bytes = data.iter();
    while let Some(&byte) = bytes.next() {
        match byte {
            ESCAPE => plain.extend(bytes.next().map(|next| next ^ TURNED)),
            _ => plain.push(byte),
        }
    }
    plain
}

/// The bytes that are sent for this data.
pub fn packed(data: &[u8]) -> Vec<u8> {
    let mut packet = vec![b'$'];
    for &byte in data {
        match ESCAPED.contains(&byte) {
            true => packet.extend([ESCAPE, byte ^ TURNED]),
            false => packet.push(byte),
        }
    }
    let sum = packet[1..].iter().fold(0u8, |sum, &byte| sum.wrapping_add(byte));
    packet.extend(format!("#{sum:02x}").bytes());
    packet
}

/// Bytes as hex digits.
pub fn hex(bytes: &[u8]) -> String {
    bytes.iter().map(|byte| format!("{byte:02x}")).collect()
}

/// The bytes that hex digits are, two each.
pub fn bytes_of(digits: &[u8]) -> Option<Vec<u8>> {
    let pairs = digits.chunks(2);
    pairs.map(|pair| if let [first, second] = *pair { hex_byte(first, second) } else { None }).collect()
}

/// The number that one to eight hex digits are.
pub fn number(digits: &[u8]) -> Option<u32> {
    if digits.is_empty() || digits.len() > 8 {
        return None;
    }
    digits.iter().try_fold(0, |number, &digit| Some(number << 4 | char::from(digit).to_digit(16)?))
}

fn hex_byte(first: u8, second: u8) -> Option<u8> {
    number(&[first, second]).map(|byte| byte as u8)
}

#[cfg(test)]
mod tests {
    use super::*;

    fn sent(bytes: &[u8]) -> Vec<Sent> {
        let mut parser = Parser::default();
        bytes.iter().filter_map(|&byte| parser.take(byte)).collect()
    }

    #[test]
    fn what_is_packed_is_read() {
        for data in [&b""[..], b"m0,4", b"}#$*", b"\x03\x00\xFF", &[b'}'; 100]] {
            assert_eq!(sent(&packed(data)), [Sent::Packet(data.to_vec())]);
        }
    }

    #[test]
    fn what_is_no_packet_is_told() {
        let packet = |data: &[u8]| Sent::Packet(data.to_vec());
        assert_eq!(sent(b"+$?#3f"), [packet(b"?")]);
        assert_eq!(sent(b"+-\x03$?#3F"), [Sent::Again, Sent::Interrupt, packet(b"?")]);
        assert_eq!(sent(b"$?#3e$?#zz$?##3f"), [Sent::Garbled, Sent::Garbled, Sent::Garbled]);
        assert_eq!(sent(b"$m0,$?#3f"), [packet(b"?")], "one that was begun is given up");
        assert_eq!(sent(b"$m0,4#f"), [], "one that was cut");
    }

    #[test]
    fn what_is_long_is_passed_over() {
        let long = packed(&vec![b'A'; LONGEST + 1]);
        assert_eq!(sent(&long), [Sent::TooLong]);
        assert_eq!(sent(&[&long[..], b"$?#3f"].concat())[1], Sent::Packet(b"?".to_vec()));
        assert_eq!(sent(&packed(&vec![b'A'; LONGEST])), [Sent::Packet(vec![b'A'; LONGEST])]);
    }

    #[test]
    fn numbers_have_one_to_eight_digits() {
        assert_eq!(number(b"fFfFfFfF"), Some(u32::MAX));
        for wrong in [&b""[..], b"123456789", b"-1", b"g", b"0x1"] {
            assert_eq!(number(wrong), None);
        }
        assert_eq!(bytes_of(b"00fF"), Some(vec![0, 255]));
        assert_eq!(bytes_of(b"00f"), None);
    }
}
