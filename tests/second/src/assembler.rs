//! The word of a line (request C-12). The grammar is a set of rules, and a line is read by keeping, byte for byte, all
//! that may still follow: where nothing may, no line goes on.

use crate::disassembler::{spellings, Operand, Part, Spelling};
use crate::profile::Profile;
use std::sync::LazyLock;

/// The line is not in the grammar.
const NO_LINE: u32 = 11;
/// A value or partial value is outside 32 signed bits.
const TOO_LARGE: u32 = 12;
/// The operands make no instruction.
const NO_INSTRUCTION: u32 = 6;

/// The bytes of the longest line, which the grammar itself does not bound.
const LONGEST: usize = 256;

/// How many brackets and minuses may be open at once.
const DEEPEST: u32 = 16;

/// Refusal, column and word; refusal and column are 0 where there is a word.
pub fn assemble(profile: Profile, line: &[u8]) -> (u32, u32, u32) {
    match read(profile, line) {
        Ok(word) => (0, 0, word),
        Err((refusal, column)) => (refusal, column as u32, 0),
    }
}

fn read(profile: Profile, line: &[u8]) -> Result<u32, (u32, usize)> {
    let (column, rests) = follow(profile, line);
    if column < line.len() || !rests.iter().any(is_empty) {
        return Err((NO_LINE, column));
    }
    let spelling = spelling_of(profile, line).ok_or((NO_LINE, column))?;
    let values = values(line, spelling).map_err(|column| (TOO_LARGE, column))?;
    spelling.word(profile, &values).ok_or((NO_INSTRUCTION, 0))
}

fn spelling_of(profile: Profile, line: &[u8]) -> Option<&'static Spelling> {
    let mnemonic = line.split(|byte| *byte == b' ').next()?;
    spellings(profile).iter().find(|spelling| spelling.mnemonic.as_bytes() == mnemonic)
}

/// What a line is made of. The numbers count the brackets and minuses that are open around it.
#[derive(Clone, Copy)]
enum Symbol {
    Byte(u8),
    Digit,
    HexDigit,
    /// As many as there are, or none.
    Digits,
    HexDigits,
    Register,
    Base,
    Number,
    Sum(u32),
    /// What follows the first part of a sum.
    SumRest(u32),
    Product(u32),
    ProductRest(u32),
    Factor(u32),
}

/// Symbols that must follow one after the other, the next one last.
type Rest = Vec<Symbol>;

impl Symbol {
    /// Whether the byte is this symbol; nothing where the symbol has rules.
    fn is(self, byte: u8) -> Option<bool> {
        match self {
            Symbol::Byte(own) => Some(byte == own),
            Symbol::Digit => Some(byte.is_ascii_digit()),
            Symbol::HexDigit => Some(byte.is_ascii_hexdigit()),
            _ => None,
        }
    }

    /// The ways to write it.
    fn rules(self) -> Vec<Vec<Symbol>> {
        use Symbol::*;
        match self {
            Byte(_) | Digit | HexDigit => vec![],
            Digits => vec![vec![], vec![Digit, Digits]],
            HexDigits => vec![vec![], vec![HexDigit, HexDigits]],
            Register => vec![vec![Byte(b'r'), Digit, Digits]],
            Base => vec![vec![Register], vec![Byte(b'0')]],
            Number => vec![vec![Digit, Digits], vec![Byte(b'0'), Byte(b'x'), HexDigit, HexDigits]],
            Sum(open) => vec![vec![Product(open), SumRest(open)]],
            SumRest(open) => vec![
                vec![],
                vec![Byte(b'+'), Product(open), SumRest(open)],
                vec![Byte(b'-'), Product(open), SumRest(open)],
            ],
            Product(open) => vec![vec![Factor(open), ProductRest(open)]],
            ProductRest(open) => vec![vec![], vec![Byte(b'*'), Factor(open), ProductRest(open)]],
            Factor(DEEPEST) => vec![vec![Number]],
            Factor(open) => {
                vec![vec![Number], vec![Byte(b'('), Sum(open + 1), Byte(b')')], vec![Byte(b'-'), Factor(open + 1)]]
            }
        }
    }

    fn may_be_empty(self) -> bool {
        self.rules().iter().any(|rule| rule.is_empty())
    }
}

/// All lines of the grammar of each core, one rule for each spelling.
static LINES: LazyLock<[Vec<Rest>; 2]> =
    LazyLock::new(|| Profile::BOTH.map(|profile| spellings(profile).iter().map(whole).collect()));

fn whole(spelling: &Spelling) -> Rest {
    let space = if spelling.parts.is_empty() { "" } else { " " };
    let mnemonic = spelling.mnemonic.bytes().chain(space.bytes()).map(Symbol::Byte);
    mnemonic.chain(spelling.parts.iter().map(symbol)).rev().collect()
}

fn symbol(part: &Part) -> Symbol {
    match part {
        Part::Mark(mark) => Symbol::Byte(*mark),
        Part::Operand(Operand::Register { .. }) => Symbol::Register,
        Part::Operand(Operand::Base) => Symbol::Base,
        Part::Operand(_) => Symbol::Sum(0),
    }
}

/// All that may follow the byte, given all that may follow what comes before it.
fn after(mut rests: Vec<Rest>, byte: u8) -> Vec<Rest> {
    let mut following = vec![];
    while let Some(mut rest) = rests.pop() {
        let Some(next) = rest.pop() else {
            continue;
        };
        match next.is(byte) {
            Some(true) => following.push(rest),
            Some(false) => {}
            None => rests.extend(next.rules().iter().map(|rule| [&rest[..], &reversed(rule)].concat())),
        }
    }
    following
}

fn reversed(rule: &[Symbol]) -> Rest {
    rule.iter().rev().copied().collect()
}

/// The length of the longest start of the line with which some line of the grammar starts, not looked for beyond the
/// most bytes, and all that may follow it.
fn follow(profile: Profile, line: &[u8]) -> (usize, Vec<Rest>) {
    let mut rests = LINES[profile as usize].clone();
    for (column, byte) in line.iter().take(LONGEST).enumerate() {
        let following = after(rests, *byte);
        if following.is_empty() {
            return (column, following);
        }
        rests = following;
    }
    (line.len().min(LONGEST), rests)
}

/// Whether the line may end here.
fn is_empty(rest: &Rest) -> bool {
    rest.iter().all(|symbol| symbol.may_be_empty())
}

/// The operands of a line of the spelling, or the column of the first value that is too large.
fn values(line: &[u8], spelling: &Spelling) -> Result<Vec<i64>, usize> {
    let mut reader = Reader { line, column: spelling.mnemonic.len() + 1 };
    let mut values = vec![];
    for part in &spelling.parts {
        match part {
            Part::Mark(_) => reader.column += 1,
            Part::Operand(operand) => values.push(reader.operand(*operand)?),
        }
    }
    debug_assert_eq!(reader.column.min(line.len()), line.len(), "the values are those of the whole line");
    Ok(values)
}

/// Works out the values of a line that is in the grammar.
struct Reader<'a> {
    line: &'a [u8],
    column: usize,
}

impl Reader<'_> {
    fn operand(&mut self, operand: Operand) -> Result<i64, usize> {
        match operand {
            Operand::Register { .. } | Operand::Base => Ok(self.register()),
            _ => self.sum(),
        }
    }

    /// Its number, which is no value: however large, the line is not refused for that.
    fn register(&mut self) -> i64 {
        self.take(b"r");
        self.digits(10)
    }

    fn sum(&mut self) -> Result<i64, usize> {
        let start = self.column;
        let mut value = self.product()?;
        loop {
            let joined = if self.take(b"+") {
                value + self.product()?
            } else if self.take(b"-") {
                value - self.product()?
            } else {
                return Ok(value);
            };
            value = within(joined, start)?;
        }
    }

    fn product(&mut self) -> Result<i64, usize> {
        let start = self.column;
        let mut value = self.factor()?;
        while self.take(b"*") {
            value = within(value * self.factor()?, start)?;
        }
        Ok(value)
    }

    fn factor(&mut self) -> Result<i64, usize> {
        let start = self.column;
        if self.take(b"(") {
            let value = self.sum()?;
            self.take(b")");
            Ok(value)
        } else if self.take(b"-") {
            within(-self.factor()?, start)
        } else {
            let base = if self.take(b"0x") { 16 } else { 10 };
            within(self.digits(base), start)
        }
    }

    /// A number too large for any use is as good as a larger one.
    fn digits(&mut self, base: u32) -> i64 {
        let mut number = 0;
        while let Some(digit) = self.line.get(self.column).and_then(|byte| (*byte as char).to_digit(base)) {
            number = (number * base as i64 + digit as i64).min(1 << 32);
            self.column += 1;
        }
        number
    }

    fn take(&mut self, text: &[u8]) -> bool {
        let taken = self.line[self.column..].starts_with(text);
        if taken {
            self.column += text.len();
        }
        taken
    }
}

/// A value or partial value that starts in this column.
fn within(value: i64, start: usize) -> Result<i64, usize> {
    i32::try_from(value).map(i64::from).map_err(|_| start)
}

#[cfg(test)]
mod tests {
    use super::*;

    /// One line of each spelling, with a number in which rules meet.
    #[test]
    fn a_line_is_read_in_one_way() {
        for spelling in spellings(Profile::Ppe42x) {
            let space = if spelling.parts.is_empty() { "" } else { " " };
            let operands: String = spelling.parts.iter().map(sample).collect();
            let line = format!("{}{space}{operands}", spelling.mnemonic);
            let (column, rests) = follow(Profile::Ppe42x, line.as_bytes());
            assert_eq!((column, rests.iter().filter(|rest| is_empty(rest)).count()), (line.len(), 1), "{line}");
        }
    }

    fn sample(part: &Part) -> String {
        match part {
            Part::Mark(mark) => (*mark as char).into(),
            Part::Operand(Operand::Register { .. }) => "r00".into(),
            Part::Operand(Operand::Base) => "0".into(),
            Part::Operand(_) => "-(00-0x0a0*-1)+0*(2)--0".into(),
        }
    }
}
