//! `--expect`: how a run has to end, for a gate of releases.

use crate::capture::Capture;
use crate::numbers;
use crate::play::{End, Played};
use crate::registers::{self, HALT, REGISTERS};

/// Parts that must all hold.
pub struct Expected {
    pub text: String,
    parts: Vec<Part>,
}

enum Part {
    Halt(u32),
    Used,
    Until,
    Inside,
    Steps(u64),
    Register(usize, u32),
}

impl Expected {
    pub fn read(text: &str) -> Result<Expected, String> {
        let parts: Result<Vec<Part>, String> = text.split(',').map(|part| read_part(part.trim())).collect();
        Ok(Expected { text: text.into(), parts: parts.map_err(|wrong| format!("--expect '{text}': {wrong}"))? })
    }

    /// Whether a part asks for `--until`.
    pub fn wants_until(&self) -> bool {
        self.parts.iter().any(|part| matches!(part, Part::Until))
    }

    /// What came, part by part.
    pub fn came(&self, played: &Played, after: &Capture) -> String {
        let came = |part: &Part| match *part {
            Part::Halt(_) | Part::Used | Part::Until => outcome(played, after),
            Part::Inside => played.reached.map_or("inside".into(), |step| format!("past its memory in step {step}")),
            Part::Steps(_) => format!("steps {}", played.steps),
            Part::Register(place, _) => format!("{}={:08X}", REGISTERS[place].name, after.state.get(place)),
        };
        if played.end == End::WasHalted {
            return outcome(played, after);
        }
        self.parts.iter().map(came).collect::<Vec<_>>().join(", ")
    }

    /// Whether it is met; a capture that was halted has run nothing, and meets nothing.
    pub fn met(&self, played: &Played, after: &Capture) -> bool {
        played.end != End::WasHalted
            && self.parts.iter().all(|part| match *part {
                Part::Halt(code) => played.end == End::Halted && after.state.get(HALT) == code,
                Part::Used => played.end == End::Used,
                Part::Until => matches!(played.end, End::CameTo(_) | End::CameToWait),
                Part::Inside => played.reached.is_none(),
                Part::Steps(steps) => played.steps == steps,
                Part::Register(place, word) => after.state.get(place) == word,
            })
    }
}

/// How a run ended, in the words that `--expect` has for it.
pub fn outcome(played: &Played, after: &Capture) -> String {
    match played.end {
        End::Halted => format!("halt {}", after.state.get(HALT)),
        End::WasHalted => format!("was halted with {}", after.state.get(HALT)),
        End::CameTo(_) | End::CameToWait => "until".into(),
        End::Used => "used".into(),
    }
}

fn read_part(part: &str) -> Result<Part, String> {
    let words: Vec<&str> = part.split_whitespace().collect();
    match words[..] {
        ["used"] => Ok(Part::Used),
        ["until"] => Ok(Part::Until),
        ["inside"] => Ok(Part::Inside),
        ["steps", number] => numbers::count(number).map(Part::Steps),
        ["halt", code] => match code.parse() {
            Ok(code) if (1..=registers::MOST_HALT).contains(&code) => Ok(Part::Halt(code)),
            _ => Err(format!("'{code}' is no halt code; they go from 1 to {}", registers::MOST_HALT)),
        },
        [setting] if setting.contains('=') => register(setting),
        _ => Err(format!("'{part}' is no outcome; write 'halt CODE', 'used', 'until', 'inside', 'steps COUNT' or 'NAME=HEX', with commas between several")),
    }
}

fn register(setting: &str) -> Result<Part, String> {
    let (name, value) = setting.split_once('=').unwrap_or_default();
    if name.eq_ignore_ascii_case("halt") {
        return Err("write 'halt CODE' for a run that halts".into());
    }
    let place =
        registers::place_of(name).ok_or(format!("there is no register {name}; there are {}", registers::names()))?;
    Ok(Part::Register(place, numbers::word(value)?))
}
