//! Captures: written to buffers of many lengths, and read back whole or spoilt.

use crate::case::Case;
use crate::report::{answers, buffers, Difference};
use crate::tally::Tally;
use crate::Subject;
use draw::Urn;

const TAIL: usize = 156;

pub fn compare(subject: &Subject, case: &Case, urn: &mut Urn, tally: &mut Tally) -> Result<(), Difference> {
    compare_write(subject, case, urn, tally)?;
    compare_read(subject, case, urn, tally)
}

fn compare_write(subject: &Subject, case: &Case, urn: &mut Urn, tally: &mut Tally) -> Result<(), Difference> {
    let length = case.memory.len() + TAIL;
    let length = match urn.below(10) {
        0 => urn.below(length as u32) as usize,
        1 => length - 1,
        2..=5 => length + urn.below(40) as usize,
        _ => length,
    };
    let mut expected = vec![0xC3; length];
    let mut given = expected.clone();
    let answer = second::capture_write(subject.profile, &case.state, &case.memory, &mut expected);
    let theirs = (subject.library.capture_write)(&case.state, &case.memory, &mut given);
    tally.answer_write(answer);
    if answer == theirs && expected == given {
        return Ok(());
    }
    let lines = [answers(answer, theirs), buffers("byte", &expected, &given)].concat();
    Err(Difference::told(&format!("capture of M {:X} written to {length:X} bytes", case.memory.len()), lines))
}

fn compare_read(subject: &Subject, case: &Case, urn: &mut Urn, tally: &mut Tally) -> Result<(), Difference> {
    let file = draw_file(case, urn);
    let (expected, given) = (second::capture_check(subject.profile, &file), (subject.library.capture_check)(&file));
    tally.answer_read(expected);
    if expected == given {
        return Ok(());
    }
    Err(Difference::told(&format!("capture of {:X} bytes read", file.len()), answers(expected, given)))
}

/// The case's parts with a trailer, right as far as the case is; then now and then spoilt.
fn draw_file(case: &Case, urn: &mut Urn) -> Vec<u8> {
    let mut file = [case.memory.as_slice(), &case.state].concat();
    for word in [TAIL as u32, case.memory.len() as u32, 1] {
        file.extend(word.to_be_bytes());
    }
    let length = file.len() as u32;
    match urn.below(20) {
        0 => file.truncate(urn.below(length) as usize),
        1 => file.push(urn.word() as u8),
        2 => flip(&mut file, length - 1 - urn.below(12), urn),
        3 => flip(&mut file, length - 1 - urn.below(length.min(TAIL as u32)), urn),
        _ => {}
    }
    file
}

fn flip(file: &mut [u8], at: u32, urn: &mut Urn) {
    file[at as usize] ^= 1 << urn.below(8);
}
