//! `differ SEED CASES` holds the linked library against the second implementation on random cases, from case 0 on or
//! from a third number on, `differ lines SEED LINES` likewise on random lines and their words, `differ rewriting SEED
//! RUNS` on long runs of programs that rewrite their own code, by the engine that keeps decoded words, and `differ words`
//! on all 2^32 words; with `42x` before them these are of the 42X. `differ srecords SEED FILES` takes random files of
//! S-records, and `differ same SEED CASES` holds the library's 42 and 42X against each other. The exit status is 1 if
//! anything differs.

use differ::{lines, rewriting, same, srecords, words, Difference, Subject, Tally};
use draw::Urn;
use linked::{LINKED, LINKED_42X};
use second::Profile;
use std::fmt::Display;
use std::process::ExitCode;

const SHOWN: usize = 10;
const NEWS: u64 = 100_000;

const USAGE: &str = "usage: differ [42x] [lines | rewriting] SEED COUNT [FIRST], differ [42x] words,\n\
                     or differ srecords | same SEED COUNT [FIRST]";

fn main() -> ExitCode {
    let arguments: Vec<String> = std::env::args().skip(1).collect();
    let (profile, rest) = match &arguments[..] {
        [first, rest @ ..] if first == "42x" => (Profile::Ppe42x, rest),
        rest => (Profile::Ppe42, rest),
    };
    let (mode, numbers) = match rest {
        [mode, numbers @ ..] if mode.parse::<u64>().is_err() => (mode.as_str(), numbers),
        numbers => ("", numbers),
    };
    let Some(differences) = compare(profile, mode, numbers) else {
        eprintln!("{USAGE}");
        return ExitCode::from(2);
    };
    println!("{differences} differences");
    if differences == 0 {
        ExitCode::SUCCESS
    } else {
        ExitCode::FAILURE
    }
}

/// How many differences there were, or nothing if there is no such comparison.
fn compare(profile: Profile, mode: &str, numbers: &[String]) -> Option<usize> {
    let subject = Subject::linked(profile);
    let of_both = !profile.is_42x();
    let differences = match (mode, drawn(numbers)) {
        ("words", _) if numbers.is_empty() => compare_words(&subject),
        ("", Some(drawn)) => {
            compare_each("case", drawn, Tally::of(profile), |urn, tally| differ::compare(&subject, urn, tally))
        }
        ("rewriting", Some(drawn)) => {
            let tally = rewriting::Tally::default();
            compare_each("run", drawn, tally, |urn, tally| rewriting::compare(&subject, urn, tally))
        }
        ("lines", Some(drawn)) => {
            compare_each("line", drawn, lines::Tally::default(), |urn, tally| lines::compare(&subject, urn, tally))
        }
        ("srecords", Some(drawn)) if of_both => {
            compare_each("file", drawn, srecords::Tally::default(), |urn, tally| srecords::compare(&LINKED, urn, tally))
        }
        ("same", Some(drawn)) if of_both => {
            let libraries = [LINKED, LINKED_42X];
            compare_each("case", drawn, same::Tally::default(), |urn, tally| same::compare(&libraries, urn, tally))
        }
        _ => return None,
    };
    Some(differences)
}

/// What is drawn: the seed, how many, and the number of the first.
struct Drawn {
    seed: u64,
    count: u64,
    first: u64,
}

fn drawn(numbers: &[String]) -> Option<Drawn> {
    let numbers: Option<Vec<u64>> = numbers.iter().map(|number| number.parse().ok()).collect();
    match numbers?[..] {
        [seed, count] => Some(Drawn { seed, count, first: 0 }),
        [seed, count, first] => Some(Drawn { seed, count, first }),
        _ => None,
    }
}

fn compare_words(subject: &Subject) -> usize {
    let differences = words::compare_all(subject, SHOWN);
    println!("{} words", 1u64 << 32);
    for difference in &differences {
        println!("{difference}");
    }
    differences.len()
}

/// Compares each of what is drawn, by a function that also counts what it came to.
fn compare_each<T: Display>(
    what: &str,
    drawn: Drawn,
    mut tally: T,
    compare: impl Fn(&mut Urn, &mut T) -> Result<(), Difference>,
) -> usize {
    let Drawn { seed, count, first } = drawn;
    println!("seed {seed}, {count} {what}s from {first} on");
    let mut differences = 0;
    for done in 0..count {
        let number = first + done;
        if let Err(difference) = compare(&mut Urn::of_case(seed, number), &mut tally) {
            differences += 1;
            if differences <= SHOWN {
                println!("{what} {number}: {difference}");
            }
        }
        if (done + 1) % NEWS == 0 {
            eprintln!("{} {what}s, {differences} differences", done + 1);
        }
    }
    println!("{tally}");
    differences
}
