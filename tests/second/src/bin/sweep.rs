//! Counts the legal words of each core among all 2^32, on all processors.

use second::Profile;
use std::process::ExitCode;
use std::thread;

const LEGAL: [(Profile, &str, u64); 2] = [(Profile::Ppe42, "42", 551_620_132), (Profile::Ppe42x, "42X", 573_385_749)];

fn main() -> ExitCode {
    let mut right = true;
    for (profile, name, expected) in LEGAL {
        let count = count_all(profile);
        println!("{name}: {count} of {} words are legal", 1u64 << 32);
        if count != expected {
            println!("expected {expected}");
            right = false;
        }
    }
    if right {
        ExitCode::SUCCESS
    } else {
        ExitCode::FAILURE
    }
}

fn count_all(profile: Profile) -> u64 {
    let workers = thread::available_parallelism().map_or(1, |n| n.get() as u64);
    let bound = |worker: u64| (worker << 32) / workers;
    thread::scope(|scope| {
        let counts: Vec<_> =
            (0..workers).map(|i| scope.spawn(move || count(profile, bound(i), bound(i + 1)))).collect();
        counts.into_iter().map(|count| count.join().expect("counting does not panic")).sum()
    })
}

fn count(profile: Profile, from: u64, to: u64) -> u64 {
    (from..to).filter(|word| second::legal(profile, *word as u32)).count() as u64
}
