//! The drawn files, by their shape alone.

use draw::srecords::{draw_file, draw_good_file, draw_length};
use draw::Urn;

const FILES: u64 = 2000;

#[test]
fn a_seed_draws_the_same_files_again() {
    let draw = |case| {
        let mut urn = Urn::of_case(1, case);
        let length = draw_length(&mut urn);
        (length, draw_file(&mut urn, length))
    };
    assert!((0..FILES).all(|case| draw(case) == draw(case)));
    assert!((1..FILES).any(|case| draw(case) != draw(0)));
}

#[test]
fn a_good_file_is_lines_of_records_up_to_an_end_record() {
    for case in 0..FILES {
        let file = draw_good_file(&mut Urn::of_case(2, case), 64);
        let text = String::from_utf8(file).expect("plain text");
        let types: Vec<_> = text.lines().map(|line| line.as_bytes()[1]).collect();
        let (last, others) = types.split_last().expect("a line at least");
        assert!(text.ends_with('\n') && text.lines().all(|line| line.starts_with('S') && line.len() >= 10), "{text}");
        assert!(b"789".contains(last) && others.iter().all(|kind| b"01235".contains(kind)), "{text}");
    }
}
