//! Words alone: which are legal, and what is written of one that was read. The second implementation reads; the table of forms
//! writes.

use crate::case::draw_word;
use crate::report::Difference;
use crate::Subject;
use draw::{Form, Urn, FORMS, FORMS_42X};
use second::{Kind, Word};
use std::sync::LazyLock;
use std::thread;

const SOME: u32 = 16;

/// The form that writes an instruction, by its kind; of tw the 42's, which keeps TG.
static WRITERS: LazyLock<Vec<&'static Form>> = LazyLock::new(|| Kind::ALL.map(writer).to_vec());

fn writer(kind: Kind) -> &'static Form {
    let mut forms = FORMS.iter().chain(FORMS_42X.iter().copied());
    forms.find(|form| form.mnemonic == kind.mnemonic()).expect("every instruction has a form")
}

pub fn compare_some(subject: &Subject, urn: &mut Urn) -> Result<(), Difference> {
    (0..SOME).try_for_each(|_| compare(subject, draw_word(subject.profile, urn)))
}

fn compare(subject: &Subject, word: u32) -> Result<(), Difference> {
    let library = &subject.library;
    let kind = Word(word).kind(subject.profile);
    let legal = kind.is_some();
    let rewritten = kind.map_or(0, |kind| 1 << 32 | WRITERS[kind as usize].write(word) as u64);
    if (library.legal)(word) == legal as u32 && (library.rewrite)(word) == rewritten {
        return Ok(());
    }
    let (their_legal, their_rewritten) = ((library.legal)(word), (library.rewrite)(word));
    Err(Difference(format!(
        "word {word:08X}: expected {} and {rewritten:09X}, given {their_legal} and {their_rewritten:09X}",
        legal as u32
    )))
}

/// All words, on all processors; the differences, `most` of them from each processor.
pub fn compare_all(subject: &Subject, most: usize) -> Vec<Difference> {
    let workers = thread::available_parallelism().map_or(1, |n| n.get() as u64);
    let bound = |worker: u64| (worker << 32) / workers;
    thread::scope(|scope| {
        let parts: Vec<_> = (0..workers)
            .map(|i| (bound(i), bound(i + 1)))
            .map(|(from, to)| scope.spawn(move || compare_part(subject, from, to, most)))
            .collect();
        parts.into_iter().flat_map(|part| part.join().expect("comparing does not panic")).collect()
    })
}

fn compare_part(subject: &Subject, from: u64, to: u64, most: usize) -> Vec<Difference> {
    (from..to).filter_map(|word| compare(subject, word as u32).err()).take(most).collect()
}
