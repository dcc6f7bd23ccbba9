//! The tables of forms against the reader of words.

use draw::{Form, Urn, FORMS, FORMS_42X};
use second::{Kind, Profile, Word};
use std::collections::BTreeSet;

fn forms(profile: Profile) -> Vec<&'static Form> {
    match profile {
        Profile::Ppe42 => FORMS.iter().collect(),
        Profile::Ppe42x => FORMS_42X.clone(),
    }
}

#[test]
fn the_forms_have_as_many_words_as_are_legal() {
    for (profile, legal) in [(Profile::Ppe42, 551_620_132), (Profile::Ppe42x, 573_385_749)] {
        assert_eq!(forms(profile).iter().map(|form| form.count()).sum::<u64>(), legal);
    }
}

#[test]
fn the_forms_are_the_instructions() {
    for profile in Profile::BOTH {
        let mnemonics: BTreeSet<_> = forms(profile).iter().map(|form| form.mnemonic).collect();
        let kinds = Kind::ALL.into_iter().filter(|kind| profile.has(*kind));
        assert_eq!(mnemonics, kinds.map(Kind::mnemonic).collect());
    }
    let in_order: Vec<_> = FORMS.iter().map(|form| form.mnemonic).collect();
    assert!(in_order.is_sorted_by_key(|mnemonic| Kind::ALL.iter().position(|kind| kind.mnemonic() == *mnemonic)));
}

#[test]
fn a_drawn_word_reads_as_its_form_and_is_written_again() {
    let mut urn = Urn::new(1);
    for profile in Profile::BOTH {
        for form in forms(profile) {
            for _ in 0..2000 {
                let word = form.draw(&mut urn);
                assert_eq!(Word(word).kind(profile).map(Kind::mnemonic), Some(form.mnemonic), "{word:08X}");
                assert_eq!(form.write(word), word);
            }
        }
    }
}
