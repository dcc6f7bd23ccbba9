//! The drawn lines against the reader of lines.

use draw::{draw_line, Spelling, Urn, SPELLINGS, SPELLINGS_42X};
use second::assembler::assemble;
use second::Profile;
use std::collections::{BTreeMap, BTreeSet};

fn spellings(profile: Profile) -> &'static [Spelling] {
    match profile {
        Profile::Ppe42 => &SPELLINGS,
        Profile::Ppe42x => &SPELLINGS_42X,
    }
}

#[test]
fn the_spellings_are_those_that_are_read() {
    for (profile, count) in [(Profile::Ppe42, 148), (Profile::Ppe42x, 161)] {
        let drawn: BTreeSet<_> = spellings(profile).iter().map(|(mnemonic, _)| mnemonic.to_string()).collect();
        let read = second::disassembler::spellings(profile).iter().map(|spelling| spelling.mnemonic.clone());
        assert_eq!(drawn, read.collect());
        assert_eq!(spellings(profile).len(), count);
    }
}

#[test]
fn every_spelling_is_drawn_good_and_every_refusal_met() {
    for profile in Profile::BOTH {
        let mut urn = Urn::new(1);
        let mut accepted = BTreeSet::new();
        let mut refusals: BTreeMap<u32, u32> = BTreeMap::new();
        for _ in 0..20_000 {
            let line = draw_line(&mut urn, spellings(profile));
            let (refusal, ..) = assemble(profile, &line);
            *refusals.entry(refusal).or_default() += 1;
            if refusal == 0 {
                accepted.extend(line.split(|byte| *byte == b' ').next().map(<[u8]>::to_vec));
            }
        }
        assert_eq!(accepted.len(), spellings(profile).len());
        assert_eq!(refusals.keys().copied().collect::<Vec<_>>(), [0, 6, 11, 12]);
        assert!(refusals.values().all(|count| *count > 500), "{refusals:?}");
    }
}
