//! What a step would do and access, asked before drawn steps of a case: both answers, and that asking changes nothing.

use crate::case::{bytes, Case};
use crate::report::{buffers, states, words, Difference};
use crate::runs::{draw_event, event, start_of};
use crate::tally::Tally;
use crate::Subject;
use draw::Urn;

/// One step in so many is asked about, and a halted core.
const SHARE: u32 = 6;

/// Before the first step as the case gives it, refused or not, then along the second implementation's run.
pub fn compare(subject: &Subject, case: &Case, urn: &mut Urn, tally: &mut Tally) -> Result<(), Difference> {
    ask(subject, &case.state, &case.memory, draw_event(case, urn), tally)?;
    let mut memory = case.memory.clone();
    let Ok(mut core) = second::accept(subject.profile, &case.state, &memory, &case.events, case.budget) else {
        return Ok(());
    };
    for step in 0..case.budget {
        let event = event(case, step);
        if core.halt != 0 || urn.below(SHARE) == 0 {
            ask(subject, &bytes(&core.to_words()), &memory, event, tally)?;
        }
        if core.halt != 0 {
            break;
        }
        core.step(subject.profile, &mut memory, event);
    }
    Ok(())
}

fn ask(subject: &Subject, state: &[u8], memory: &[u8], event: u8, tally: &mut Tally) -> Result<(), Difference> {
    let Subject { profile, library } = *subject;
    let expected = [second::tell(profile, state, memory, event), second::access(profile, state, memory, event)];
    let (mut lent_state, mut lent_memory) = (state.to_vec(), memory.to_vec());
    let given = [library.tell, library.access].map(|ask| ask(&mut lent_state, &mut lent_memory, event));
    tally.ask(expected[0], expected[1]);
    if given == expected && lent_state == state && lent_memory == memory {
        return Ok(());
    }
    let lines = [
        words("tell", expected[0], given[0]),
        words("access", expected[1], given[1]),
        states(state, &lent_state),
        buffers("memory", memory, &lent_memory),
    ];
    Err(Difference::told(&format!("asked before a step: {}", start_of(profile, state, memory, event)), lines.concat()))
}
