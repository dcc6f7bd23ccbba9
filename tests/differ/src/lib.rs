//! Random cases of a library of the bench core against the second implementation.

#![forbid(unsafe_code)]

mod asked;
mod captures;
mod case;
mod faults;
mod growth;
pub mod lines;
mod program;
mod report;
pub mod rewriting;
mod runs;
pub mod same;
pub mod srecords;
mod tally;
mod until;
pub mod words;

pub use case::Case;
pub use report::Difference;
pub use tally::Tally;

use draw::Urn;
use linked::{Library, LINKED, LINKED_42X};
use second::Profile;

/// A core under test: which of the two it is to be, and its functions.
#[derive(Clone, Copy)]
pub struct Subject {
    pub profile: Profile,
    pub library: Library,
}

impl Subject {
    /// That of the linked library.
    pub fn linked(profile: Profile) -> Subject {
        let library = match profile {
            Profile::Ppe42 => LINKED,
            Profile::Ppe42x => LINKED_42X,
        };
        Subject { profile, library }
    }
}

/// One case, in everything that is compared.
pub fn compare(subject: &Subject, urn: &mut Urn, tally: &mut Tally) -> Result<(), Difference> {
    let case = Case::draw(subject.profile, urn);
    tally.cases += 1;
    words::compare_some(subject, urn)?;
    let reference = runs::refer(subject.profile, &case, tally);
    let own = runs::compare_run(subject, &case, &reference)?;
    runs::compare_inside(subject, &case, &own, tally)?;
    runs::compare_step(subject, &case, urn, tally)?;
    captures::compare(subject, &case, urn, tally)?;
    growth::check(&subject.library, &case, &own, urn, tally)?;
    asked::compare(subject, &case, urn, tally)?;
    runs::compare_long(subject, &case, urn, tally)?;
    until::compare(subject, &case, &own, urn, tally)
}
