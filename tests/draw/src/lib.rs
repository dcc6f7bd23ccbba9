//! Random numbers, register values, instruction words, lines and files of S-records, drawn from a seed.

#![forbid(unsafe_code)]

mod forms;
mod lines;
pub mod srecords;
mod urn;

pub use forms::{Form, FORMS, FORMS_42X, REGISTERS, SPRS};
pub use lines::{draw_line, Spelling, SPELLINGS, SPELLINGS_42X};
pub use urn::Urn;
