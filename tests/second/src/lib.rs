//! A second implementation of document 01 and of the customer requests, ahead of the library for some,
//! written from their words alone and slow on purpose, to hold the verified one against.
//! The C next door answers the same questions at speed.

pub mod archive;
pub mod blank;
pub mod c;
pub mod capture;
pub mod command;
pub mod export;
pub mod generate;
pub mod memory;
pub mod month;
pub mod openings;
pub mod packed;
pub mod part;
pub mod play;
pub mod refresh;
pub mod rules;
pub mod schedule;
pub mod sleep;
pub mod verdict;
pub mod why;

pub use blank::blank;
pub use capture::Refusal;
pub use export::{read_export, write_export};
pub use memory::{plain, replay, Outcome};
pub use month::month;
pub use openings::open_row;
pub use play::play;
pub use schedule::schedule;
pub use verdict::{cells, judge, judge_recording, Answer};
pub use why::{kept, why};
