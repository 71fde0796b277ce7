//! A second implementation of document 01, plain and fast: one pass over the
//! samples, nothing allocated while reading. Where a request of document 02
//! changed a rule, it has the rule as it now is.
//!
//! It is written from the documents alone, without a look at the definitions that
//! the verified programs are proved against: where the two agree on thousands of
//! inputs, a slip in reading a document would have to have been made twice. Tests
//! and benchmark both set the proved side against it.
//!
//! | file | section of document 01 |
//! |---|---|
//! | `map` | The map |
//! | `session` | Registers and session; Samples and edges |
//! | `settings` | What a whole byte does: 0x0000 and 0x0001 |
//! | `registers` | What a whole byte does: all else |
//! | `reader` | Records; Numbers given back, 1 to 6 |
//! | `sender` | The sender; Numbers given back, 7 to 11 |
//! | `report` | The bench program |
//! | `rules` | what differs from chip to chip |
//! | `older` | document 02, Ask 1; its sender is in `sender` |
//! | `converter` | document 02, Ask 3 |
//! | `registers`, `reader` | document 02, Ask 4: what arms a session, and what its end moves |
//! | `setup` | document 02, Ask 6 |
//! | `touched` | document 02, Ask 7; `registers` sets the bits |
//! | `several` | document 02, Ask 10, on copies of the banks |
//! | `mend` | document 02, Ask 12 |
//! | `frames` | document 02, Ask 13 |
//! | `verdict` | the rule of the bench report, docs/rules/programs.md |
//!
//! The call for the next record, in `reader`, is the library's own: document 01
//! does not have it.

#![deny(warnings, unsafe_code)]

pub mod converter;
pub mod frames;
pub mod map;
pub mod mend;
pub mod older;
pub mod reader;
pub mod registers;
pub mod report;
pub mod rules;
pub mod sender;
pub mod session;
pub mod settings;
pub mod setup;
pub mod several;
pub mod touched;
pub mod verdict;

/// What a call that fills a lent buffer gives back: the number, and how many
/// records, samples or bytes stand at the start of the buffer (0 with any
/// refusal).
#[derive(Clone, Copy, Debug, PartialEq, Eq)]
pub struct Answer {
    pub number: u8,
    pub count: usize,
}

impl Answer {
    pub(crate) fn done(count: usize) -> Self {
        Answer { number: 0, count }
    }

    pub(crate) fn refused(number: u8) -> Self {
        Answer { number, count: 0 }
    }
}
