//! What sets the proved programs and calls against the second implementation, and
//! inputs to try them on.
//!
//! [`generate`] makes those inputs from a seed.
//! [`program`] runs busread. [`library`] calls what is exported to C, by [`call_c!`], and
//! [`calls`] and [`made`] set those calls against the second implementation, with
//! memory from [`guarded`] and sessions as in [`layout`]; [`both`] makes a call by
//! both sides, [`several`] is the one for several chips, and [`tally`] counts what the
//! calls came to. [`chip`] is a register map with its session and banks, for tests that
//! read a few frames and look at what came of them, [`by_hand`] are samples written out,
//! and [`book`] is what a stopped run leaves. [`json`] and [`captures`] are for the bench report: what it says, and
//! the files it reads.

#![deny(warnings, unsafe_code)]

pub mod book;
pub mod both;
pub mod by_hand;
pub mod calls;
pub mod captures;
pub mod chip;
pub mod environment;
mod foreign;
pub mod generate;
pub mod guarded;
pub mod json;
pub mod layout;
pub mod library;
pub mod made;
pub mod program;
pub mod several;
pub mod tally;
