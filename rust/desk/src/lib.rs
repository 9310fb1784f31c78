//! What the desk tools `spwd-compile`, `spwd-show`, `spwd-sheet`, `spwd-panel` and `spwd-counter` share.
//!
//! What decides is the proved box behind the crate `spwd`: every verdict, every time and every answer is its own. What is read here of a
//! plan's bytes is only put into words.
#![forbid(unsafe_code)]

pub mod arguments;
pub mod clash;
pub mod counter;
pub mod difference;
pub mod fault;
pub mod fields;
pub mod fingerprint;
pub mod form;
pub mod further;
pub mod grid;
pub mod happening;
pub mod history;
pub mod html;
pub mod invisible;
pub mod judge;
pub mod kind;
pub mod layout;
pub mod memory;
pub mod names;
pub mod network;
pub mod no_entry;
pub mod number;
pub mod overlaps;
pub mod page;
pub mod panel;
pub mod plan;
pub mod plan_file;
pub mod running;
pub mod script;
pub mod sets;
pub mod sheet;
pub mod source;
pub mod streams;
pub mod taken;
pub mod text;
pub mod times;
pub mod told;
pub mod turns;
pub mod typed;
pub mod waiting;
pub mod ways;
pub mod words;
