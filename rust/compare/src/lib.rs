//! The proved box beside the reference, which shares no code with it: the same files and events for both, everything compared.

mod asked;
mod blank;
pub mod both;
pub mod cases;
mod counter_tally;
mod damage;
mod decided;
mod events;
mod field_tally;
mod fields;
pub mod large;
mod network;
mod part;
mod permits;
mod plans;
pub mod random;
mod replies;
mod sheets;
mod starts;
mod table;
pub mod tally;
mod theirs;
mod times;
mod turn_tally;
mod turns;
