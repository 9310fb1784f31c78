//! A run drawn over time-codes, as one page: what happened, in the lanes of the initiators. Nothing is worked out here that the box has not
//! answered or recorded.

pub mod chart;
pub mod gather;
pub mod legend;
pub mod page;
pub mod rows;
pub mod shapes;
pub mod words;
