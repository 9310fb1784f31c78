//! Pages to be printed: one HTML file each that needs nothing else, with its style and its drawings inside, and no script.

pub mod bars;
pub mod document;
pub mod element;
pub mod graph;
pub mod head;
pub mod marks;
pub mod network;
pub mod once;
pub mod order;
pub mod page;
pub mod paths;
pub mod place;
pub mod style;
pub mod svg;
pub mod table;
pub mod times;
pub mod turns;
