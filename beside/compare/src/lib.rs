//! Random calls and random programs, answered by the port and by the released files.

pub mod child;
pub mod departing;
pub mod departures;
pub mod dice;
pub mod dump;
pub mod ends;
pub mod hash;
pub mod lines;
pub mod machine;
pub mod make;
pub mod numbers;
pub mod printed;
pub mod recipe;
pub mod release;
pub mod rows;
pub mod scripts;
pub mod shrink;
pub mod style;
pub mod values;
