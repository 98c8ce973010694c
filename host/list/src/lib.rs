//! How the lines of the lists are written: calls of the proved program `answers`, and what is expected of each.

pub mod decoder;
pub mod line;
pub mod streaming;
pub mod symbols;
pub mod varicode;
