//! Trials of the store: crafted stores, random histories, two sessions side by side, and the notation of traces.

#![forbid(unsafe_code)]

pub mod author;
pub mod crafted;
pub mod events;
pub mod histories;
pub mod mutation;
pub mod notation;
pub mod ordered;
pub mod random;
pub mod sample;
pub mod side_by_side;
pub mod table;
