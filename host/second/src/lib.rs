//! A second implementation of the store of a key token.
//!
//! It was written from the paper alone, so that it can be held against the first one: where the two differ on any
//! input, one of them has read the paper wrongly. It is meant to be read beside the paper, and its files follow
//! the paper's subjects:
//!
//! | file | subject |
//! |---|---|
//! | [`records`] | the store as records, their kinds and fields |
//! | [`soundness`] | when a store is sound |
//! | [`calls`] | the form of calls and chip bytes |
//! | [`mac`] | MACs and attestations |
//! | [`pin`] | the text of PINs and PUKs, and the counting of wrong ones |
//! | [`closing`] | close, and what the removal of a key takes with it |
//! | [`methods`] | what each method checks and changes |
//! | [`answer`] | the order of the numbers, what a refusal leaves behind, the reply |
//! | [`sha256`], [`hmac`] | FIPS 180-4 and RFC 2104 |
//!
//! The two entry points and the soundness test are total: any bytes may be handed in.

#![forbid(unsafe_code)]
#![warn(missing_docs)]

pub mod answer;
pub mod calls;
pub mod closing;
pub mod hmac;
pub mod mac;
pub mod methods;
pub mod pin;
pub mod records;
pub mod sha256;
pub mod soundness;

pub use answer::{call, call_with, format};
pub use soundness::sound;
