//! The numbers the caller sees.

use std::fmt;

/// How a call was answered, by the number of document 01.
///
/// Where a sentence says that the session ends: a refused session call removes its session with all its records and no
/// other record, while a refused user call or method 2 changes nothing.
///
/// ```
/// use sks::Status;
///
/// assert_eq!(Status(6), Status::NOT_FIT);
/// assert_eq!(Status::NOT_FIT.name(), "NOT_FIT");
/// assert!(Status::NO_SESSION.to_string().starts_with("5 NO_SESSION: No open session has that handle"));
/// ```
#[derive(Clone, Copy, Debug, PartialEq, Eq, Hash)]
pub struct Status(pub u8);

/// Each number once, with its name and its sentence.
macro_rules! table {
    ($($number:literal $name:ident $sentence:literal)*) => {
        impl Status {
            $(#[doc = $sentence] pub const $name: Status = Status($number);)*

            /// All of document 01's numbers.
            pub const ALL: &[Status] = &[$(Status::$name),*];

            /// The name, as the constants here and in sks.h have it.
            pub fn name(self) -> &'static str {
                match self.0 {
                    $($number => stringify!($name),)*
                    _ => "UNKNOWN",
                }
            }

            /// What it means and what it leaves behind, in a sentence.
            pub fn sentence(self) -> &'static str {
                match self.0 {
                    $($number => $sentence,)*
                    _ => "Document 01 has no such number.",
                }
            }
        }
    };
}

table! {
    0 DONE "Store and reply are as the method says."
    1 AUTHORIZATION "A PIN or PUK is locked or wrong; at most one error count has grown by one."
    2 FULL "No record is free, or session or object numbers are used up; the session ends."
    3 MAC "The MAC differs; the session ends."
    4 SIGNATURE "The chip did not verify the signature; the session ends."
    5 NO_SESSION "No open session has that handle; the store is unchanged."
    6 NOT_FIT "The session is not fit to close: a key lacks its path, a policy has no child, or a pending is stale; the session ends."
    7 NO_KEY "There is no such key, in the own session (method 12) or in a closed one (all others); the session ends."
    8 ALGORITHM "An algorithm is not one of those that are built; the session ends."
    16 FORM "The call does not have the form. With an unknown method or a call's length out of range the store is unchanged, else the session ends."
    17 NOT_ALLOWED "A value is out of its range or at odds with what stands in the store; the session ends."
    19 UNSOUND "The store is unsound, or its length does not fit; it is unchanged."
    20 PARENT_MISSING "An unlock or use found the key's policy or PUK missing, which no sound store gives; the store is unchanged."
    21 SHORT_REPLY "The reply has fewer than 37 bytes; neither store nor reply is changed."
}

impl Status {
    /// Whether the call was done.
    pub fn is_done(self) -> bool {
        self == Status::DONE
    }
}

impl fmt::Display for Status {
    fn fmt(&self, f: &mut fmt::Formatter) -> fmt::Result {
        write!(f, "{} {}: {}", self.0, self.name(), self.sentence())
    }
}
