//! What an issuer orders, kept beside the bytes that the author of a history makes of it.

use builder::{Built, Close, CreateKey, CreatePinPolicy, CreatePuk, Issuer, Post, SetPath};

/// An order of a call with a MAC, in the builder's words.
#[derive(Clone, Debug)]
#[expect(clippy::large_enum_variant, reason = "a step has one, and few steps stand at a time")]
pub enum Ordered {
    Close(Close),
    Puk(CreatePuk),
    Policy(CreatePinPolicy),
    Key(CreateKey),
    Path(SetPath),
    Post(Post),
}

impl Ordered {
    /// The call and its chip bytes, as ordered.
    pub fn build(&self, issuer: &Issuer) -> Built {
        match self {
            Ordered::Close(order) => order.build(issuer),
            Ordered::Puk(order) => order.build(issuer),
            Ordered::Policy(order) => order.build(issuer),
            Ordered::Key(order) => order.build(issuer),
            Ordered::Path(order) => order.build(issuer),
            Ordered::Post(order) => order.build(issuer),
        }
    }
}

macro_rules! from {
    ($($order:ident $case:ident)*) => {
        $(impl From<$order> for Ordered {
            fn from(order: $order) -> Ordered {
                Ordered::$case(order)
            }
        })*
    };
}

from! { Close Close CreatePuk Puk CreatePinPolicy Policy CreateKey Key SetPath Path Post Post }

/// A call as it is sent, perhaps spoilt, and what was ordered, if a call with a MAC was.
#[derive(Clone, Debug)]
pub struct Written {
    pub built: Built,
    pub ordered: Option<(Issuer, Ordered)>,
}

impl From<Built> for Written {
    fn from(built: Built) -> Written {
        Written { built, ordered: None }
    }
}

/// The call of an order.
pub fn write(issuer: &Issuer, order: impl Into<Ordered>) -> Written {
    let ordered = order.into();
    Written { built: ordered.build(issuer), ordered: Some((issuer.clone(), ordered)) }
}
