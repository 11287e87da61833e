//! Orders in the builder's words, written by the proved library and held against what the builder writes.

use builder::Issuer;
use issuer::{
    CloseOrder, KeyOrder, PathOrder, PinKind, PolicyOrder, PostMethod, PostOrder, PukOrder, Refusal, Session,
};
use trials::notation::{hex, FILL};
use trials::ordered::Ordered;

/// The session in the words of `issuer`.
pub fn session(issuer: &Issuer) -> Session {
    Session { session: issuer.session, session_key: issuer.session_key, counter: issuer.counter }
}

/// Has the library write an order into filled buffers: a long one, one that fits, one that is a byte short, and an empty
/// one. Tells where anything is other than promised: the call is the builder's, what is behind it or refused stays as it
/// was, and an order out of range is refused as such, be the buffer as it may. Gives false, and tries nothing, where the
/// types of `issuer` have no word for what was ordered.
pub fn hold(issuer: &Issuer, ordered: &Ordered, in_range: bool) -> Result<bool, String> {
    let call = ordered.build(issuer).call;
    for room in [call.len() + 7, call.len(), call.len() - 1, 0] {
        let mut out = vec![FILL; room];
        let Some(told) = issue(issuer, ordered, &mut out) else {
            return Ok(false);
        };
        let (expected, front): (_, &[u8]) = match in_range {
            false => (Err(Refusal::OutOfRange), &[]),
            true if room < call.len() => (Err(Refusal::ShortBuffer), &[]),
            true => (Ok(call.len()), &call),
        };
        let (written, rest) = out.split_at(front.len());
        if told != expected || written != front || rest.iter().any(|&byte| byte != FILL) {
            return Err(format!(
                "{issuer:?} orders {ordered:?}\ninto {room} bytes: {told:?}, where {expected:?} was expected\nleft {}\nbuilder {}\n",
                hex(&out),
                hex(&call)
            ));
        }
    }
    Ok(true)
}

/// What the library makes of an order.
fn issue(issuer: &Issuer, ordered: &Ordered, out: &mut [u8]) -> Option<Result<usize, Refusal>> {
    let session = session(issuer);
    Some(match ordered {
        Ordered::Close(close) => {
            CloseOrder { client_session_id: &close.client_session_id, nonce: &close.nonce }.build(&session, out)
        }
        Ordered::Puk(new) => PukOrder {
            id: &new.id,
            encrypted_value: &new.encrypted_value,
            format: new.format,
            retry_limit: new.retry_limit,
        }
        .build(&session, out),
        Ordered::Policy(new) => PolicyOrder {
            id: &new.id,
            puk: new.puk,
            puk_id: behind(new.puk, &new.puk_id)?,
            user_defined: flag(new.user_defined)?,
            user_modifiable: flag(new.user_modifiable)?,
            format: new.format,
            retry_limit: new.retry_limit,
            grouping: new.grouping,
            patterns: new.patterns,
            min: new.min,
            max: new.max,
            input_method: new.input_method,
        }
        .build(&session, out),
        Ordered::Key(new) => KeyOrder {
            id: &new.id,
            algorithm: &new.algorithm,
            server_seed: &new.server_seed,
            policy: new.policy,
            policy_id: behind(new.policy, &new.policy_id)?,
            pin_kind: match &new.pin_in_data {
                None if new.policy == 0 => PinKind::None,
                None => PinKind::User,
                Some(pin) if new.policy != 0 && *pin == new.pin_value => PinKind::Issuer,
                Some(_) => return None,
            },
            pin_value: &new.pin_value,
            pin_caching: flag(new.pin_caching)?,
            biometric_protection: new.biometric_protection,
            export_protection: new.export_protection,
            delete_protection: new.delete_protection,
            app_usage: new.app_usage,
            friendly_name: &new.friendly_name,
            key_algorithm: &new.key_algorithm,
            key_parameters: &new.key_parameters,
            endorsed_algorithms: Some(new.endorsed_algorithms).filter(|_| new.endorsed_strings.is_empty())?,
        }
        .build(&session, out),
        Ordered::Path(path) if path.miscount != 0 => return None,
        Ordered::Path(path) => PathOrder {
            key: path.key,
            key_id: &path.key_id,
            public_key: &path.public_key,
            certificates: &path.certificates.iter().map(Vec::as_slice).collect::<Vec<_>>(),
        }
        .build(&session, out),
        Ordered::Post(post) => PostOrder {
            method: if post.method == 50 { PostMethod::Delete } else { PostMethod::Unlock },
            key: post.key,
            authorization: &post.authorization,
        }
        .build(&session, out),
    })
}

/// The ID behind a handle. Behind 0 there is none, and no other word than `#N/A` for it, which the library knows.
fn behind(handle: u32, id: &[u8]) -> Option<&[u8]> {
    match handle {
        0 => (id == b"#N/A").then_some(&[]),
        _ => Some(id),
    }
}

fn flag(byte: u8) -> Option<bool> {
    (byte <= 1).then_some(byte == 1)
}
