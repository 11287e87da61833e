//! `issue [ROUNDS]`: times the writing of a key call with its MAC, from one order, by the proved library of the issuer and by `builder`, in
//! turn. A line has the call, its bytes, and microseconds: least and median of each of the two.

use builder::{CreateKey, Issuer};
use issuer::{KeyOrder, PinKind, Session, LONGEST_CALL};
use std::hint::black_box;
use std::time::Instant;

/// Calls that are timed together, for one takes little longer than to look at the clock.
const TOGETHER: u32 = 16;

fn main() {
    let rounds = std::env::args().nth(1).map_or(20_000, |word| word.parse().expect("a number of rounds"));
    let issuer = Issuer { session: 65_536, session_key: [7; 32], counter: 5 };
    let session = Session { session: issuer.session, session_key: issuer.session_key, counter: issuer.counter };
    let built = CreateKey {
        id: b"issuer-object-0003".to_vec(),
        server_seed: vec![5; 32],
        policy: 65_538,
        policy_id: b"issuer-object-0001".to_vec(),
        pin_value: vec![6; 32],
        pin_in_data: Some(vec![6; 32]),
        friendly_name: b"Badge of the main building".to_vec(),
        ..CreateKey::default()
    };
    let order = KeyOrder {
        id: &built.id,
        server_seed: &built.server_seed,
        policy: built.policy,
        policy_id: &built.policy_id,
        pin_kind: PinKind::Issuer,
        pin_value: &built.pin_value,
        friendly_name: &built.friendly_name,
        ..KeyOrder::default()
    };
    let mut out = [0; LONGEST_CALL];
    let call = built.build(&issuer).call;
    assert_eq!(order.build(&session, &mut out).map(|length| &out[..length]), Ok(&call[..]));

    let mut times = [vec![], vec![]];
    for _ in 0..rounds {
        let start = Instant::now();
        for _ in 0..TOGETHER {
            black_box(black_box(&order).build(&session, &mut out)).expect("in range");
        }
        times[0].push(start.elapsed() / TOGETHER);
        let start = Instant::now();
        for _ in 0..TOGETHER {
            black_box(black_box(&built).build(&issuer));
        }
        times[1].push(start.elapsed() / TOGETHER);
    }
    print!("10 key\t{}", call.len());
    for times in &mut times {
        times.sort_unstable();
        print!("\t{:.2}\t{:.2}", times[0].as_nanos() as f64 / 1e3, times[rounds / 2].as_nanos() as f64 / 1e3);
    }
    println!();
}
