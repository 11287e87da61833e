//! Demand 3 over this implementation, and whether its premises are needed.

use second::records::{records, session, Fields};
use trials::author::{issuer_of, sessions, Author};
use trials::crafted::random_store;
use trials::random::Random;
use trials::side_by_side::{both_orders, call_on, first_close_stands, held, share_a_key, wanted, Both};

#[test]
fn orders() {
    let found = both_orders(second::call, 31, 20_000).unwrap_or_else(|told| panic!("{told}"));
    println!("{found}{:?}", found.agreed);
    assert!(found.are_enough());
}

#[test]
fn stands() {
    let found = first_close_stands(second::call, 33, 1_000).unwrap_or_else(|told| panic!("{told}"));
    println!("{found}");
    assert!(found.are_enough());
}

/// The premises are needed: without them the order shows.
#[test]
fn the_premises_are_needed() {
    let mut author = Author { random: Random::new(32) };
    let mut differ = 0;
    for _ in 0..20_000 {
        let count = author.random.between(6, 24);
        let store = random_store(&mut author.random, count);
        let found = records(&store).unwrap();
        let open = sessions(found, session::OPEN);
        let (Some(one), Some(other)) = (author.random.choose(&open), author.random.choose(&open)) else {
            continue;
        };
        if one.own() == other.own() || !share_a_key(&held(found, one.own()), &held(found, other.own())) {
            continue;
        }
        let (first, second) = (author.close(found, &one).built, author.close(found, &other).built);
        differ += u64::from(!Both::run(second::call, &store, &first, &second).agree());
    }
    assert!(differ > 20, "{differ}");
}

/// The premise on names is needed in one case: a 50 or 51 on a key of the other session while that one closes.
#[test]
fn where_the_premise_on_names_is_needed() {
    let mut author = Author { random: Random::new(34) };
    let (mut naming, mut differ) = (0, 0);
    while naming < 10_000 {
        let count = author.random.between(4, 24);
        let store = random_store(&mut author.random, count);
        let found = records(&store).unwrap();
        let open = sessions(found, session::OPEN);
        for one in &open {
            let Some(other) = author.random.choose(&open).filter(|other| other.own() != one.own()) else {
                continue;
            };
            // A call of the one on an object of the other, signed rightly.
            let objects: Vec<u32> =
                found.iter().filter(|r| r.kind() > 1 && r.session() == other.own()).map(|r| r.own()).collect();
            let Some(object) = author.random.choose(&objects) else {
                continue;
            };
            let issuer = issuer_of(one);
            let first = match author.random.below(4) {
                0 => builder::CreatePinPolicy { id: b"new".to_vec(), puk: object, ..Default::default() }.build(&issuer),
                1 => builder::CreateKey { id: b"new".to_vec(), policy: object, ..Default::default() }.build(&issuer),
                n => builder::Post::new(48 + n as u8, object).build(&issuer),
            };
            let second = call_on(&mut author, found, &other);
            if share_a_key(&wanted(found, one.own(), &first), &wanted(found, other.own(), &second)) {
                continue;
            }
            let both = Both::run(second::call, &store, &first, &second);
            if both.met_full() {
                continue;
            }
            naming += 1;
            if !both.agree() {
                differ += 1;
                assert!(matches!(first.call[0], 50 | 51) && second.call[0] == 3 && both.back.1[0] == 0);
            }
        }
    }
    println!("{naming} calls that name the other session's objects, {differ} where the order shows");
    assert!(differ > 20);
}
