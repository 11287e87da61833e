//! What holds at every step of every history: soundness is kept, a refusal leaves behind what the paper says and no more,
//! the reply has its form, places do not matter, and the answers cover what the paper allows.

use second::records::{records, Fields, Record};
use trials::events::Events;
use trials::histories::{History, Step};
use trials::notation::{store_of_text, store_text, FILL};
use trials::random::Random;
use trials::table::{column_of, rank, Column, Table};

const ON_SESSION: [u8; 8] = [3, 5, 8, 9, 10, 12, 50, 51];

/// 60,000 steps over stores of 2 to 256 records, and as many over small ones.
#[test]
fn every_step() {
    for (seed, most_records) in [(11, 256), (12, 12)] {
        let mut table = Table::default();
        let mut events = Events::default();
        for step in History::new(seed, most_records).take(60_000) {
            check(&step);
            table.add(&step);
            events.add(&step);
        }
        println!("{}{}", table.text(), events.text());
        assert_eq!(table.missing(), [], "allowed and never met");
        assert_eq!(table.forbidden(), [], "met and not allowed");
        assert_eq!(events.missing(), [""; 0], "never happened");
    }
}

fn check(step: &Step) {
    let told = || format!("{}: {}", step.intent, step.line());
    let was_sound = second::sound(&step.before);
    assert_eq!(was_sound, second::sound(&step.after), "soundness kept: {}", told());
    let column = column_of(&step.call, step.status);
    if let Some(fault) = step.fault {
        assert!(rank(column) <= rank(fault), "refused too late, {column:?} for {fault:?}: {}", told());
    }
    assert!(was_sound || step.status == 19 || step.status == 21, "{}", told());
    assert!(reply_fits(step), "{}", told());
    assert!(left_behind(step, column), "{}", told());
}

/// Status, handle and attestation stand where they belong, zeros where they do not, and later bytes stay.
fn reply_fits(step: &Step) -> bool {
    if step.status == 21 {
        return step.reply_length < 37 && step.reply.iter().all(|&byte| byte == FILL);
    }
    let made = step.status == 0 && [2, 8, 9, 10].contains(&step.call[0]);
    let attested = step.status == 0 && [3, 10].contains(&step.call[0]);
    step.reply.len() == step.reply_length
        && step.reply[0] == step.status
        && made == (step.reply[1..5] != [0; 4])
        && attested == (step.reply[5..37] != [0; 32])
        && step.reply[37..].iter().all(|&byte| byte == FILL)
}

/// The column "left behind" of the paper's table of numbers.
fn left_behind(step: &Step, column: Column) -> bool {
    if column == Column::Status(0) {
        return true;
    }
    let same = step.before == step.after;
    if matches!(column, Column::Status(5 | 19 | 20 | 21) | Column::FirstForm) {
        return same;
    }
    let (Some(before), Some(after)) = (records(&step.before), records(&step.after)) else {
        return false;
    };
    let method = step.call[0];
    if ON_SESSION.contains(&method) {
        let handle = u32::from_be_bytes(step.call[1..5].try_into().unwrap());
        return before.iter().zip(after).all(|(was, is)| {
            let own = was.kind() != 0 && was.kind() != 6 && was.session() == handle;
            *is == if own { [0; 256] } else { *was }
        });
    }
    if column != Column::Status(1) {
        return same;
    }
    // At most one error count, one higher: byte 2 of a key, byte 3 of a PUK.
    let changed: Vec<(usize, usize)> = (0..before.len())
        .flat_map(|record| (0..256).map(move |place| (record, place)))
        .filter(|&(record, place)| before[record][place] != after[record][place])
        .collect();
    match changed[..] {
        [] => true,
        [(record, place)] => {
            let count_at = if before[record].kind() == 4 { 2 } else { 3 };
            matches!(before[record].kind(), 2 | 4)
                && place == count_at
                && after[record][place] == before[record][place] + 1
        }
        _ => false,
    }
}

fn bag(store: &[u8]) -> Vec<Record> {
    let mut bag = records(store).map_or(vec![], |records| records.to_vec());
    bag.sort_unstable();
    bag
}

/// The same records at other places answer alike and stay the same records.
#[test]
fn places_do_not_matter() {
    let mut random = Random::new(77);
    for step in History::new(13, 40).take(20_000) {
        let Some(found) = records(&step.before) else {
            continue;
        };
        let mut moved = found.to_vec();
        random.shuffle(&mut moved);
        let mut store = moved.concat();
        let mut reply = vec![FILL; step.reply_length];
        let status = second::call(&mut store, &step.call, &step.chip, &mut reply);
        assert_eq!((status, &reply), (step.status, &step.reply), "{}", step.line());
        assert_eq!(bag(&store), bag(&step.after), "{}", step.line());
    }
}

/// Any bytes at all may be handed in.
#[test]
fn noise() {
    let mut random = Random::new(99);
    for _ in 0..20_000 {
        let (length, call, chip, reply) = (random.below(1100), random.below(120), random.below(60), random.below(60));
        let mut store = random.bytes(length);
        if random.percent(50) {
            store.resize(256 * (1 + length / 256), 0);
            second::format(&mut store);
        }
        let (call, chip) = (random.bytes(call), random.bytes(chip));
        let was_sound = second::sound(&store);
        let mut reply = vec![FILL; reply];
        second::call(&mut store, &call, &chip, &mut reply);
        assert_eq!(second::sound(&store), was_sound);
    }
}

/// The lines of a trace can be read back, and one seed gives one trace.
#[test]
fn traces() {
    let lines: Vec<String> = History::new(3, 12).take(2000).map(|step| step.line()).collect();
    assert_eq!(lines, History::new(3, 12).take(2000).map(|step| step.line()).collect::<Vec<_>>());
    for (step, line) in History::new(3, 12).take(2000).zip(&lines) {
        let parts: Vec<&str> = line.split('\t').collect();
        assert_eq!(parts.len(), 7);
        assert_eq!(store_of_text(parts[0]).as_ref(), Some(&step.before));
        assert_eq!(store_of_text(parts[6]).as_ref(), Some(&step.after));
    }
    assert_eq!(store_text(&[0; 768]), ",,");
    assert_eq!(store_of_text(&store_text(&[7; 300])), Some(vec![7; 300]));
}
