// Times the proved test of soundness, the plain one, and that of the second implementation, on full stores of six sorts and of 2 to 256
// records, the last of them unsound, and holds their answers against each other on those stores and on each of them with one byte changed. A line has the sort,
// the records, and the microseconds of each.
mod plain;

extern "C" {
    fn sks_sound(s: *const u8, n: usize) -> bool;
}

fn proved(s: &[u8]) -> bool {
    unsafe { sks_sound(s.as_ptr(), s.len()) }
}

const TESTS: [fn(&[u8]) -> bool; 3] = [proved, plain::is_sound, second::sound];
const ROUNDS: usize = 400;
const UNSOUND: &str = "unsound: one error too many";

fn same(s: &[u8]) -> bool {
    TESTS.iter().all(|test| test(s) == proved(s))
}

fn put(r: &mut [u8], k: usize, v: u32, n: usize) {
    for i in 0..n {
        r[k + i] = (v >> (8 * (n - 1 - i))) as u8;
    }
}

// an ID of 32 bytes that differs from every other only at its end
fn name(r: &mut [u8], k: usize, i: usize) {
    r[k] = 32;
    for b in &mut r[k + 1..k + 33] {
        *b = b'a';
    }
    r[k + 31] = b'0' + (i / 64) as u8;
    r[k + 32] = b'0' + (i % 64) as u8;
}

fn counter(r: &mut [u8], next: u32) {
    r[0] = 6;
    put(r, 4, next, 4);
}

fn session(r: &mut [u8], number: u32, state: u8, next: u32) {
    r[0] = 1;
    r[1] = state;
    put(r, 2, next, 2);
    put(r, 4, number << 16, 4);
    put(r, 8, number << 16, 4);
    name(r, 16, number as usize);
    name(r, 49, number as usize);
    put(r, 116, 65535, 2);
    r[119] = 1;
}

fn object(r: &mut [u8], kind: u8, number: u32, i: u32, parent: u32) {
    r[0] = kind;
    put(r, 4, (number << 16) + i, 4);
    put(r, 8, number << 16, 4);
    put(r, 12, parent, 4);
    if kind != 5 {
        name(r, 16, i as usize);
    }
}

fn key(r: &mut [u8], number: u32, i: u32, parent: u32) {
    object(r, 4, number, i, parent);
    r[1] = 1;
    if parent != 0 {
        r[49] = 16;
        for b in &mut r[50..66] {
            *b = b'7';
        }
    }
    r[82] = 91;
    for b in &mut r[83..174] {
        *b = 3;
    }
    for b in &mut r[179..211] {
        *b = 5;
    }
}

fn policy(r: &mut [u8], number: u32, i: u32, parent: u32) {
    object(r, 3, number, i, parent);
    r[2] = 3;
    r[3] = 1;
    r[52] = 4;
    r[53] = 16;
}

fn puk(r: &mut [u8], number: u32, i: u32) {
    object(r, 2, number, i, 0);
    r[2] = 3;
    r[49] = 16;
}

// The session stands last, so that a look-up goes through the whole store.
fn store(sort: &str, n: usize) -> Vec<u8> {
    let mut s = vec![0u8; 256 * n];
    let mut r: Vec<&mut [u8]> = s.chunks_exact_mut(256).collect();
    counter(r[0], 60000);
    let last = n - 1;
    match sort {
        "sessions" => {
            for i in 1..n {
                session(r[i], i as u32, 1, 1);
            }
        }
        "keys" => {
            session(r[last], 1, 1, 1000);
            for i in 1..last {
                key(r[i], 1, i as u32, 0);
            }
        }
        "one shared policy" => {
            session(r[last], 1, if n > 3 { 2 } else { 1 }, 1000);
            if n > 2 {
                policy(r[1], 1, 1, 0);
            }
            for i in 2..last {
                key(r[i], 1, i as u32, 65537);
            }
        }
        "PUKs, policies, keys" | UNSOUND => {
            let m = (n - 2) / 3;
            session(r[last], 1, if m > 0 { 2 } else { 1 }, 1000);
            for i in 0..m {
                let o = 3 * i as u32 + 1;
                puk(r[1 + i], 1, o);
                policy(r[1 + m + i], 1, o + 1, 65536 + o);
                key(r[1 + 2 * m + i], 1, o + 2, 65536 + o + 1);
            }
            if sort == UNSOUND {
                // a key with one error more than its policy suffers, or else a session of state 0
                if m > 0 {
                    r[3 * m][2] = 4;
                } else {
                    r[last][1] = 0;
                }
            }
        }
        _ => {
            // half keys of a closed session, half pendings on them
            session(r[last], 1, 1, 1000);
            if n >= 5 {
                let m = (n - 3) / 2;
                session(r[last - 1], 2, 2, 1000);
                for i in 0..m {
                    key(r[1 + i], 2, i as u32 + 1, 0);
                    object(r[1 + m + i], 5, 1, i as u32 + 1, 131072 + i as u32 + 1);
                    r[1 + m + i][1] = 50;
                }
            }
        }
    }
    s
}

// microseconds of each test: the least of many short runs, in turn, so that what else the machine does counts little
fn time(s: &[u8]) -> [f64; 3] {
    let mut best = [f64::MAX; 3];
    let repeats = (200_000 / (s.len() * s.len() / 4096 + 1)).clamp(1, 2_000);
    let expected = second::sound(s);
    for round in 0..ROUNDS {
        for who in (0..3).map(|k| (round + k) % 3) {
            let t = std::time::Instant::now();
            for _ in 0..repeats {
                assert_eq!(TESTS[who](std::hint::black_box(s)), expected);
            }
            best[who] = best[who].min(t.elapsed().as_secs_f64() * 1e6 / repeats as f64);
        }
    }
    best
}

fn main() {
    let sorts = ["sessions", "keys", "one shared policy", "PUKs, policies, keys", "keys and pendings", UNSOUND];
    for sort in sorts {
        let mut n = 2;
        while n <= 256 {
            let s = store(sort, n);
            assert!(same(&s) && second::sound(&s) == (sort != UNSOUND), "{sort} {n}");
            let [proved, plain, second] = time(&s);
            println!("{sort}\t{n}\t{proved:.2}\t{plain:.2}\t{second:.2}");
            n *= 2;
        }
    }
    let mut x = 88172645463325252u64;
    for sort in sorts {
        for n in [2, 3, 4, 7, 12, 17] {
            for _ in 0..20000 {
                let mut s = store(sort, n);
                x ^= x << 13;
                x ^= x >> 7;
                x ^= x << 17;
                let k = (x >> 20) as usize % s.len();
                let values = [0, 1, 2, 3, 4, 5, 6, 7, 50, 51, 0x20, 0x7f, 255, (x >> 8) as u8];
                s[k] = values[x as usize % values.len()];
                assert!(same(&s), "{sort} {n} byte {k} = {}", s[k]);
            }
        }
    }
    for n in [0, 1, 255, 256, 511, 513, 66000] {
        assert!(!proved(&vec![0; n]) && same(&vec![0; n]));
    }
}
