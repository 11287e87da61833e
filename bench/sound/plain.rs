// The test of soundness written by hand in plain Rust, clause by clause, as the yardstick for the proved one.
const FREE: u8 = 0;
const SESSION: u8 = 1;
const PUK: u8 = 2;
const POLICY: u8 = 3;
const KEY: u8 = 4;
const PENDING: u8 = 5;
const COUNTER: u8 = 6;

fn two(r: &[u8], k: usize) -> u16 {
    u16::from_be_bytes([r[k], r[k + 1]])
}
fn four(r: &[u8], k: usize) -> u32 {
    u32::from_be_bytes([r[k], r[k + 1], r[k + 2], r[k + 3]])
}
fn own(r: &[u8]) -> u32 {
    four(r, 4)
}
fn session(r: &[u8]) -> u32 {
    four(r, 8)
}
fn parent(r: &[u8]) -> u32 {
    four(r, 12)
}
fn blank(r: &[u8]) -> bool {
    r.iter().all(|&b| b == 0)
}
fn text(r: &[u8], k: usize, longest: usize, shortest: usize) -> bool {
    let n = r[k] as usize;
    shortest <= n && n <= longest && blank(&r[k + 1 + n..k + 1 + longest])
}
fn ident(r: &[u8], k: usize) -> bool {
    text(r, k, 32, 1) && r[k + 1..k + 1 + r[k] as usize].iter().all(|b| (0x21..=0x7e).contains(b))
}
fn is_object(r: &[u8]) -> bool {
    (PUK..=PENDING).contains(&r[0])
}
fn closed(r: &[u8]) -> bool {
    r[0] == SESSION && r[1] == 2
}
fn governs(p: &[u8], k: &[u8]) -> bool {
    p[0] == POLICY && k[0] == KEY && parent(k) == own(p) && session(k) == session(p)
}

fn table(r: &[u8]) -> bool {
    match r[0] {
        FREE => blank(&r[1..]),
        SESSION => {
            (1..=2).contains(&r[1])
                && (1..=1000).contains(&two(r, 2))
                && blank(&r[12..16])
                && ident(r, 16)
                && ident(r, 49)
                && two(r, 116) >= 1
                && r[118] <= 1
                && r[119] <= 1
                && blank(&r[128..])
        }
        PUK => r[1] <= 3 && blank(&r[12..16]) && ident(r, 16) && text(r, 49, 16, 1) && blank(&r[66..]),
        POLICY => {
            r[1] <= 3
                && r[2] >= 1
                && r[3] <= 1
                && ident(r, 16)
                && r[49] <= 1
                && r[50] <= 1
                && r[51] <= 7
                && (1..=16).contains(&r[52])
                && (1..=16).contains(&r[53])
                && blank(&r[54..])
        }
        KEY => {
            r[1] <= 1
                && r[3] <= 3
                && ident(r, 16)
                && text(r, 49, 16, 0)
                && blank(&r[66..82])
                && text(r, 82, 96, 1)
                && r[211] <= 1
                && r[212] <= 3
                && blank(&r[214..])
        }
        PENDING => (50..=51).contains(&r[1]) && r[2] <= 1 && r[3] == 0 && blank(&r[16..]),
        COUNTER => blank(&r[1..4]) && (1..=65536).contains(&own(r)) && blank(&r[8..]),
        _ => false,
    }
}

fn alone(r: &[u8]) -> bool {
    if !table(r) {
        return false;
    }
    if is_object(r) {
        let (o, s) = (own(r) as u64, session(r) as u64);
        if o <= s || s + 999 < o {
            return false;
        }
    }
    match r[0] {
        SESSION => {
            own(r) == session(r)
                && own(r) >= 65536
                && own(r) % 65536 == 0
                && two(r, 114) <= two(r, 116)
                && (r[1] != 2 || blank(&r[82..114]))
        }
        PUK => r[3] <= r[2],
        POLICY => r[52] <= r[53],
        KEY => {
            let bare = parent(r) == 0;
            (!bare || (r[49] == 0 && r[2] == 0 && r[3] != 1 && r[3] != 2))
                && (bare || r[49] != 0)
                && (r[1] != 0 || blank(&r[179..211]))
        }
        PENDING => (r[2] == 1) == (parent(r) == 0),
        _ => true,
    }
}

fn distinct(x: &[u8], y: &[u8]) -> bool {
    let (k, l) = (x[0], y[0]);
    if k == COUNTER && l == COUNTER {
        return false;
    }
    if (1..=5).contains(&k) && (1..=5).contains(&l) && own(x) == own(y) {
        return false;
    }
    if (2..=4).contains(&k) && (2..=4).contains(&l) && session(x) == session(y) && x[16..49] == y[16..49] {
        return false;
    }
    if k == SESSION && l == SESSION && x[49..82] == y[49..82] {
        return false;
    }
    !(k == PENDING && l == PENDING && session(x) == session(y) && parent(x) == parent(y) && parent(x) != 0)
}

fn related(x: &[u8], y: &[u8]) -> bool {
    match x[0] {
        SESSION => {
            if is_object(y) && session(y) == own(x) {
                if own(y) as u64 >= own(x) as u64 + two(x, 2) as u64 {
                    return false;
                }
                if x[1] == 2 && y[0] == KEY && y[1] != 1 {
                    return false;
                }
                if y[0] == PENDING && x[1] != 1 {
                    return false;
                }
            }
            if y[0] == PENDING && parent(y) != 0 && own(x) == parent(y) / 65536 * 65536 {
                return x[1] == 2 && x[119] == 1;
            }
            true
        }
        COUNTER => y[0] != SESSION || (own(y) as u64) < own(x) as u64 * 65536,
        POLICY => !governs(x, y) || ((y[3] != 2 || parent(x) != 0) && y[2] <= x[2]),
        KEY => y[0] != PENDING || parent(y) != own(x) || y[1] != 51 || parent(x) != 0,
        _ => true,
    }
}

fn there(s: &[u8], k: u8, o: u32, h: u32) -> bool {
    s.chunks_exact(256).any(|r| r[0] == k && own(r) == o && session(r) == h)
}

fn child(s: &[u8], k: u8, p: &[u8]) -> bool {
    s.chunks_exact(256).any(|r| r[0] == k && parent(r) == own(p) && session(r) == session(p))
}

fn housed(s: &[u8], r: &[u8]) -> bool {
    if is_object(r) && !there(s, SESSION, session(r), session(r)) {
        return false;
    }
    let p = parent(r);
    match r[0] {
        POLICY => p == 0 || there(s, PUK, p, session(r)),
        KEY => p == 0 || there(s, POLICY, p, session(r)),
        PENDING => p == 0 || there(s, KEY, p, p / 65536 * 65536),
        SESSION => r[1] != 2 || s.chunks_exact(256).any(|k| k[0] == KEY && session(k) == own(r)),
        _ => true,
    }
}

fn used(s: &[u8], x: &[u8]) -> bool {
    !closed(x)
        || s.chunks_exact(256).all(|y| {
            session(y) != own(x)
                || match y[0] {
                    PUK => child(s, POLICY, y),
                    POLICY => child(s, KEY, y),
                    _ => true,
                }
        })
}

fn shared(s: &[u8], p: &[u8]) -> bool {
    if p[0] != POLICY || p[3] != 1 {
        return true;
    }
    let mut keys = s.chunks_exact(256).filter(|k| governs(p, k));
    match keys.next() {
        Some(first) => keys.all(|k| k[49..66] == first[49..66]),
        None => true,
    }
}

pub fn is_sound(s: &[u8]) -> bool {
    let n = s.len() / 256;
    if s.len() % 256 != 0 || n < 2 || 256 < n {
        return false;
    }
    let records = || s.chunks_exact(256);
    if !records().any(|r| r[0] == COUNTER) || !records().all(alone) {
        return false;
    }
    for (i, x) in records().enumerate() {
        if !records().skip(i + 1).all(|y| distinct(x, y)) {
            return false;
        }
    }
    records().all(|x| records().all(|y| related(x, y)))
        && records().all(|r| housed(s, r))
        && records().all(|x| used(s, x))
        && records().all(|p| shared(s, p))
}
