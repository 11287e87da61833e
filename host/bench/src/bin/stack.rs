//! `stack FILE`: how deep `sks_format` and `sks_call` go into the stack, on the calls that are timed and on the cases
//! of FILE (crates/lines/data/cases). A line has format or a method, its calls, and the most bytes that one took.
//!
//! A call runs in a thread whose stack is memory of ours, filled with one byte. Afterwards the lowest byte that is
//! another one shows how far down it went from the caller's stack pointer: return address, arguments on the stack,
//! memcpy and memset are in the count. It may have written the filling's own value, so each call is run over two
//! fillings.

use std::arch::asm;
use std::collections::BTreeMap;
use std::ffi::{c_int, c_void};

const STACK: usize = 1 << 20;

/// The C library's threads; an attribute object has 56 bytes.
type Attributes = [u64; 8];
type Start = extern "C" fn(*mut c_void) -> *mut c_void;
unsafe extern "C" {
    fn pthread_attr_init(attributes: *mut Attributes) -> c_int;
    fn pthread_attr_setstack(attributes: *mut Attributes, stack: *mut c_void, size: usize) -> c_int;
    fn pthread_create(thread: *mut usize, attributes: *const Attributes, start: Start, job: *mut c_void) -> c_int;
    fn pthread_join(thread: usize, result: *mut *mut c_void) -> c_int;
}

/// A call to be run, or format where there is none, and what comes of it: the status and the caller's stack pointer.
struct Job<'a> {
    store: &'a mut [u8],
    call: Option<(&'a [u8], &'a [u8])>,
    reply: &'a mut [u8],
    status: u8,
    from: usize,
}

extern "C" fn start(job: *mut c_void) -> *mut c_void {
    // SAFETY: `taken` lends its job until this thread is joined. The register is only read.
    let job = unsafe { &mut *job.cast::<Job>() };
    unsafe { asm!("mov {}, rsp", out(reg) job.from, options(nomem, nostack)) };
    job.status = match job.call {
        Some((call, chip)) => sks::call(job.store, call, chip, job.reply).0,
        None => sks::format(job.store).0,
    };
    std::ptr::null_mut()
}

/// The bytes of stack that a job takes, over a stack filled with this byte.
fn taken(job: &mut Job, filling: u8) -> usize {
    let mut stack = vec![u128::from_ne_bytes([filling; 16]); STACK / 16];
    let (mut attributes, mut thread, mut result) = ([0; 8], 0, std::ptr::null_mut());
    // SAFETY: stack and job are alive until the thread is joined, and nothing else uses them meanwhile.
    let faults = unsafe {
        pthread_attr_init(&mut attributes)
            | pthread_attr_setstack(&mut attributes, stack.as_mut_ptr().cast(), STACK)
            | pthread_create(&mut thread, &attributes, start, std::ptr::from_mut(job).cast())
            | pthread_join(thread, &mut result)
    };
    assert_eq!(faults, 0, "the thread did not run");
    let clean = stack.iter().flat_map(|word| word.to_ne_bytes()).take_while(|&byte| byte == filling).count();
    job.from - (stack.as_ptr().addr() + clean)
}

/// For each method how many calls there were, and the most bytes. Format is method 0, and 1 is whatever is no method.
type Deepest = BTreeMap<u8, (usize, usize)>;
const METHODS: [u8; 13] = [2, 3, 5, 8, 9, 10, 12, 50, 51, 80, 82, 83, 100];

/// Runs a call, or format, on the store; it must give this status.
fn measure(deepest: &mut Deepest, store: &mut [u8], call: Option<(&[u8], &[u8])>, reply: usize, status: u8) {
    let (before, mut bytes) = (store.to_vec(), 0);
    for filling in [0x5a, 0xc3] {
        store.copy_from_slice(&before);
        let mut job = Job { store, call, reply: &mut vec![0; reply], status: 0, from: 0 };
        bytes = taken(&mut job, filling).max(bytes);
        assert_eq!(job.status, status);
    }
    let method = call.map_or(0, |(call, _)| *call.first().filter(|byte| METHODS.contains(byte)).unwrap_or(&1));
    let entry = deepest.entry(method).or_default();
    *entry = (entry.0 + 1, bytes.max(entry.1));
}

/// What is left of the file of cases. Its layout is told in crates/lines.
struct Cases<'a>(&'a [u8]);

impl<'a> Cases<'a> {
    fn bytes(&mut self, count: usize) -> &'a [u8] {
        self.0.split_off(..count).expect("the file of cases is cut short")
    }
    fn number(&mut self, width: usize) -> usize {
        self.bytes(width).iter().fold(0, |number, &byte| number << 8 | usize::from(byte))
    }
    fn string(&mut self) -> &'a [u8] {
        let length = self.number(2);
        self.bytes(length)
    }
    /// Records, put where they belong in a store.
    fn records(&mut self, store: &mut [u8]) {
        for _ in 0..self.number(2) {
            let (from, text) = (self.number(2) * sks::RECORD, self.string());
            store[from..from + text.len()].copy_from_slice(text);
        }
    }
    fn run(&mut self, deepest: &mut Deepest) {
        let mut store = vec![];
        for _ in 0..self.number(2) {
            self.string();
            for _ in 0..self.number(2) {
                let kind = self.number(1);
                self.string();
                let size = self.number(4);
                if kind != 2 {
                    store = vec![0; size];
                }
                self.records(&mut store);
                let (call, chip, status, reply) = (self.string(), self.string(), self.number(1), self.string());
                let call = (kind != 0).then_some((call, chip));
                measure(deepest, &mut store, call, reply.len(), status as u8);
                self.records(&mut vec![0; size]);
            }
        }
    }
}

fn main() {
    let file = std::env::args().nth(1).expect("usage: stack FILE");
    let file = std::fs::read(file).expect("the file of cases");
    let mut deepest = Deepest::new();
    let (store, cases) = bench::cases();
    for case in cases {
        let call = Some((&case.built.call[..], &case.built.chip[..]));
        measure(&mut deepest, &mut store.clone(), call, sks::REPLY, case.status.0);
    }
    Cases(&file).run(&mut deepest);
    for (method, (calls, bytes)) in deepest {
        let name = ["format", "no method"].get(usize::from(method)).map_or(method.to_string(), |name| name.to_string());
        println!("{name}\t{calls}\t{bytes}");
    }
}
