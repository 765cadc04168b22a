//! Offers messages to a log and reads them back, by `term_log` and by plain Rust, and prints how the two compare.
//!
//! The plain log here is the same program, as one would write it in Rust: three term buffers that are used again, the
//! tests of an offer in their order, a limit by the reader's position, and a reader that walks the frames by their
//! headers.

use std::hint::black_box;
use std::time::{Duration, Instant};

unsafe extern "C" {
    fn term_log_run(message: *const u8, len: usize, offers: u64) -> u64;
    fn malloc(size: usize) -> *mut u8;
    fn realloc(start: *mut u8, size: usize) -> *mut u8;
    fn free(start: *mut u8);
}

/// What the library is told of memory: whether there is some, and where.
#[repr(C)]
struct Tried {
    ok: bool,
    start: *mut u8,
}

fn tried(start: *mut u8) -> Tried {
    static NOTHING: u8 = 0;
    if start.is_null() {
        Tried { ok: false, start: (&raw const NOTHING).cast_mut() }
    } else {
        Tried { ok: true, start }
    }
}

/// The heap of the library, which leaves it to the program that it is linked with.
#[unsafe(no_mangle)]
extern "C" fn rattle_alloc(size: usize, align: usize) -> Tried {
    tried(unsafe { malloc(if size == 0 { align } else { size }) })
}

#[unsafe(no_mangle)]
extern "C" fn rattle_realloc(start: *mut u8, _kept: usize, size: usize, align: usize) -> Tried {
    tried(unsafe { realloc(start, if size == 0 { align } else { size }) })
}

#[unsafe(no_mangle)]
extern "C" fn rattle_dealloc(start: *mut u8) {
    unsafe { free(start) }
}

const TERM: u64 = 65_536;
const MTU: usize = 1408;
const HEADER: usize = 32;

enum Offer {
    At(u64),
    TooLong,
    MaxPosition,
    BackPressured,
    AdminAction,
}

enum Content<'a> {
    Fragment(#[allow(dead_code)] u8, &'a [u8]),
    Pad(u32),
}

struct Frame<'a> {
    position: u64,
    content: Content<'a>,
    sent: usize,
}

struct Pair {
    subscription: u64,
    position: u64,
}

struct Log {
    bytes: Vec<u8>,
    tail: u64,
    messages: u64,
    pairs: Vec<Pair>,
}

fn padded(length: u64) -> u64 {
    length.div_ceil(32) * 32
}

impl Log {
    fn new() -> Log {
        let mut pairs = Vec::with_capacity(512);
        pairs.push(Pair { subscription: 1, position: 0 });
        Log { bytes: vec![0; 3 * TERM as usize], tail: 0, messages: 0, pairs }
    }

    fn limit(&self) -> u64 {
        let least = self.pairs.iter().map(|pair| pair.position).min();
        least.map_or(self.tail, |least| least + TERM / 2)
    }

    fn buffer(&self, position: u64) -> usize {
        (position / TERM % 3 * TERM) as usize
    }

    fn header(&mut self, length: u32, flags: u8, kind: u16) -> usize {
        let at = self.buffer(self.tail) + (self.tail % TERM) as usize;
        let out = &mut self.bytes[at..at + HEADER];
        out[..4].copy_from_slice(&length.to_le_bytes());
        out[4] = 0;
        out[5] = flags;
        out[6..8].copy_from_slice(&kind.to_le_bytes());
        out[8..12].copy_from_slice(&((self.tail % TERM) as u32).to_le_bytes());
        out[12..16].copy_from_slice(&9_i32.to_le_bytes());
        out[16..20].copy_from_slice(&10_i32.to_le_bytes());
        out[20..24].copy_from_slice(&5_i32.wrapping_add((self.tail / TERM) as i32).to_le_bytes());
        out[24..32].copy_from_slice(&0_u64.to_le_bytes());
        at
    }

    fn append(&mut self, flags: u8, payload: &[u8]) {
        let length = HEADER + payload.len();
        let at = self.header(length as u32, flags, 1);
        let span = padded(length as u64);
        self.bytes[at + HEADER..at + length].copy_from_slice(payload);
        self.bytes[at + length..at + span as usize].fill(0);
        self.tail += span;
    }

    fn offer(&mut self, message: &[u8]) -> Offer {
        if message.len() as u64 > TERM / 8 {
            return Offer::TooLong;
        }
        let payload = MTU - HEADER;
        let whole = (message.len() / payload) as u64;
        let rest = (message.len() % payload) as u64;
        let last = if rest > 0 || whole == 0 { padded(32 + rest) } else { 0 };
        let size = whole * MTU as u64 + last;
        if self.tail + size > TERM << 31 {
            return Offer::MaxPosition;
        }
        if self.tail >= self.limit() {
            return Offer::BackPressured;
        }
        let left = TERM - self.tail % TERM;
        if size > left {
            let at = self.header(left as u32, 0xc0, 0);
            self.bytes[at + HEADER..at + left as usize].fill(0);
            self.tail += left;
            return Offer::AdminAction;
        }
        if message.is_empty() {
            self.append(0xc0, message);
        } else {
            let count = message.len().div_ceil(payload);
            for (i, part) in message.chunks(payload).enumerate() {
                let begin = if i == 0 { 0x80 } else { 0 };
                let end = if i + 1 == count { 0x40 } else { 0 };
                self.append(begin | end, part);
            }
        }
        self.messages += 1;
        Offer::At(self.tail)
    }

    fn frames_from(&self, position: u64, budget: usize) -> Frames<'_> {
        let at = self.buffer(position);
        let end = if position / TERM == self.tail / TERM { self.tail % TERM } else { TERM };
        let start = position % TERM;
        Frames {
            rest: &self.bytes[at + start as usize..at + end as usize],
            end: position - start + end,
            budget,
        }
    }
}

struct Frames<'a> {
    rest: &'a [u8],
    end: u64,
    budget: usize,
}

impl<'a> Iterator for Frames<'a> {
    type Item = Frame<'a>;

    fn next(&mut self) -> Option<Frame<'a>> {
        let bytes = self.rest;
        let position = self.end - bytes.len() as u64;
        if bytes.len() < HEADER {
            return None;
        }
        let length = u32::from_le_bytes(bytes[..4].try_into().unwrap());
        let frame = if bytes[6] == 0 {
            Frame { position, content: Content::Pad(length), sent: HEADER }
        } else {
            let span = padded(length.into()) as usize;
            if length < 32 || span > bytes.len() {
                return None;
            }
            let payload = &bytes[HEADER..length as usize];
            Frame { position, content: Content::Fragment(bytes[5], payload), sent: span }
        };
        if frame.sent > self.budget {
            return None;
        }
        self.budget -= frame.sent;
        self.rest = match frame.content {
            Content::Fragment(..) => &bytes[frame.sent..],
            Content::Pad(_) => &[],
        };
        Some(frame)
    }
}

impl Frame<'_> {
    fn span(&self) -> u64 {
        match self.content {
            Content::Fragment(_, payload) => padded(32 + payload.len() as u64),
            Content::Pad(size) => size.into(),
        }
    }
}

fn read_term(log: &mut Log) -> u64 {
    let Some(position) = log.pairs.iter().find(|pair| pair.subscription == 1).map(|pair| pair.position) else {
        return 0;
    };
    let mut sum = 0_u64;
    let mut end = position;
    for frame in log.frames_from(position, 1_000_000) {
        end = frame.position.saturating_add(frame.span());
        if let Content::Fragment(_, payload) = frame.content {
            sum = sum.wrapping_add(frame.position).wrapping_add(payload.len() as u64);
        }
    }
    if position <= end && end <= log.tail {
        for pair in &mut log.pairs {
            if pair.subscription == 1 {
                pair.position = end;
            }
        }
    }
    sum
}

#[inline(never)]
fn plain_run(message: &[u8], offers: u64) -> u64 {
    let mut log = Log::new();
    let mut sum = 0_u64;
    for _ in 0..offers {
        match log.offer(message) {
            Offer::At(position) => sum = sum.wrapping_add(position),
            Offer::BackPressured => {
                sum = sum.wrapping_add(read_term(&mut log));
                sum = sum.wrapping_add(read_term(&mut log));
            }
            Offer::AdminAction => {}
            Offer::TooLong | Offer::MaxPosition => return 0,
        }
    }
    black_box(log.messages);
    sum
}

fn proved_run(message: &[u8], offers: u64) -> u64 {
    unsafe { term_log_run(message.as_ptr(), message.len(), offers) }
}

/// The least time of several rounds of one job.
fn least(rounds: u32, mut job: impl FnMut()) -> Duration {
    let mut least = Duration::MAX;
    for _ in 0..rounds {
        let start = Instant::now();
        job();
        least = least.min(start.elapsed());
    }
    least
}

fn main() {
    const OFFERS: u64 = 200_000;
    for size in [64, 1376] {
        let message = vec![0x61; size];
        let sum = plain_run(&message, OFFERS);
        assert!(sum > 0);
        assert_eq!(proved_run(&message, OFFERS), sum);
        let mut times = [Duration::MAX; 2];
        // In turns, so that both meet the same machine.
        for _ in 0..4 {
            times[0] = times[0].min(least(5, || {
                black_box(plain_run(black_box(&message), OFFERS));
            }));
            times[1] = times[1].min(least(5, || {
                black_box(proved_run(black_box(&message), OFFERS));
            }));
        }
        let ratio = times[0].as_secs_f64() / times[1].as_secs_f64();
        println!("{size} bytes: plain {:?}, term_log {:?}, ratio {ratio:.2}", times[0], times[1]);
    }
}
