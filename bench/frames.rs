//! Reads and writes datagrams by `frame_codec` and by plain Rust, and prints how the two compare.
//!
//! The plain reader and writer here are the same program, as one would write it in Rust: each kind of packet, all tests
//! of a datagram in their order, and every field of each frame; with the same hints on inlining.

use std::hint::black_box;
use std::time::{Duration, Instant};

unsafe extern "C" {
    fn frame_codec_read(start: *const u8, len: usize) -> u64;
    fn frame_codec_write(start: *mut u8, len: usize, term_offset: u32, payload: *const u8, payload_len: usize) -> u64;
}

fn codec_read(bytes: &[u8]) -> u64 {
    unsafe { frame_codec_read(bytes.as_ptr(), bytes.len()) }
}

fn codec_write(out: &mut [u8], term_offset: u32, payload: &[u8]) -> u64 {
    unsafe { frame_codec_write(out.as_mut_ptr(), out.len(), term_offset, payload.as_ptr(), payload.len()) }
}

#[derive(Clone, Copy, Debug)]
enum Fault {
    TooShort,
    BadVersion,
    OtherType,
    BadLength,
    Unaligned,
    Mixed,
}

#[derive(Clone, Copy)]
enum Kind {
    Pad,
    Data,
    Nak,
    Status,
    Setup,
}

#[derive(Clone, Copy, Debug)]
#[allow(dead_code)]
struct Header {
    pad: bool,
    length: u32,
    flags: u8,
    offset: u32,
    session: i32,
    stream: i32,
    term: i32,
    reserved: u64,
}

#[derive(Clone, Copy, Debug)]
struct Frame<'a> {
    header: Header,
    bytes: &'a [u8],
}

#[derive(Clone, Copy, Debug)]
struct Frames<'a> {
    rest: &'a [u8],
}

#[derive(Debug)]
#[allow(dead_code)]
enum Packet<'a> {
    Data(Frames<'a>),
    Beat(Header),
    Nak { session: i32, stream: i32, term: i32, offset: u32, length: i32 },
    Status { flags: u8, session: i32, stream: i32, term: i32, offset: u32, window: u32, receiver: u64 },
    Setup { session: i32, stream: i32, initial: i32, active: i32, offset: u32, term_length: i32, mtu: i32, ttl: i32 },
}

fn number(bytes: &[u8], at: usize) -> u32 {
    u32::from_le_bytes(bytes[at..at + 4].try_into().unwrap())
}

fn signed(bytes: &[u8], at: usize) -> i32 {
    number(bytes, at) as i32
}

fn long(bytes: &[u8], at: usize) -> u64 {
    u64::from_le_bytes(bytes[at..at + 8].try_into().unwrap())
}

fn natural(bytes: &[u8], at: usize) -> Result<u32, Fault> {
    let number = number(bytes, at);
    if number < 1 << 31 { Ok(number) } else { Err(Fault::BadLength) }
}

fn stated_length(bytes: &[u8], least: u32) -> Result<u32, Fault> {
    let stated = natural(bytes, 0)?;
    if stated < least || bytes.len() < stated as usize {
        return Err(Fault::BadLength);
    }
    Ok(stated)
}

fn aligned(offset: u32) -> Result<u32, Fault> {
    if offset % 32 == 0 { Ok(offset) } else { Err(Fault::Unaligned) }
}

fn padded(length: u64) -> u64 {
    length.div_ceil(32) * 32
}

#[inline(always)]
fn kind_of(bytes: &[u8]) -> Result<Kind, Fault> {
    if bytes.len() < 8 {
        return Err(Fault::TooShort);
    }
    if bytes[4] != 0 {
        return Err(Fault::BadVersion);
    }
    let (kind, size) = match u16::from_le_bytes([bytes[6], bytes[7]]) {
        0 => (Kind::Pad, 32),
        1 => (Kind::Data, 32),
        2 => (Kind::Nak, 28),
        3 => (Kind::Status, 36),
        5 => (Kind::Setup, 40),
        _ => return Err(Fault::OtherType),
    };
    if bytes.len() < size { Err(Fault::TooShort) } else { Ok(kind) }
}

fn header(pad: bool, length: u32, offset: u32, bytes: &[u8]) -> Header {
    Header {
        pad,
        length,
        flags: bytes[5],
        offset,
        session: signed(bytes, 12),
        stream: signed(bytes, 16),
        term: signed(bytes, 20),
        reserved: long(bytes, 24),
    }
}

#[inline(always)]
fn nak(bytes: &[u8]) -> Result<Packet<'static>, Fault> {
    stated_length(bytes, 28)?;
    Ok(Packet::Nak {
        session: signed(bytes, 8),
        stream: signed(bytes, 12),
        term: signed(bytes, 16),
        offset: aligned(natural(bytes, 20)?)?,
        length: signed(bytes, 24),
    })
}

#[inline(always)]
fn status(bytes: &[u8]) -> Result<Packet<'static>, Fault> {
    stated_length(bytes, 36)?;
    Ok(Packet::Status {
        flags: bytes[5],
        session: signed(bytes, 8),
        stream: signed(bytes, 12),
        term: signed(bytes, 16),
        offset: natural(bytes, 20)?,
        window: natural(bytes, 24)?,
        receiver: long(bytes, 28),
    })
}

#[inline(always)]
fn setup(bytes: &[u8]) -> Result<Packet<'static>, Fault> {
    stated_length(bytes, 40)?;
    Ok(Packet::Setup {
        offset: aligned(natural(bytes, 8)?)?,
        session: signed(bytes, 12),
        stream: signed(bytes, 16),
        initial: signed(bytes, 20),
        active: signed(bytes, 24),
        term_length: signed(bytes, 28),
        mtu: signed(bytes, 32),
        ttl: signed(bytes, 36),
    })
}

#[inline(always)]
fn frame(bytes: &[u8]) -> Result<Frame<'_>, Fault> {
    match kind_of(bytes)? {
        Kind::Pad => {
            let length = natural(bytes, 0)?;
            if length == 0 || length % 32 != 0 {
                return Err(Fault::BadLength);
            }
            let offset = aligned(natural(bytes, 8)?)?;
            Ok(Frame {
                header: header(true, length, offset, bytes),
                bytes: &bytes[..32],
            })
        }
        Kind::Data => {
            let length = stated_length(bytes, 32)?;
            let offset = aligned(natural(bytes, 8)?)?;
            Ok(Frame {
                header: header(false, length, offset, bytes),
                bytes: &bytes[..length as usize],
            })
        }
        Kind::Nak => nak(bytes).and(Err(Fault::Mixed)),
        Kind::Status => status(bytes).and(Err(Fault::Mixed)),
        Kind::Setup => setup(bytes).and(Err(Fault::Mixed)),
    }
}

fn behind<'a>(frame: &Frame<'_>, bytes: &'a [u8]) -> &'a [u8] {
    &bytes[(padded(frame.bytes.len() as u64) as usize).min(bytes.len())..]
}

fn follows(before: &Header, next: &Header) -> bool {
    !before.pad
        && next.session == before.session
        && next.stream == before.stream
        && next.term == before.term
        && u64::from(next.offset) == u64::from(before.offset) + padded(before.length.into())
}

/// The frames of a datagram, where all are sound and each stands behind the one before.
#[inline(always)]
fn frames(bytes: &[u8]) -> Result<Frames<'_>, Fault> {
    let first = frame(bytes)?;
    let mut before = first.header;
    let mut rest = behind(&first, bytes);
    while !rest.is_empty() {
        if rest.len() < 32 {
            return Err(Fault::TooShort);
        }
        let next = frame(rest)?;
        if !follows(&before, &next.header) {
            return Err(Fault::Mixed);
        }
        rest = behind(&next, rest);
        before = next.header;
    }
    Ok(Frames { rest: bytes })
}

impl<'a> Iterator for Frames<'a> {
    type Item = Frame<'a>;

    #[inline(always)]
    fn next(&mut self) -> Option<Frame<'a>> {
        let next = frame(self.rest).ok()?;
        self.rest = behind(&next, self.rest);
        Some(next)
    }
}

fn packet(bytes: &[u8]) -> Result<Packet<'_>, Fault> {
    match kind_of(bytes)? {
        Kind::Pad => Ok(Packet::Data(frames(bytes)?)),
        Kind::Data if bytes.len() == 32 && number(bytes, 0) == 0 => {
            let offset = aligned(natural(bytes, 8)?)?;
            Ok(Packet::Beat(header(false, 0, offset, bytes)))
        }
        Kind::Data => Ok(Packet::Data(frames(bytes)?)),
        Kind::Nak => nak(bytes),
        Kind::Status => status(bytes),
        Kind::Setup => setup(bytes),
    }
}

#[inline(never)]
fn plain_read(bytes: &[u8]) -> u64 {
    let mut sum = 0_u64;
    if let Ok(Packet::Data(frames)) = packet(bytes) {
        for frame in frames {
            sum = sum.wrapping_add(frame.header.offset.into());
            sum = sum.wrapping_add((frame.bytes.len() - 32) as u64);
        }
    }
    sum
}

#[inline(never)]
fn plain_write(out: &mut [u8], term_offset: u32, payload: &[u8]) -> u64 {
    let length = 32 + payload.len();
    let size = padded(length as u64) as usize;
    if size > out.len() {
        return 0;
    }
    out[..4].copy_from_slice(&(length as u32).to_le_bytes());
    out[4] = 0;
    out[5] = 0xc0;
    out[6..8].copy_from_slice(&1_u16.to_le_bytes());
    out[8..12].copy_from_slice(&term_offset.to_le_bytes());
    out[12..16].copy_from_slice(&9_i32.to_le_bytes());
    out[16..20].copy_from_slice(&10_i32.to_le_bytes());
    out[20..24].copy_from_slice(&5_i32.to_le_bytes());
    out[24..32].copy_from_slice(&0_u64.to_le_bytes());
    out[32..length].copy_from_slice(payload);
    out[length..size].fill(0);
    size as u64
}

/// Writes as many frames of that payload as fit, and gives where they end.
fn fill(write: fn(&mut [u8], u32, &[u8]) -> u64, out: &mut [u8], payload: &[u8]) -> usize {
    let mut end = 0;
    loop {
        let size = write(&mut out[end..], end as u32, payload);
        if size == 0 {
            return end;
        }
        end += size as usize;
    }
}

/// The least time of several rounds of one job.
fn least(rounds: u32, mut job: impl FnMut()) -> Duration {
    let mut least = Duration::MAX;
    for _ in 0..rounds {
        let start = Instant::now();
        job();
        least = least.min(start.elapsed());
    }
    least
}

fn compare(name: &str, mut codec: impl FnMut(), mut plain: impl FnMut()) {
    let many = |job: &mut dyn FnMut()| {
        least(30, || {
            for _ in 0..20_000 {
                job();
            }
        })
    };
    // In turns, so that both meet the same machine.
    let mut codec_time = many(&mut codec);
    let mut plain_time = many(&mut plain);
    codec_time = codec_time.min(many(&mut codec));
    plain_time = plain_time.min(many(&mut plain));
    let ratio = plain_time.as_secs_f64() / codec_time.as_secs_f64();
    println!("{name}: plain {plain_time:?}, frame_codec {codec_time:?}, ratio {ratio:.2}");
}

fn main() {
    for (name, payload) in [("44 frames", vec![]), ("1 frame", vec![0x61; 1376])] {
        let mut datagram = vec![0xff; 1408];
        let mut other = vec![0xff; 1408];
        assert_eq!(fill(codec_write, &mut datagram, &payload), 1408);
        assert_eq!(fill(plain_write, &mut other, &payload), 1408);
        assert_eq!(datagram, other);
        assert_eq!(codec_read(&datagram), plain_read(&datagram));
        assert!(codec_read(&datagram) > 0);
        compare(
            &format!("reading {name}"),
            || {
                black_box(codec_read(black_box(&datagram)));
            },
            || {
                black_box(plain_read(black_box(&datagram)));
            },
        );
        let mut out = vec![0; 1408];
        let mut out_too = vec![0; 1408];
        compare(
            &format!("writing {name}"),
            || {
                black_box(fill(codec_write, black_box(&mut out), black_box(&payload)));
            },
            || {
                black_box(fill(plain_write, black_box(&mut out_too), black_box(&payload)));
            },
        );
    }
}
