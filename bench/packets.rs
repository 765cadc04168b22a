//! Gives datagrams to the image of a driver, by `driver_world` and by plain Rust, and prints how the two compare.
//!
//! The plain driver here is the same program, as one would write it in Rust: a datagram is read whole and its faults are
//! looked for in their order, the image is found by its endpoint, session and stream and its publisher compared, the frames
//! are copied into a buffer of three terms, a list of what is there is kept in order and halved where a frame does not come last, and
//! each frame is answered by a word. Polls copy what they give, so that the window moves on; they are not timed.

use std::collections::VecDeque;
use std::hint::black_box;

unsafe extern "C" {
    fn driver_world_receive(
        setup: *const u8,
        setup_len: usize,
        datagrams: *const u8,
        datagrams_len: usize,
        lengths: *const u16,
        lengths_len: usize,
        time: &mut u64,
    ) -> u64;
    fn mallopt(what: i32, value: i32) -> i32;
    fn clock_gettime(clock: i32, time: &mut Timespec) -> i32;
    fn malloc(size: usize) -> *mut u8;
    fn realloc(start: *mut u8, size: usize) -> *mut u8;
    fn free(start: *mut u8);
}

#[repr(C)]
struct Timespec {
    seconds: i64,
    nanoseconds: i64,
}

/// The clock that only goes on.
const STEADY_TIME: i32 = 1;

/// What the clock shows, in nanoseconds.
fn moment() -> u64 {
    let mut time = Timespec { seconds: 0, nanoseconds: 0 };
    unsafe { clock_gettime(STEADY_TIME, &mut time) };
    (time.seconds * 1_000_000_000 + time.nanoseconds) as u64
}

/// What the library is told of memory: whether there is some, and where.
#[repr(C)]
struct Tried {
    ok: bool,
    start: *mut u8,
}

fn tried(start: *mut u8) -> Tried {
    static NOTHING: u8 = 0;
    if start.is_null() {
        Tried { ok: false, start: (&raw const NOTHING).cast_mut() }
    } else {
        Tried { ok: true, start }
    }
}

/// The heap of the library, which leaves it to the program that it is linked with.
#[unsafe(no_mangle)]
extern "C" fn rattle_alloc(size: usize, align: usize) -> Tried {
    tried(unsafe { malloc(if size == 0 { align } else { size }) })
}

#[unsafe(no_mangle)]
extern "C" fn rattle_realloc(start: *mut u8, _kept: usize, size: usize, align: usize) -> Tried {
    tried(unsafe { realloc(start, if size == 0 { align } else { size }) })
}

#[unsafe(no_mangle)]
extern "C" fn rattle_dealloc(start: *mut u8) {
    unsafe { free(start) }
}

/// How many datagrams come before what they bring is polled.
const BATCH: usize = 12;

const HEADER: usize = 32;

const SESSION: i32 = 9;

const STREAM: i32 = 10;

const INITIAL_TERM: i32 = 5;

const TERM: u64 = 65_536;

// ---- datagrams

#[derive(Clone, Copy, Debug)]
enum Fault {
    TooShort,
    BadVersion,
    OtherType,
    BadLength,
    Unaligned,
    Mixed,
}

#[derive(Clone, Copy)]
enum Kind {
    Pad,
    Data,
    Nak,
    Status,
    Setup,
}

#[derive(Clone, Copy, Debug)]
#[allow(dead_code)]
struct Header {
    pad: bool,
    length: u32,
    flags: u8,
    offset: u32,
    session: i32,
    stream: i32,
    term: i32,
    reserved: u64,
}

#[derive(Clone, Copy, Debug)]
struct Frame<'a> {
    header: Header,
    bytes: &'a [u8],
}

#[derive(Clone, Copy, Debug)]
struct Frames<'a> {
    rest: &'a [u8],
}

#[derive(Debug)]
#[allow(dead_code)]
enum Packet<'a> {
    Data(Frames<'a>),
    Beat(Header),
    Nak { session: i32, stream: i32, term: i32, offset: u32, length: i32 },
    Status { flags: u8, session: i32, stream: i32, term: i32, offset: u32, window: u32, receiver: u64 },
    Setup { session: i32, stream: i32, initial: i32, active: i32, offset: u32, term_length: i32, mtu: i32, ttl: i32 },
}

fn number(bytes: &[u8], at: usize) -> u32 {
    u32::from_le_bytes(bytes[at..at + 4].try_into().unwrap())
}

fn signed(bytes: &[u8], at: usize) -> i32 {
    number(bytes, at) as i32
}

fn long(bytes: &[u8], at: usize) -> u64 {
    u64::from_le_bytes(bytes[at..at + 8].try_into().unwrap())
}

fn natural(bytes: &[u8], at: usize) -> Result<u32, Fault> {
    let number = number(bytes, at);
    if number < 1 << 31 { Ok(number) } else { Err(Fault::BadLength) }
}

fn stated_length(bytes: &[u8], least: u32) -> Result<u32, Fault> {
    let stated = natural(bytes, 0)?;
    if stated < least || bytes.len() < stated as usize {
        return Err(Fault::BadLength);
    }
    Ok(stated)
}

fn aligned(offset: u32) -> Result<u32, Fault> {
    if offset % 32 == 0 { Ok(offset) } else { Err(Fault::Unaligned) }
}

fn padded(length: u64) -> u64 {
    length.div_ceil(32) * 32
}

#[inline(always)]
fn kind_of(bytes: &[u8]) -> Result<Kind, Fault> {
    if bytes.len() < 8 {
        return Err(Fault::TooShort);
    }
    if bytes[4] != 0 {
        return Err(Fault::BadVersion);
    }
    let (kind, size) = match u16::from_le_bytes([bytes[6], bytes[7]]) {
        0 => (Kind::Pad, 32),
        1 => (Kind::Data, 32),
        2 => (Kind::Nak, 28),
        3 => (Kind::Status, 36),
        5 => (Kind::Setup, 40),
        _ => return Err(Fault::OtherType),
    };
    if bytes.len() < size { Err(Fault::TooShort) } else { Ok(kind) }
}

fn header(pad: bool, length: u32, offset: u32, bytes: &[u8]) -> Header {
    Header {
        pad,
        length,
        flags: bytes[5],
        offset,
        session: signed(bytes, 12),
        stream: signed(bytes, 16),
        term: signed(bytes, 20),
        reserved: long(bytes, 24),
    }
}

#[inline(always)]
fn nak(bytes: &[u8]) -> Result<Packet<'static>, Fault> {
    stated_length(bytes, 28)?;
    Ok(Packet::Nak {
        session: signed(bytes, 8),
        stream: signed(bytes, 12),
        term: signed(bytes, 16),
        offset: aligned(natural(bytes, 20)?)?,
        length: signed(bytes, 24),
    })
}

#[inline(always)]
fn status(bytes: &[u8]) -> Result<Packet<'static>, Fault> {
    stated_length(bytes, 36)?;
    Ok(Packet::Status {
        flags: bytes[5],
        session: signed(bytes, 8),
        stream: signed(bytes, 12),
        term: signed(bytes, 16),
        offset: natural(bytes, 20)?,
        window: natural(bytes, 24)?,
        receiver: long(bytes, 28),
    })
}

#[inline(always)]
fn setup(bytes: &[u8]) -> Result<Packet<'static>, Fault> {
    stated_length(bytes, 40)?;
    Ok(Packet::Setup {
        offset: aligned(natural(bytes, 8)?)?,
        session: signed(bytes, 12),
        stream: signed(bytes, 16),
        initial: signed(bytes, 20),
        active: signed(bytes, 24),
        term_length: signed(bytes, 28),
        mtu: signed(bytes, 32),
        ttl: signed(bytes, 36),
    })
}

#[inline(always)]
fn frame(bytes: &[u8]) -> Result<Frame<'_>, Fault> {
    match kind_of(bytes)? {
        Kind::Pad => {
            let length = natural(bytes, 0)?;
            if length == 0 || length % 32 != 0 {
                return Err(Fault::BadLength);
            }
            let offset = aligned(natural(bytes, 8)?)?;
            Ok(Frame {
                header: header(true, length, offset, bytes),
                bytes: &bytes[..32],
            })
        }
        Kind::Data => {
            let length = stated_length(bytes, 32)?;
            let offset = aligned(natural(bytes, 8)?)?;
            Ok(Frame {
                header: header(false, length, offset, bytes),
                bytes: &bytes[..length as usize],
            })
        }
        Kind::Nak => nak(bytes).and(Err(Fault::Mixed)),
        Kind::Status => status(bytes).and(Err(Fault::Mixed)),
        Kind::Setup => setup(bytes).and(Err(Fault::Mixed)),
    }
}

fn behind<'a>(frame: &Frame<'_>, bytes: &'a [u8]) -> &'a [u8] {
    &bytes[(padded(frame.bytes.len() as u64) as usize).min(bytes.len())..]
}

fn follows(before: &Header, next: &Header) -> bool {
    !before.pad
        && next.session == before.session
        && next.stream == before.stream
        && next.term == before.term
        && u64::from(next.offset) == u64::from(before.offset) + padded(before.length.into())
}

/// The frames of a datagram, where all are sound and each stands behind the one before.
#[inline(always)]
fn frames(bytes: &[u8]) -> Result<Frames<'_>, Fault> {
    let first = frame(bytes)?;
    let mut before = first.header;
    let mut rest = behind(&first, bytes);
    while !rest.is_empty() {
        if rest.len() < 32 {
            return Err(Fault::TooShort);
        }
        let next = frame(rest)?;
        if !follows(&before, &next.header) {
            return Err(Fault::Mixed);
        }
        rest = behind(&next, rest);
        before = next.header;
    }
    Ok(Frames { rest: bytes })
}

impl<'a> Iterator for Frames<'a> {
    type Item = Frame<'a>;

    #[inline(always)]
    fn next(&mut self) -> Option<Frame<'a>> {
        let next = frame(self.rest).ok()?;
        self.rest = behind(&next, self.rest);
        Some(next)
    }
}

fn packet(bytes: &[u8]) -> Result<Packet<'_>, Fault> {
    match kind_of(bytes)? {
        Kind::Pad => Ok(Packet::Data(frames(bytes)?)),
        Kind::Data if bytes.len() == 32 && number(bytes, 0) == 0 => {
            let offset = aligned(natural(bytes, 8)?)?;
            Ok(Packet::Beat(header(false, 0, offset, bytes)))
        }
        Kind::Data => Ok(Packet::Data(frames(bytes)?)),
        Kind::Nak => nak(bytes),
        Kind::Status => status(bytes),
        Kind::Setup => setup(bytes),
    }
}

// ---- the log of an image

#[derive(Clone, Copy, PartialEq)]
enum Word {
    Taken = 1,
    Repeat = 2,
    Overlap = 3,
    Below = 4,
    Beyond = 5,
}

/// Where a frame stands: its position, how many positions it takes, and how many of its bytes are kept.
#[derive(Clone, Copy)]
struct Place {
    position: u64,
    span: u32,
    size: u32,
}

struct Pair {
    subscription: u64,
    position: u64,
}

struct Fragment {
    position: u64,
    #[allow(dead_code)]
    flags: u8,
    payload: Vec<u8>,
}

struct Log {
    session: i32,
    stream: i32,
    initial_term: i32,
    term_length: u64,
    join: u64,
    base: u64,
    contiguous: u64,
    greatest: u64,
    heard: u64,
    pairs: Vec<Pair>,
    bytes: Vec<u8>,
    places: VecDeque<Place>,
}

impl Log {
    fn new(session: i32, stream: i32, initial_term: i32, term_length: u64, join: u64, subscription: u64) -> Log {
        let mut pairs = Vec::with_capacity(512);
        pairs.push(Pair { subscription, position: join });
        let bytes = vec![0; 3 * term_length as usize];
        let places = VecDeque::with_capacity(bytes.len() / 32);
        Log {
            session,
            stream,
            initial_term,
            term_length,
            join,
            base: join,
            contiguous: join,
            greatest: join,
            heard: 0,
            pairs,
            bytes,
            places,
        }
    }

    fn window(&self) -> u64 {
        (self.term_length / 2).min(131_072)
    }

    fn term_start(&self, position: u64) -> u64 {
        position - position % self.term_length
    }

    /// How many frames begin below a position.
    fn rank(&self, position: u64) -> usize {
        match self.places.back() {
            Some(last) if last.position >= position => self.places.partition_point(|place| place.position < position),
            _ => self.places.len(),
        }
    }

    fn bytes_of(&self, place: Place) -> &[u8] {
        let start = (place.position % self.bytes.len() as u64) as usize;
        &self.bytes[start..start + place.size as usize]
    }

    fn end_of(&self, index: usize) -> u64 {
        let place = self.places[index];
        place.position + u64::from(place.span)
    }

    fn take(&mut self, at: usize, position: u64, span: u64, bytes: &[u8]) {
        let start = (position % self.bytes.len() as u64) as usize;
        self.bytes[start..start + bytes.len()].copy_from_slice(bytes);
        let place = Place { position, span: span as u32, size: bytes.len() as u32 };
        if at == self.places.len() {
            self.places.push_back(place);
        } else {
            self.places.insert(at, place);
        }
        if position == self.contiguous {
            let mut end = position + span;
            for index in at + 1..self.places.len() {
                if self.places[index].position != end {
                    break;
                }
                end = self.end_of(index);
            }
            self.contiguous = end;
        }
    }

    fn insert(&mut self, frame: &Frame<'_>) -> Word {
        let offset = u64::from(frame.header.offset);
        let terms = frame.header.term.wrapping_sub(self.initial_term) as u32;
        let position = u64::from(terms) * self.term_length + offset;
        let span = padded(frame.header.length.into());
        self.greatest = self.greatest.max(position + span);
        if position < self.term_start(self.base).max(self.join) {
            return Word::Below;
        }
        if position >= self.base + self.window() || offset + span > self.term_length {
            return Word::Beyond;
        }
        let at = self.rank(position);
        if let Some(place) = self.places.get(at) {
            if place.position == position && self.bytes_of(*place) == frame.bytes {
                return Word::Repeat;
            }
            if place.position < position + span {
                return Word::Overlap;
            }
        }
        if at > 0 && self.end_of(at - 1) > position {
            return Word::Overlap;
        }
        self.take(at, position, span, frame.bytes);
        Word::Taken
    }

    fn receive(&mut self, now: u64, frames: Frames<'_>) -> Vec<Word> {
        let mut words = Vec::with_capacity(frames.clone().count());
        for frame in frames {
            words.push(self.insert(&frame));
        }
        self.heard = self.heard.max(now);
        words
    }

    fn beat(&mut self, now: u64, header: &Header) {
        let terms = header.term.wrapping_sub(self.initial_term) as u32;
        let position = u64::from(terms) * self.term_length + u64::from(header.offset);
        self.greatest = self.greatest.max(position);
        self.heard = self.heard.max(now);
    }

    fn settle(&mut self) {
        self.base = self.pairs.iter().map(|pair| pair.position).min().unwrap_or(self.base);
        let low = self.term_start(self.base).max(self.join);
        while let Some(place) = self.places.front().copied() {
            if place.position >= low {
                break;
            }
            let start = (place.position % self.bytes.len() as u64) as usize;
            self.bytes[start..start + place.size as usize].fill(0);
            self.places.pop_front();
        }
    }

    fn poll(&mut self, subscription: u64, limit: usize) -> Option<Vec<Fragment>> {
        let index = self.pairs.iter().position(|pair| pair.subscription == subscription)?;
        let mut end = self.pairs[index].position;
        let mut fragments = Vec::new();
        for at in self.rank(end)..self.rank(self.contiguous) {
            if fragments.len() >= limit {
                break;
            }
            end = self.end_of(at);
            let bytes = self.bytes_of(self.places[at]);
            if bytes[6] == 1 {
                fragments.push(Fragment { position: end, flags: bytes[5], payload: bytes[HEADER..].to_vec() });
            }
        }
        self.pairs[index].position = end;
        self.settle();
        Some(fragments)
    }
}

// ---- the driver

#[derive(Clone, Copy, PartialEq)]
struct Address {
    octets: [u8; 4],
    port: u16,
}

const LOCAL: Address = Address { octets: [127, 0, 0, 1], port: 40_123 };

const PUBLISHER: Address = Address { octets: [127, 0, 0, 1], port: 40_000 };

#[derive(Clone, Copy)]
enum Astray {
    NoStream,
    Stranger,
}

#[allow(dead_code)]
enum Cause {
    Unread(Fault),
    Astray(Astray),
}

enum Answer {
    Imaged,
    Received(Vec<Word>),
    Heard,
    Dropped(#[allow(dead_code)] Cause),
    Polled(Vec<Fragment>),
    Gone,
}

struct Image {
    source: u64,
    endpoint: Address,
    session: i32,
    stream: i32,
    publisher: Address,
}

struct OpenLog {
    source: u64,
    log: Log,
}

/// A driver with one subscription, of the number 1.
struct World {
    images: Vec<Image>,
    logs: Vec<OpenLog>,
}

impl World {
    fn image_for(&self, local: Address, from: Address, session: i32, stream: i32) -> Result<u64, Astray> {
        let image = self
            .images
            .iter()
            .find(|image| image.endpoint == local && image.session == session && image.stream == stream)
            .ok_or(Astray::NoStream)?;
        if image.publisher == from { Ok(image.source) } else { Err(Astray::Stranger) }
    }

    fn log_for(&mut self, local: Address, from: Address, header: &Header) -> Result<&mut Log, Astray> {
        let source = self.image_for(local, from, header.session, header.stream)?;
        let open = self.logs.iter_mut().find(|open| open.source == source).ok_or(Astray::NoStream)?;
        if open.log.session != header.session || open.log.stream != header.stream {
            return Err(Astray::NoStream);
        }
        Ok(&mut open.log)
    }

    #[inline(never)]
    fn packet(&mut self, now: u64, local: Address, from: Address, bytes: &[u8]) -> Answer {
        match packet(bytes) {
            Err(fault) => Answer::Dropped(Cause::Unread(fault)),
            Ok(Packet::Data(frames)) => {
                let Some(first) = frames.clone().next() else {
                    return Answer::Dropped(Cause::Astray(Astray::NoStream));
                };
                match self.log_for(local, from, &first.header) {
                    Ok(log) => Answer::Received(log.receive(now, frames)),
                    Err(why) => Answer::Dropped(Cause::Astray(why)),
                }
            }
            Ok(Packet::Beat(header)) => match self.log_for(local, from, &header) {
                Ok(log) => {
                    log.beat(now, &header);
                    Answer::Heard
                }
                Err(why) => Answer::Dropped(Cause::Astray(why)),
            },
            Ok(Packet::Setup { session, stream, initial, active, offset, term_length, .. }) => {
                let length = term_length as u64;
                let join = active.wrapping_sub(initial) as u32 as u64 * length + u64::from(offset);
                let source = 2 + self.images.len() as u64;
                self.images.push(Image { source, endpoint: local, session, stream, publisher: from });
                self.logs.push(OpenLog { source, log: Log::new(session, stream, initial, length, join, 1) });
                Answer::Imaged
            }
            Ok(Packet::Nak { .. } | Packet::Status { .. }) => Answer::Dropped(Cause::Unread(Fault::OtherType)),
        }
    }

    #[inline(never)]
    fn poll(&mut self, subscription: u64, source: u64, limit: u32) -> Answer {
        let Some(open) = self.logs.iter_mut().find(|open| open.source == source) else {
            return Answer::Gone;
        };
        match open.log.poll(subscription, limit as usize) {
            Some(fragments) => Answer::Polled(fragments),
            None => Answer::Gone,
        }
    }

}

/// The sum of what became of the frames of a datagram.
fn told(words: &[Word]) -> u64 {
    words.iter().fold(0_u64, |sum, word| sum.wrapping_mul(7).wrapping_add(*word as u64))
}

fn play(setup: &[u8], datagrams: &[u8], lengths: &[u16], time: &mut u64) -> Option<u64> {
    let mut packets = Vec::with_capacity(lengths.len());
    let mut rest = datagrams;
    for length in lengths {
        let (bytes, behind) = rest.split_at(usize::from(*length));
        packets.push(bytes.to_vec());
        rest = behind;
    }
    let mut world = World { images: Vec::new(), logs: Vec::new() };
    let Answer::Imaged = world.packet(0, LOCAL, PUBLISHER, setup) else {
        return None;
    };
    let mut sum = 0_u64;
    *time = 0;
    for batch in packets.chunks(BATCH) {
        let start = moment();
        for bytes in batch {
            let Answer::Received(words) = world.packet(0, LOCAL, PUBLISHER, bytes) else {
                return None;
            };
            sum = sum.wrapping_add(told(&words));
        }
        *time += moment() - start;
        let Answer::Polled(fragments) = world.poll(1, 2, u32::MAX) else {
            return None;
        };
        for fragment in &fragments {
            sum = sum.wrapping_add(fragment.position).wrapping_add(fragment.payload.len() as u64);
        }
    }
    black_box(world.logs[0].log.greatest);
    Some(sum)
}

#[inline(never)]
fn plain_receive(setup: &[u8], datagrams: &[u8], lengths: &[u16], time: &mut u64) -> u64 {
    play(setup, datagrams, lengths, time).unwrap_or(0)
}

fn proved_receive(setup: &[u8], datagrams: &[u8], lengths: &[u16], time: &mut u64) -> u64 {
    let setup_len = setup.len();
    let (bytes, bytes_len) = (datagrams.as_ptr(), datagrams.len());
    unsafe { driver_world_receive(setup.as_ptr(), setup_len, bytes, bytes_len, lengths.as_ptr(), lengths.len(), time) }
}

// ---- what is received

fn frame_bytes(length: u32, kind: u16, offset: u64, term: i32, payload: usize) -> Vec<u8> {
    let mut bytes = Vec::new();
    bytes.extend(length.to_le_bytes());
    bytes.extend([0, 0xc0]);
    bytes.extend(kind.to_le_bytes());
    bytes.extend((offset as u32).to_le_bytes());
    bytes.extend(SESSION.to_le_bytes());
    bytes.extend(STREAM.to_le_bytes());
    bytes.extend(term.to_le_bytes());
    bytes.extend(0_u64.to_le_bytes());
    bytes.resize(bytes.len() + payload, 0x61);
    bytes
}

fn setup_bytes() -> Vec<u8> {
    let mut bytes = vec![40, 0, 0, 0, 0, 0, 5, 0];
    for field in [0, SESSION, STREAM, INITIAL_TERM, INITIAL_TERM, TERM as i32, 1_408, 0] {
        bytes.extend(field.to_le_bytes());
    }
    bytes
}

/// The datagrams of a stream over so many terms, each of so many frames with a payload of so many bytes, a multiple of 32,
/// with a pad behind the last one of a term.
fn stream(terms: i32, frames: u64, payload: usize) -> Vec<Vec<u8>> {
    let length = (HEADER + payload) as u64;
    let mut datagrams = Vec::new();
    for term in 0..terms {
        let term = INITIAL_TERM + term;
        let mut offset = 0;
        while offset + frames * length <= TERM {
            let mut bytes = Vec::new();
            for _ in 0..frames {
                bytes.extend(frame_bytes(length as u32, 1, offset, term, payload));
                offset += length;
            }
            datagrams.push(bytes);
        }
        if offset < TERM {
            datagrams.push(frame_bytes((TERM - offset) as u32, 0, offset, term, 0));
        }
    }
    datagrams
}

/// Each tenth datagram comes behind the nine that follow it.
fn with_late_ones(datagrams: Vec<Vec<u8>>) -> Vec<Vec<u8>> {
    let mut order = Vec::new();
    let mut late = None;
    for (i, datagram) in datagrams.into_iter().enumerate() {
        if i % 10 == 9 {
            order.extend(late.replace(datagram));
        } else {
            order.push(datagram);
        }
    }
    order.extend(late);
    order
}

/// `M_TRIM_THRESHOLD` and `M_MMAP_THRESHOLD` of the C library.
const KEPT: [(i32, i32); 2] = [(-1, i32::MAX), (-3, 32 << 20)];

/// Memory that is given back stays with the program, so that neither driver meets fresh pages while it is timed.
fn keep_memory() {
    for (what, bytes) in KEPT {
        assert_eq!(unsafe { mallopt(what, bytes) }, 1);
    }
}

fn main() {
    keep_memory();
    let setup = setup_bytes();
    for (what, frames, payload) in [("1 frame of 1,376 bytes", 1, 1_376), ("20 frames of 32 bytes", 20, 32)] {
        for late in [false, true] {
            let datagrams = stream(40, frames, payload);
            let datagrams = if late { with_late_ones(datagrams) } else { datagrams };
            let lengths: Vec<u16> = datagrams.iter().map(|bytes| bytes.len() as u16).collect();
            let bytes = datagrams.concat();
            let mut times = [u64::MAX; 2];
            let mut sums = [0; 2];
            // In turns, so that both meet the same machine.
            for _ in 0..60 {
                for (i, receive) in [plain_receive, proved_receive].into_iter().enumerate() {
                    let mut time = 0;
                    sums[i] = black_box(receive(&setup, black_box(&bytes), &lengths, &mut time));
                    times[i] = times[i].min(time);
                }
            }
            assert!(sums[0] > 0);
            assert_eq!(sums[1], sums[0]);
            let [plain, proved] = times.map(|time| lengths.len() as f64 * 1e9 / time as f64);
            let order = if late { "every tenth late" } else { "in order" };
            let ratio = proved / plain;
            println!("{what}, {order}: plain {plain:.0}/s, driver_world {proved:.0}/s, ratio {ratio:.2}");
        }
    }
}
