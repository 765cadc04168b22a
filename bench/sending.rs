//! Sends a publication and sends it again on NAKs, by `driver_world` and by plain Rust, and prints how the two compare.
//!
//! The plain driver here is the same program, as one would write it in Rust: the same lists are looked through, by the
//! same tests in their order, what is due is asked in its order, each destination's decision is by the rule of the policy,
//! what was decided is kept in the sender's audit of the last 4,096, and a datagram is a copy of its own. It walks the frames
//! of a datagram once, and on a NAK those alone from the start of the range's term to its end.

mod lists;

use std::collections::{BTreeMap, VecDeque};
use std::hint::black_box;

unsafe extern "C" {
    fn driver_world_send(
        message: *const u8,
        message_len: usize,
        statuses: *const u8,
        statuses_len: usize,
        naks: *const u8,
        naks_len: usize,
        whole: bool,
        sending: &mut u64,
        resending: &mut u64,
    ) -> u64;
    fn clock_gettime(clock: i32, time: &mut Timespec) -> i32;
}

#[repr(C)]
struct Timespec {
    seconds: i64,
    nanoseconds: i64,
}

/// The clock that only goes on.
const STEADY_TIME: i32 = 1;

/// What the clock shows, in nanoseconds.
fn moment() -> u64 {
    let mut time = Timespec { seconds: 0, nanoseconds: 0 };
    unsafe { clock_gettime(STEADY_TIME, &mut time) };
    (time.seconds * 1_000_000_000 + time.nanoseconds) as u64
}

/// What the library is told of memory: whether there is some, and where.
#[repr(C)]
struct Tried {
    ok: bool,
    start: *mut u8,
}

fn tried(start: *mut u8) -> Tried {
    static NOTHING: u8 = 0;
    if start.is_null() {
        Tried { ok: false, start: (&raw const NOTHING).cast_mut() }
    } else {
        Tried { ok: true, start }
    }
}

#[global_allocator]
static MEMORY: lists::Lists = lists::Lists;

/// The heap of the library is that of the program.
#[unsafe(no_mangle)]
extern "C" fn rattle_alloc(size: usize, _align: usize) -> Tried {
    tried(lists::take(size))
}

#[unsafe(no_mangle)]
extern "C" fn rattle_realloc(start: *mut u8, _kept: usize, size: usize, _align: usize) -> Tried {
    tried(lists::take_again(start, size))
}

#[unsafe(no_mangle)]
extern "C" fn rattle_dealloc(start: *mut u8) {
    lists::give(start)
}

/// How many turns the sender has behind each status message.
const BATCH: usize = 12;

/// How many status messages come.
const STATUSES: usize = 160;

/// How many NAKs come, and of how many of the last datagrams in turns.
const NAKS: usize = 2_000;

const LAST: usize = 40;

/// How far NAKs are apart, in nanoseconds: past the linger.
const APART: u64 = 60_000_001;

const HEADER: usize = 32;

const SESSION: i32 = 1;

const STREAM: i32 = 10;

// ---- the policy

#[allow(dead_code)]
#[derive(Clone, Copy)]
enum Act {
    Publish,
    PublishExclusive,
    Subscribe,
    Spy,
    Destination,
    Counter,
    Terminate,
    Offer,
    Image,
    Receive,
    Send,
    Retransmit,
    List,
}

#[allow(dead_code)]
#[derive(Clone, Copy)]
enum Principals {
    Any,
    One(u32),
}

#[allow(dead_code)]
#[derive(Clone, Copy, PartialEq)]
enum Media {
    Udp,
    Ipc,
    Counter,
}

type Keys = BTreeMap<String, String>;

struct Channel {
    #[allow(dead_code)]
    spy: bool,
    media: Media,
    keys: Keys,
}

#[allow(dead_code)]
enum Pattern {
    Any,
    Of(Media, Keys),
}

struct Rule {
    #[allow(dead_code)]
    name: String,
    principals: Principals,
    acts: [bool; 13],
    channel: Pattern,
    low: i32,
    high: i32,
    allow: bool,
}

struct Request<'a> {
    principal: u32,
    act: Act,
    channel: &'a Channel,
    stream: i32,
}

#[allow(dead_code)]
#[derive(Clone, Copy)]
struct Verdict {
    allow: bool,
    rule: Option<u32>,
    epoch: u64,
}

#[allow(dead_code)]
#[derive(Clone, Copy)]
struct Decision {
    principal: u32,
    act: Act,
    subject: u64,
    stream: i32,
    verdict: Verdict,
}

struct Policy {
    rules: Vec<Rule>,
    default: bool,
}

impl Channel {
    /// A channel over datagrams to an endpoint.
    fn to(endpoint: String) -> Channel {
        let keys = Keys::from([("endpoint".to_string(), endpoint)]);
        Channel { spy: false, media: Media::Udp, keys }
    }

    /// Whether its destinations are named by hand.
    fn is_manual(&self) -> bool {
        self.media == Media::Udp && self.keys.get("control-mode").is_some_and(|mode| mode == "manual")
    }
}

impl Principals {
    fn include(self, principal: u32) -> bool {
        match self {
            Principals::Any => true,
            Principals::One(one) => one == principal,
        }
    }
}

fn value_fits(wanted: &str, value: &str) -> bool {
    wanted == value || wanted.strip_suffix('*').is_some_and(|front| value.starts_with(front))
}

impl Pattern {
    fn covers(&self, channel: &Channel) -> bool {
        match self {
            Pattern::Any => true,
            Pattern::Of(media, wanted) => {
                *media == channel.media
                    && wanted
                        .iter()
                        .all(|(key, wanted)| channel.keys.get(key).is_some_and(|value| value_fits(wanted, value)))
            }
        }
    }
}

impl Rule {
    fn matches(&self, request: &Request) -> bool {
        self.principals.include(request.principal)
            && self.acts[request.act as usize]
            && self.low <= request.stream
            && request.stream <= self.high
            && self.channel.covers(request.channel)
    }
}

impl Policy {
    fn verdict(&self, epoch: u64, request: &Request) -> Verdict {
        match self.rules.iter().position(|rule| rule.matches(request)) {
            Some(index) => Verdict { allow: self.rules[index].allow, rule: Some(index as u32 + 1), epoch },
            None => Verdict { allow: self.default, rule: None, epoch },
        }
    }

    /// One rule, which allows principal 1 all on the stream, over datagrams.
    fn new() -> Policy {
        let rule = Rule {
            name: "a rule".to_string(),
            principals: Principals::One(1),
            acts: [true; 13],
            channel: Pattern::Of(Media::Udp, Keys::new()),
            low: STREAM,
            high: STREAM,
            allow: true,
        };
        Policy { rules: vec![rule], default: false }
    }
}

// ---- the registry

#[derive(Clone, Copy, PartialEq)]
struct Address {
    octets: [u8; 4],
    port: u16,
}

/// The address to which receivers send.
const LOCAL: Address = Address { octets: [127, 0, 0, 1], port: 40_000 };

/// The address of the receiver.
const RECEIVER: Address = Address { octets: [127, 0, 0, 1], port: 40_123 };

struct Peer {
    address: Address,
    principal: u32,
}

#[derive(Clone, Copy)]
struct Client {
    number: u64,
    principal: u32,
    #[allow(dead_code)]
    heard: u64,
}

struct Publication {
    source: u64,
    channel: Channel,
    stream: i32,
    session: i32,
    /// Since when it lingers.
    lingers: Option<u64>,
}

struct Registration {
    number: u64,
    client: u64,
    channel: Channel,
    source: u64,
}

struct Destination {
    number: u64,
    source: u64,
    address: Address,
    principal: u32,
}

/// Where a datagram goes, and whether it may.
struct Outlet {
    to: Address,
    decision: Decision,
}

/// What is asked of a log: of which one, and what the policy says.
struct LogRequest {
    source: u64,
    decision: Decision,
}

#[derive(Clone, Copy)]
struct Pace {
    connection_timeout: u64,
    setup_interval: u64,
    heartbeat_interval: u64,
}

struct Registry {
    pace: Pace,
    peers: Vec<Peer>,
    policy: Policy,
    epoch: u64,
    clients: Vec<Client>,
    publications: Vec<Publication>,
    registrations: Vec<Registration>,
    destinations: Vec<Destination>,
}

impl Registry {
    /// Client 1 of principal 1 published to the receiver, who is of that principal too, under the number 1.
    fn new() -> Registry {
        let endpoint = "127.0.0.1:40123";
        Registry {
            pace: Pace {
                connection_timeout: 5_000_000_000,
                setup_interval: 100_000_000,
                heartbeat_interval: 100_000_000,
            },
            peers: vec![Peer { address: RECEIVER, principal: 1 }],
            policy: Policy::new(),
            epoch: 1,
            clients: vec![Client { number: 1, principal: 1, heard: 0 }],
            publications: vec![Publication {
                source: 1,
                channel: Channel::to(endpoint.to_string()),
                stream: STREAM,
                session: SESSION,
                lingers: None,
            }],
            registrations: vec![Registration {
                number: 1,
                client: 1,
                channel: Channel::to(endpoint.to_string()),
                source: 1,
            }],
            destinations: vec![Destination { number: 1, source: 1, address: RECEIVER, principal: 1 }],
        }
    }

    fn client(&self, number: u64) -> Option<Client> {
        self.clients.iter().find(|client| client.number == number).copied()
    }

    fn publication(&self, source: u64) -> Option<&Publication> {
        self.publications.iter().find(|publication| publication.source == source)
    }

    /// The publication over datagrams of that session and stream.
    fn publication_at(&self, session: i32, stream: i32) -> Option<&Publication> {
        self.publications.iter().find(|publication| {
            publication.channel.media == Media::Udp && publication.session == session && publication.stream == stream
        })
    }

    fn registration(&self, client: u64, number: u64) -> Option<&Registration> {
        self.registrations
            .iter()
            .find(|registration| registration.number == number && registration.client == client)
    }

    fn principal_at(&self, address: Address) -> u32 {
        self.peers.iter().find(|peer| peer.address == address).map_or(0, |peer| peer.principal)
    }

    fn decision(&self, principal: u32, act: Act, subject: u64, channel: &Channel, stream: i32) -> Decision {
        let verdict = self.policy.verdict(self.epoch, &Request { principal, act, channel, stream });
        Decision { principal, act, subject, stream, verdict }
    }

    fn offering(&self, client: u64, registration: u64) -> Option<LogRequest> {
        let holder = self.client(client)?;
        let registration = self.registration(client, registration)?;
        let publication = self.publication(registration.source)?;
        let (number, channel, stream) = (registration.number, &registration.channel, publication.stream);
        Some(LogRequest {
            source: publication.source,
            decision: self.decision(holder.principal, Act::Offer, number, channel, stream),
        })
    }

    fn resending(&self, from: Address, session: i32, stream: i32) -> Option<LogRequest> {
        let publication = self.publication_at(session, stream)?;
        let Publication { source, channel, stream, .. } = publication;
        let principal = self.principal_at(from);
        Some(LogRequest {
            source: *source,
            decision: self.decision(principal, Act::Retransmit, *source, channel, *stream),
        })
    }

    fn outlet(&self, publication: &Publication, destination: &Destination) -> Outlet {
        let Destination { number, address, principal, .. } = *destination;
        let decision = if publication.channel.is_manual() {
            let [a, b, c, d] = address.octets;
            let channel = Channel::to(format!("{a}.{b}.{c}.{d}:{}", address.port));
            self.decision(principal, Act::Send, number, &channel, publication.stream)
        } else {
            self.decision(principal, Act::Send, number, &publication.channel, publication.stream)
        };
        Outlet { to: address, decision }
    }

    fn outlets(&self, publication: &Publication) -> Vec<Outlet> {
        let own = self.destinations.iter().filter(|destination| destination.source == publication.source);
        own.map(|destination| self.outlet(publication, destination)).collect()
    }
}

// ---- datagrams of receivers

#[allow(dead_code)]
#[derive(Clone, Copy)]
enum Fault {
    TooShort,
    BadVersion,
    OtherType,
    BadLength,
    Unaligned,
}

/// What a receiver says; it sends nothing else.
enum Packet {
    Nak { session: i32, stream: i32, term: i32, offset: u32, length: i32 },
    Status { flags: u8, session: i32, stream: i32, term: i32, offset: u32, window: u32 },
}

fn number(bytes: &[u8], at: usize) -> u32 {
    u32::from_le_bytes(bytes[at..at + 4].try_into().unwrap())
}

fn signed(bytes: &[u8], at: usize) -> i32 {
    number(bytes, at) as i32
}

fn natural(bytes: &[u8], at: usize) -> Result<u32, Fault> {
    let number = number(bytes, at);
    if number < 1 << 31 { Ok(number) } else { Err(Fault::BadLength) }
}

fn stated_length(bytes: &[u8], least: u32) -> Result<u32, Fault> {
    let stated = natural(bytes, 0)?;
    if stated < least || bytes.len() < stated as usize {
        return Err(Fault::BadLength);
    }
    Ok(stated)
}

fn aligned(offset: u32) -> Result<u32, Fault> {
    if offset % 32 == 0 { Ok(offset) } else { Err(Fault::Unaligned) }
}

fn nak(bytes: &[u8]) -> Result<Packet, Fault> {
    stated_length(bytes, 28)?;
    Ok(Packet::Nak {
        session: signed(bytes, 8),
        stream: signed(bytes, 12),
        term: signed(bytes, 16),
        offset: aligned(natural(bytes, 20)?)?,
        length: signed(bytes, 24),
    })
}

fn status(bytes: &[u8]) -> Result<Packet, Fault> {
    stated_length(bytes, 36)?;
    Ok(Packet::Status {
        flags: bytes[5],
        session: signed(bytes, 8),
        stream: signed(bytes, 12),
        term: signed(bytes, 16),
        offset: natural(bytes, 20)?,
        window: natural(bytes, 24)?,
    })
}

fn packet(bytes: &[u8]) -> Result<Packet, Fault> {
    if bytes.len() < 8 {
        return Err(Fault::TooShort);
    }
    if bytes[4] != 0 {
        return Err(Fault::BadVersion);
    }
    match u16::from_le_bytes([bytes[6], bytes[7]]) {
        2 if bytes.len() < 28 => Err(Fault::TooShort),
        2 => nak(bytes),
        3 if bytes.len() < 36 => Err(Fault::TooShort),
        3 => status(bytes),
        _ => Err(Fault::OtherType),
    }
}

// ---- what was sent again

/// How long a range that was sent again is not sent again, in nanoseconds.
const LINGER: u64 = 60_000_000;

/// How many ranges linger at most.
const RANGES: usize = 16;

struct Resent {
    start: u64,
    end: u64,
    moment: u64,
}

struct Gate {
    latest: u64,
    resent: Vec<Resent>,
}

impl Gate {
    /// Whether the range may be sent again, which it is then.
    fn ask(&mut self, now: u64, position: u64, length: i32, window: (u64, u64)) -> Result<(), Cause> {
        let moment = self.latest.max(now);
        self.latest = moment;
        self.resent.retain(|resent| moment.saturating_sub(resent.moment) <= LINGER);
        if length <= 0 {
            return Err(Cause::Empty);
        }
        let size = u64::from(length.unsigned_abs());
        let (low, sent) = window;
        if position < low || position > sent || size > sent - position {
            return Err(Cause::OutOfWindow);
        }
        let end = position + size;
        if self.resent.iter().any(|resent| position.max(resent.start) < end.min(resent.end)) {
            return Err(Cause::Lingering);
        }
        if self.resent.len() >= RANGES {
            return Err(Cause::Busy);
        }
        self.resent.push(Resent { start: position, end, moment });
        Ok(())
    }
}

// ---- the log

enum Offer {
    At(u64),
    TooLong,
    MaxPosition,
    BackPressured,
    AdminAction,
}

enum Heard {
    Limited(u64),
    Elicited,
    OutOfWindow,
}

enum Content<'a> {
    Fragment(&'a [u8]),
    Pad(u32),
}

struct Frame<'a> {
    content: Content<'a>,
    /// What is sent of it.
    bytes: &'a [u8],
}

struct Frames<'a> {
    rest: &'a [u8],
    budget: usize,
}

struct Pair {
    #[allow(dead_code)]
    subscription: u64,
    position: u64,
}

struct Log {
    session: i32,
    stream: i32,
    initial_term: i32,
    term_length: u32,
    mtu: u32,
    bytes: Vec<u8>,
    tail: u64,
    messages: u64,
    pairs: Vec<Pair>,
    /// The position up to which the log was sent, and up to which it may be.
    sent: u64,
    allowed: u64,
    /// When it was last heard that it is received, and when a SETUP and a datagram of any kind were last sent.
    heard: Option<u64>,
    setup: Option<u64>,
    datagram: Option<u64>,
    elicited: bool,
}

fn padded(length: u64) -> u64 {
    length.div_ceil(32) * 32
}

fn is_past(now: u64, last: Option<u64>, limit: u64) -> bool {
    last.is_none_or(|last| now.saturating_sub(last) > limit)
}

fn later_of(last: Option<u64>, now: u64) -> Option<u64> {
    Some(last.map_or(now, |last| last.max(now)))
}

impl<'a> Iterator for Frames<'a> {
    type Item = Frame<'a>;

    fn next(&mut self) -> Option<Frame<'a>> {
        let bytes = self.rest;
        if bytes.len() < HEADER {
            return None;
        }
        let length = number(bytes, 0);
        let frame = if bytes[6] == 0 {
            Frame { content: Content::Pad(length), bytes: &bytes[..HEADER] }
        } else {
            let span = padded(length.into()) as usize;
            if length < 32 || span > bytes.len() {
                return None;
            }
            Frame { content: Content::Fragment(&bytes[HEADER..length as usize]), bytes: &bytes[..span] }
        };
        if frame.bytes.len() > self.budget {
            return None;
        }
        self.budget -= frame.bytes.len();
        self.rest = match frame.content {
            Content::Fragment(_) => &bytes[frame.bytes.len()..],
            Content::Pad(_) => &[],
        };
        Some(frame)
    }
}

impl Frame<'_> {
    fn span(&self) -> u64 {
        match self.content {
            Content::Fragment(payload) => padded(32 + payload.len() as u64),
            Content::Pad(size) => size.into(),
        }
    }
}

impl Log {
    fn new() -> Log {
        let term_length = 65_536;
        Log {
            session: SESSION,
            stream: STREAM,
            initial_term: 0,
            term_length,
            mtu: 1_408,
            bytes: vec![0; 3 * term_length as usize],
            tail: 0,
            messages: 0,
            pairs: Vec::with_capacity(512),
            sent: 0,
            allowed: 0,
            heard: None,
            setup: None,
            datagram: None,
            elicited: false,
        }
    }

    fn term(&self) -> u64 {
        self.term_length.into()
    }

    fn greatest_message(&self) -> usize {
        (self.term_length as usize / 8).min(16_777_216)
    }

    fn connected(&self, now: u64, timeout: u64) -> bool {
        !is_past(now, self.heard, timeout)
    }

    fn limit(&self) -> u64 {
        let least = self.pairs.iter().map(|pair| pair.position).min();
        least.map_or(self.sent, |least| least.min(self.sent)) + self.term() / 2
    }

    /// Where in the buffers a position is.
    fn place(&self, position: u64) -> usize {
        (position / self.term() % 3 * self.term() + position % self.term()) as usize
    }

    /// The term and the offset of a position.
    fn term_of(&self, position: u64) -> (i32, u32) {
        let term = self.initial_term.wrapping_add((position / self.term()) as i32);
        (term, (position % self.term()) as u32)
    }

    fn position(&self, term: i32, offset: u32) -> u64 {
        u64::from(term.wrapping_sub(self.initial_term) as u32) * self.term() + u64::from(offset)
    }

    fn header(&mut self, length: u32, flags: u8, kind: u16) -> usize {
        let (term, offset) = self.term_of(self.tail);
        let at = self.place(self.tail);
        let out = &mut self.bytes[at..at + HEADER];
        put_header(out, length, flags, kind, offset, self.session, self.stream, term);
        at
    }

    fn append(&mut self, flags: u8, payload: &[u8]) {
        let length = HEADER + payload.len();
        let at = self.header(length as u32, flags, 1);
        let span = padded(length as u64);
        self.bytes[at + HEADER..at + length].copy_from_slice(payload);
        self.bytes[at + length..at + span as usize].fill(0);
        self.tail += span;
    }

    fn offer(&mut self, message: &[u8]) -> Offer {
        if message.len() > self.greatest_message() {
            return Offer::TooLong;
        }
        let mtu = self.mtu as usize;
        let payload = mtu - HEADER;
        let whole = (message.len() / payload) as u64;
        let rest = (message.len() % payload) as u64;
        let last = if rest > 0 || whole == 0 { padded(32 + rest) } else { 0 };
        let size = whole * mtu as u64 + last;
        if self.tail + size > self.term() << 31 {
            return Offer::MaxPosition;
        }
        if self.tail >= self.limit() {
            return Offer::BackPressured;
        }
        let left = self.term() - self.tail % self.term();
        if size > left {
            let at = self.header(left as u32, 0xc0, 0);
            self.bytes[at + HEADER..at + left as usize].fill(0);
            self.tail += left;
            return Offer::AdminAction;
        }
        if message.is_empty() {
            self.append(0xc0, message);
        } else {
            let count = message.len().div_ceil(payload);
            for (i, part) in message.chunks(payload).enumerate() {
                let begin = if i == 0 { 0x80 } else { 0 };
                let end = if i + 1 == count { 0x40 } else { 0 };
                self.append(begin | end, part);
            }
        }
        self.messages += 1;
        Offer::At(self.tail)
    }

    /// The first position whose frame is held.
    fn low(&self) -> u64 {
        (self.tail / self.term()).saturating_sub(2) * self.term()
    }

    /// The frames of one term from a position on, as far as the budget goes.
    fn frames_from(&self, position: u64, budget: usize) -> Frames<'_> {
        let at = self.place(position);
        let end = self.tail.min(position - position % self.term() + self.term());
        Frames { rest: &self.bytes[at..at + (end - position) as usize], budget }
    }

    fn status(&mut self, now: u64, flags: u8, term: i32, offset: u32, window: u32) -> Heard {
        if flags & 0x80 != 0 {
            self.elicited = true;
            return Heard::Elicited;
        }
        let position = self.position(term, offset);
        if position > self.sent {
            return Heard::OutOfWindow;
        }
        self.allowed = self.allowed.max(position + u64::from(window.min(self.term_length / 2)));
        self.heard = later_of(self.heard, now);
        Heard::Limited(self.allowed)
    }

    fn cut_setup(&mut self, now: u64) -> Vec<u8> {
        let (term, offset) = self.term_of(self.sent);
        let mut bytes = vec![40, 0, 0, 0, 0, 0, 5, 0];
        bytes.extend(offset.to_le_bytes());
        for field in [self.session, self.stream, self.initial_term, term, self.term_length as i32, self.mtu as i32, 0] {
            bytes.extend(field.to_le_bytes());
        }
        self.elicited = false;
        self.setup = later_of(self.setup, now);
        self.datagram = later_of(self.datagram, now);
        bytes
    }

    fn cut_frames(&mut self, now: u64) -> Option<Vec<u8>> {
        let room = self.allowed.saturating_sub(self.sent);
        let budget = room.min(self.mtu.into()) as usize;
        let (mut size, mut span) = (0, 0);
        for frame in self.frames_from(self.sent, budget) {
            size += frame.bytes.len();
            span += frame.span();
        }
        if size == 0 {
            return None;
        }
        let at = self.place(self.sent);
        let bytes = self.bytes[at..at + size].to_vec();
        self.sent += span;
        self.datagram = later_of(self.datagram, now);
        Some(bytes)
    }

    fn cut_beat(&mut self, now: u64, lingers: bool) -> Vec<u8> {
        let (term, offset) = self.term_of(self.sent);
        let flags = if lingers { 0xe0 } else { 0xc0 };
        let mut bytes = vec![0; HEADER];
        put_header(&mut bytes, 0, flags, 1, offset, self.session, self.stream, term);
        self.datagram = later_of(self.datagram, now);
        bytes
    }

    /// The datagram that is due.
    fn turn(&mut self, now: u64, pace: Pace, lingers: bool) -> Option<Vec<u8>> {
        let connected = self.connected(now, pace.connection_timeout);
        if self.elicited || !connected && is_past(now, self.setup, pace.setup_interval) {
            return Some(self.cut_setup(now));
        }
        if let Some(bytes) = self.cut_frames(now) {
            return Some(bytes);
        }
        if is_past(now, self.datagram, pace.heartbeat_interval) {
            return Some(self.cut_beat(now, lingers));
        }
        None
    }

    /// The positions that may be sent again.
    fn window(&self) -> (u64, u64) {
        (self.low().max(self.sent.saturating_sub(self.term())), self.sent)
    }

    /// The frames that meet a range which is held, in datagrams of one term each.
    fn datagrams_over(&self, position: u64, size: u64) -> Vec<Vec<u8>> {
        let end = position + size;
        let mut datagrams: Vec<Vec<u8>> = Vec::new();
        let mut at = position - position % self.term();
        while at < end {
            let mut begun = false;
            for frame in self.frames_from(at, self.term() as usize) {
                if at >= end {
                    return datagrams;
                }
                let behind = at + frame.span();
                if behind > position {
                    match datagrams.last_mut() {
                        Some(last) if begun && last.len() + frame.bytes.len() <= self.mtu as usize => {
                            last.extend_from_slice(frame.bytes);
                        }
                        _ => {
                            let mut datagram = Vec::with_capacity(self.mtu as usize);
                            datagram.extend_from_slice(frame.bytes);
                            datagrams.push(datagram);
                            begun = true;
                        }
                    }
                }
                at = behind;
            }
        }
        datagrams
    }
}

fn put_header(out: &mut [u8], length: u32, flags: u8, kind: u16, offset: u32, session: i32, stream: i32, term: i32) {
    out[..4].copy_from_slice(&length.to_le_bytes());
    out[4] = 0;
    out[5] = flags;
    out[6..8].copy_from_slice(&kind.to_le_bytes());
    out[8..12].copy_from_slice(&offset.to_le_bytes());
    out[12..16].copy_from_slice(&session.to_le_bytes());
    out[16..20].copy_from_slice(&stream.to_le_bytes());
    out[20..24].copy_from_slice(&term.to_le_bytes());
    out[24..32].copy_from_slice(&0_u64.to_le_bytes());
}

// ---- the steps

enum Step {
    Offer { now: u64, client: u64, registration: u64, message: Vec<u8> },
    Send { now: u64, source: u64 },
}

enum Offered {
    At(u64),
    Closed,
    TooLong,
    NotConnected,
    MaxPositionExceeded,
    BackPressured,
    AdminAction,
}

/// Why a datagram is dropped.
#[allow(dead_code)]
enum Cause {
    Unread(Fault),
    NoStream,
    Denied(Verdict),
    Empty,
    OutOfWindow,
    Lingering,
    Busy,
}

enum Answer {
    Dropped(#[allow(dead_code)] Cause),
    Limited(u64),
    Elicited,
    Resent { to: Address, datagrams: Vec<Vec<u8>> },
    Denied(#[allow(dead_code)] Verdict),
    Offered(Offered),
    Idle,
    Sent { bytes: Vec<u8>, outlets: Vec<Outlet> },
    Gone,
}

struct OpenLog {
    source: u64,
    log: Log,
    gate: Gate,
}

/// How many decisions an audit keeps.
const AUDITED: usize = 4_096;

/// What was decided for the sender, and the greatest moment of its steps.
struct Seat {
    moment: u64,
    audit: VecDeque<Decision>,
    /// How many decisions went.
    before: u64,
}

impl Seat {
    fn new() -> Seat {
        Seat { moment: 0, audit: VecDeque::with_capacity(AUDITED), before: 0 }
    }

    /// The moment of a step: none is earlier than the one before.
    fn at(&mut self, now: u64) -> u64 {
        self.moment = self.moment.max(now);
        self.moment
    }

    /// What was decided for a step is told.
    fn tell(&mut self, decision: Decision) {
        if self.audit.len() == AUDITED {
            self.audit.pop_front();
            self.before += 1;
        }
        self.audit.push_back(decision);
    }
}

struct World {
    registry: Registry,
    logs: Vec<OpenLog>,
    sender: Seat,
}

impl World {
    fn new() -> World {
        let gate = Gate { latest: 0, resent: Vec::with_capacity(RANGES) };
        let logs = vec![OpenLog { source: 1, log: Log::new(), gate }];
        World { registry: Registry::new(), logs, sender: Seat::new() }
    }

    fn log(&mut self, source: u64) -> Option<&mut OpenLog> {
        self.logs.iter_mut().find(|open| open.source == source)
    }

    fn nak(&mut self, now: u64, from: Address, nak: (i32, i32, i32, u32, i32)) -> Answer {
        let (session, stream, term, offset, length) = nak;
        let Some(request) = self.registry.resending(from, session, stream) else {
            return Answer::Dropped(Cause::NoStream);
        };
        let World { logs, sender, .. } = self;
        let Some(open) = logs.iter_mut().find(|open| open.source == request.source) else {
            return Answer::Dropped(Cause::NoStream);
        };
        sender.tell(request.decision);
        if !request.decision.verdict.allow {
            return Answer::Dropped(Cause::Denied(request.decision.verdict));
        }
        let position = open.log.position(term, offset);
        if let Err(cause) = open.gate.ask(now, position, length, open.log.window()) {
            return Answer::Dropped(cause);
        }
        let datagrams = open.log.datagrams_over(position, length.unsigned_abs().into());
        Answer::Resent { to: from, datagrams }
    }

    fn packet(&mut self, now: u64, _local: Address, from: Address, bytes: &[u8]) -> Answer {
        let now = self.sender.at(now);
        match packet(bytes) {
            Err(fault) => Answer::Dropped(Cause::Unread(fault)),
            Ok(Packet::Nak { session, stream, term, offset, length }) => {
                self.nak(now, from, (session, stream, term, offset, length))
            }
            Ok(Packet::Status { flags, session, stream, term, offset, window }) => {
                let publication = self.registry.publication_at(session, stream);
                let Some(source) = publication.map(|publication| publication.source) else {
                    return Answer::Dropped(Cause::NoStream);
                };
                let Some(open) = self.log(source) else {
                    return Answer::Dropped(Cause::NoStream);
                };
                match open.log.status(now, flags, term, offset, window) {
                    Heard::Limited(position) => Answer::Limited(position),
                    Heard::Elicited => Answer::Elicited,
                    Heard::OutOfWindow => Answer::Dropped(Cause::OutOfWindow),
                }
            }
        }
    }

    fn offer(&mut self, now: u64, client: u64, registration: u64, message: &[u8]) -> Answer {
        let Some(request) = self.registry.offering(client, registration) else {
            return Answer::Offered(Offered::Closed);
        };
        let timeout = self.registry.pace.connection_timeout;
        let Some(open) = self.log(request.source) else {
            return Answer::Offered(Offered::Closed);
        };
        if !request.decision.verdict.allow {
            return Answer::Denied(request.decision.verdict);
        }
        if message.len() > open.log.greatest_message() {
            return Answer::Offered(Offered::TooLong);
        }
        if !open.log.connected(now, timeout) {
            return Answer::Offered(Offered::NotConnected);
        }
        Answer::Offered(match open.log.offer(message) {
            Offer::At(position) => Offered::At(position),
            Offer::TooLong => Offered::TooLong,
            Offer::MaxPosition => Offered::MaxPositionExceeded,
            Offer::BackPressured => Offered::BackPressured,
            Offer::AdminAction => Offered::AdminAction,
        })
    }

    fn send(&mut self, now: u64, source: u64) -> Answer {
        let now = self.sender.at(now);
        let World { registry, logs, sender } = self;
        let Some(open) = logs.iter_mut().find(|open| open.source == source) else {
            return Answer::Gone;
        };
        let Some(publication) = registry.publication(source) else {
            return Answer::Gone;
        };
        if publication.channel.media != Media::Udp {
            return Answer::Gone;
        }
        match open.log.turn(now, registry.pace, publication.lingers.is_some()) {
            None => Answer::Idle,
            Some(bytes) => {
                let outlets = registry.outlets(publication);
                for outlet in &outlets {
                    sender.tell(outlet.decision);
                }
                Answer::Sent { bytes, outlets }
            }
        }
    }

    #[inline(never)]
    fn step(&mut self, step: &Step) -> Answer {
        match step {
            Step::Offer { now, client, registration, message } => self.offer(*now, *client, *registration, message),
            Step::Send { now, source } => self.send(*now, *source),
        }
    }
}

// ---- what is played

/// A number for a datagram: how many bytes it has, and where they are wanted, the bytes too.
fn told(bytes: &[u8], whole: bool) -> u64 {
    let mut sum = bytes.len() as u64;
    if whole {
        for byte in bytes {
            sum = sum.wrapping_mul(31).wrapping_add(u64::from(*byte));
        }
    }
    sum
}

/// A number for where a datagram goes: the ports to which it may.
fn ports_of(outlets: &[Outlet]) -> u64 {
    let allowed = outlets.iter().filter(|outlet| outlet.decision.verdict.allow);
    allowed.map(|outlet| u64::from(outlet.to.port)).sum()
}

fn offer_of(message: &[u8]) -> Step {
    Step::Offer { now: 0, client: 1, registration: 1, message: message.to_vec() }
}

/// A world whose sender has turns, with what was told so far and how long it took.
struct Played {
    world: World,
    whole: bool,
    sum: u64,
    sending: u64,
    resending: u64,
}

impl Played {
    fn new(whole: bool) -> Played {
        Played { world: World::new(), whole, sum: 0, sending: 0, resending: 0 }
    }

    fn add(&mut self, number: u64) {
        self.sum = self.sum.wrapping_mul(31).wrapping_add(number);
    }

    fn hear(&mut self, status: &[u8]) -> Option<()> {
        let Answer::Limited(position) = self.world.packet(0, LOCAL, RECEIVER, status) else {
            return None;
        };
        self.add(position);
        Some(())
    }

    fn fill(&mut self, offer: &Step) -> Option<()> {
        loop {
            match self.world.step(offer) {
                Answer::Offered(Offered::At(position)) => self.add(position),
                Answer::Offered(Offered::AdminAction) => {}
                Answer::Offered(Offered::BackPressured) => return Some(()),
                _ => return None,
            }
        }
    }

    fn send(&mut self, turn: &Step) -> Option<()> {
        let start = moment();
        for _ in 0..BATCH {
            let Answer::Sent { bytes, outlets } = self.world.step(turn) else {
                return None;
            };
            self.add(told(&bytes, self.whole));
            self.add(ports_of(&outlets));
        }
        self.sending += moment() - start;
        Some(())
    }

    fn resend(&mut self, naks: &[u8]) -> Option<()> {
        let start = moment();
        let mut now = 0;
        for nak in naks.chunks(28) {
            now += APART;
            let Answer::Resent { to, datagrams } = self.world.packet(now, LOCAL, RECEIVER, nak) else {
                return None;
            };
            let [bytes] = &datagrams[..] else {
                return None;
            };
            self.add(to.port.into());
            self.add(told(bytes, self.whole));
        }
        self.resending += moment() - start;
        Some(())
    }

    fn play(&mut self, offer: &Step, statuses: &[u8], naks: &[u8]) -> Option<()> {
        let turn = Step::Send { now: 0, source: 1 };
        for status in statuses.chunks(36) {
            self.hear(status)?;
            self.fill(offer)?;
            self.send(&turn)?;
        }
        self.resend(naks)
    }
}

/// What was told, and how long the turns and the NAKs took, in nanoseconds.
type Run = (u64, [u64; 2]);

#[inline(never)]
fn plain_send(message: &[u8], statuses: &[u8], naks: &[u8], whole: bool) -> Run {
    let mut played = Played::new(whole);
    if played.play(&offer_of(message), statuses, naks).is_none() {
        return (0, [0; 2]);
    }
    black_box((played.world.logs[0].log.messages, played.world.sender.before, played.world.sender.audit.len()));
    (played.sum, [played.sending, played.resending])
}

fn proved_send(message: &[u8], statuses: &[u8], naks: &[u8], whole: bool) -> Run {
    let (mut sending, mut resending) = (0, 0);
    let sum = unsafe {
        driver_world_send(
            message.as_ptr(),
            message.len(),
            statuses.as_ptr(),
            statuses.len(),
            naks.as_ptr(),
            naks.len(),
            whole,
            &mut sending,
            &mut resending,
        )
    };
    (sum, [sending, resending])
}

// ---- what receivers say

fn status_bytes(term: i32, offset: u32) -> Vec<u8> {
    let mut bytes = vec![36, 0, 0, 0, 0, 0, 3, 0];
    for field in [SESSION, STREAM, term, offset as i32, 65_536] {
        bytes.extend(field.to_le_bytes());
    }
    bytes.extend(7_u64.to_le_bytes());
    bytes
}

fn nak_bytes(term: i32, offset: u32, length: usize) -> Vec<u8> {
    let mut bytes = vec![28, 0, 0, 0, 0, 0, 2, 0];
    for field in [SESSION, STREAM, term, offset as i32, length as i32] {
        bytes.extend(field.to_le_bytes());
    }
    bytes
}

/// Plays a world, and gives the status messages and the NAKs of its receiver: behind each batch it tells where the last
/// datagram began, and then it asks for each of the last datagrams in turns.
fn receiver(message: &[u8]) -> Option<(Vec<u8>, Vec<u8>)> {
    let mut played = Played::new(false);
    let offer = offer_of(message);
    let turn = Step::Send { now: 0, source: 1 };
    let (mut statuses, mut sent) = (Vec::new(), Vec::new());
    for _ in 0..STATUSES {
        let (term, offset, _) = sent.last().copied().unwrap_or((0, 0, 0));
        let status = status_bytes(term, offset);
        played.hear(&status)?;
        statuses.extend(status);
        played.fill(&offer)?;
        for _ in 0..BATCH {
            let Answer::Sent { bytes, .. } = played.world.step(&turn) else {
                return None;
            };
            sent.push((signed(&bytes, 20), number(&bytes, 8), bytes.len()));
        }
    }
    let last = &sent[sent.len() - LAST..];
    let naks = last.iter().cycle().take(NAKS).flat_map(|(term, offset, length)| nak_bytes(*term, *offset, *length));
    Some((statuses, naks.collect()))
}

fn main() {
    for (what, size) in [("1 frame of 1,376 bytes", 1_376), ("22 frames of 8 bytes", 8)] {
        let message = vec![0x61; size];
        let (statuses, naks) = receiver(&message).expect("each turn has a datagram");
        let (sum, _) = plain_send(&message, &statuses, &naks, true);
        assert!(sum > 0);
        assert_eq!(proved_send(&message, &statuses, &naks, true).0, sum);
        let mut times = [[u64::MAX; 2]; 2];
        let mut sums = [0; 2];
        // In turns, so that both meet the same machine.
        for _ in 0..60 {
            for (i, send) in [plain_send, proved_send].into_iter().enumerate() {
                let (sum, taken) = send(black_box(&message), &statuses, &naks, black_box(false));
                sums[i] = sum;
                times[i] = [0, 1].map(|act| times[i][act].min(taken[act]));
            }
        }
        assert_eq!(sums[1], sums[0]);
        for (act, (name, count)) in [("turns", STATUSES * BATCH), ("NAKs", NAKS)].into_iter().enumerate() {
            let [plain, proved] = [0, 1].map(|i| count as f64 * 1e9 / times[i][act] as f64);
            let ratio = proved / plain;
            println!("{what}, {name}: plain {plain:.0}/s, driver_world {proved:.0}/s, ratio {ratio:.2}");
        }
    }
}
