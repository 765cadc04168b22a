//! Offers batches of messages to a driver and polls them back, by `driver_world` and by plain Rust, and prints how the
//! two compare.
//!
//! The plain driver here is the same program, as one would write it in Rust: the same lists are looked through, by the
//! same tests in their order, a verdict is from the client's cache of the last 256 where it is there, and else the rules of
//! the policy are asked one behind the other; the decision is kept in the client's audit of the last 4,096; and a poll copies
//! what it gives, each fragment for itself.

use std::collections::{BTreeMap, HashMap, VecDeque};
use std::hash::{BuildHasherDefault, Hasher};
use std::hint::black_box;
use std::time::{Duration, Instant};

unsafe extern "C" {
    fn driver_world_run(rules: u64, rounds: u64) -> u64;
    fn malloc(size: usize) -> *mut u8;
    fn realloc(start: *mut u8, size: usize) -> *mut u8;
    fn free(start: *mut u8);
}

/// What the library is told of memory: whether there is some, and where.
#[repr(C)]
struct Tried {
    ok: bool,
    start: *mut u8,
}

fn tried(start: *mut u8) -> Tried {
    static NOTHING: u8 = 0;
    if start.is_null() {
        Tried { ok: false, start: (&raw const NOTHING).cast_mut() }
    } else {
        Tried { ok: true, start }
    }
}

/// The heap of the library, which leaves it to the program that it is linked with.
#[unsafe(no_mangle)]
extern "C" fn rattle_alloc(size: usize, align: usize) -> Tried {
    tried(unsafe { malloc(if size == 0 { align } else { size }) })
}

#[unsafe(no_mangle)]
extern "C" fn rattle_realloc(start: *mut u8, _kept: usize, size: usize, align: usize) -> Tried {
    tried(unsafe { realloc(start, if size == 0 { align } else { size }) })
}

#[unsafe(no_mangle)]
extern "C" fn rattle_dealloc(start: *mut u8) {
    unsafe { free(start) }
}

/// How many messages are offered before they are polled.
const BATCH: usize = 16;

/// How many bytes a message has.
const SIZE: usize = 64;

const HEADER: usize = 32;

/// The stream that is published and read.
const STREAM: i32 = 10;

// ---- the policy

#[allow(dead_code)]
#[derive(Clone, Copy, PartialEq, Eq, Hash)]
enum Act {
    Publish,
    PublishExclusive,
    Subscribe,
    Spy,
    Destination,
    Counter,
    Terminate,
    Offer,
    Image,
    Receive,
    Send,
    Retransmit,
    List,
}

#[allow(dead_code)]
#[derive(Clone, Copy)]
enum Principals {
    Any,
    One(u32),
}

#[allow(dead_code)]
#[derive(Clone, Copy, PartialEq)]
enum Media {
    Udp,
    Ipc,
    Counter,
}

type Keys = BTreeMap<String, String>;

struct Channel {
    #[allow(dead_code)]
    spy: bool,
    media: Media,
    keys: Keys,
}

#[allow(dead_code)]
enum Pattern {
    Any,
    Of(Media, Keys),
}

struct Rule {
    #[allow(dead_code)]
    name: String,
    principals: Principals,
    acts: [bool; 13],
    channel: Pattern,
    low: i32,
    high: i32,
    allow: bool,
}

struct Request<'a> {
    principal: u32,
    act: Act,
    channel: &'a Channel,
    stream: i32,
}

#[derive(Clone, Copy)]
struct Verdict {
    allow: bool,
    #[allow(dead_code)]
    rule: Option<u32>,
    #[allow(dead_code)]
    epoch: u64,
}

struct Policy {
    rules: Vec<Rule>,
    default: bool,
}

fn ipc() -> Channel {
    Channel { spy: false, media: Media::Ipc, keys: Keys::new() }
}

impl Channel {
    fn session_id(&self) -> Option<i32> {
        self.keys.get("session-id")?.parse().ok()
    }
}

impl Principals {
    fn include(self, principal: u32) -> bool {
        match self {
            Principals::Any => true,
            Principals::One(one) => one == principal,
        }
    }
}

fn value_fits(wanted: &str, value: &str) -> bool {
    wanted == value || wanted.strip_suffix('*').is_some_and(|front| value.starts_with(front))
}

impl Pattern {
    fn covers(&self, channel: &Channel) -> bool {
        match self {
            Pattern::Any => true,
            Pattern::Of(media, wanted) => {
                *media == channel.media
                    && wanted
                        .iter()
                        .all(|(key, wanted)| channel.keys.get(key).is_some_and(|value| value_fits(wanted, value)))
            }
        }
    }
}

impl Rule {
    fn matches(&self, request: &Request) -> bool {
        self.principals.include(request.principal)
            && self.acts[request.act as usize]
            && self.channel.covers(request.channel)
            && self.low <= request.stream
            && request.stream <= self.high
    }
}

impl Policy {
    fn verdict(&self, epoch: u64, request: &Request) -> Verdict {
        match self.rules.iter().position(|rule| rule.matches(request)) {
            Some(index) => Verdict { allow: self.rules[index].allow, rule: Some(index as u32 + 1), epoch },
            None => Verdict { allow: self.default, rule: None, epoch },
        }
    }

    /// So many rules, of which the last alone matches: the others are of another principal, another act or another
    /// stream, in turns.
    fn new(rules: u64) -> Policy {
        let rules = (1..=rules).map(|number| {
            let mut rule = Rule {
                name: "a rule".to_string(),
                principals: Principals::One(1),
                acts: [true; 13],
                channel: Pattern::Of(Media::Ipc, Keys::new()),
                low: STREAM,
                high: STREAM,
                allow: number == rules,
            };
            if !rule.allow {
                match number % 3 {
                    0 => rule.principals = Principals::One(2),
                    1 => {
                        rule.acts = [false; 13];
                        rule.acts[Act::Counter as usize] = true;
                    }
                    _ => (rule.low, rule.high) = (STREAM + 1, STREAM + 9),
                }
            }
            rule
        });
        Policy { rules: rules.collect(), default: false }
    }
}

// ---- the registry

#[derive(Clone, Copy)]
struct Client {
    number: u64,
    principal: u32,
    #[allow(dead_code)]
    heard: u64,
}

struct Publication {
    source: u64,
    channel: Channel,
    stream: i32,
    session: i32,
}

struct Registration {
    number: u64,
    client: u64,
    channel: Channel,
    source: u64,
}

struct Subscription {
    number: u64,
    client: u64,
    channel: Channel,
    stream: i32,
}

/// What the policy decided, of whom and what.
#[allow(dead_code)]
#[derive(Clone, Copy)]
struct Decision {
    principal: u32,
    act: Act,
    subject: u64,
    stream: i32,
    verdict: Verdict,
}

/// What a client asks of a log: of which one, and what the policy says.
struct LogRequest {
    source: u64,
    decision: Decision,
}

// ---- the cache

/// Numbers are mixed by a product each, which is quick.
#[derive(Default)]
struct Mixer(u64);

impl Hasher for Mixer {
    fn finish(&self) -> u64 {
        self.0
    }

    fn write(&mut self, bytes: &[u8]) {
        for byte in bytes {
            self.write_u64(u64::from(*byte));
        }
    }

    fn write_u32(&mut self, number: u32) {
        self.write_u64(u64::from(number));
    }

    fn write_u64(&mut self, number: u64) {
        self.0 = (self.0.rotate_left(5) ^ number).wrapping_mul(0x517c_c1b7_2722_0a95);
    }

    fn write_isize(&mut self, number: isize) {
        self.write_u64(number as u64);
    }
}

#[derive(Clone, Copy, PartialEq, Eq, Hash)]
struct Key {
    epoch: u64,
    subject: u64,
    principal: u32,
    act: Act,
}

/// One that is kept, and those that were asked for before and behind it.
struct Node {
    key: Key,
    verdict: Verdict,
    newer: usize,
    older: usize,
}

/// How many verdicts are kept.
const KEPT: usize = 256;

const NOWHERE: usize = usize::MAX;

/// Verdicts in the order in which they were asked for last.
struct Cache {
    places: HashMap<Key, usize, BuildHasherDefault<Mixer>>,
    nodes: Vec<Node>,
    newest: usize,
    oldest: usize,
}

impl Cache {
    fn new() -> Cache {
        Cache { places: HashMap::default(), nodes: Vec::new(), newest: NOWHERE, oldest: NOWHERE }
    }

    fn take_out(&mut self, at: usize) {
        let (newer, older) = (self.nodes[at].newer, self.nodes[at].older);
        match newer {
            NOWHERE => self.newest = older,
            _ => self.nodes[newer].older = older,
        }
        match older {
            NOWHERE => self.oldest = newer,
            _ => self.nodes[older].newer = newer,
        }
    }

    fn put_first(&mut self, at: usize) {
        self.nodes[at].newer = NOWHERE;
        self.nodes[at].older = self.newest;
        match self.newest {
            NOWHERE => self.oldest = at,
            newest => self.nodes[newest].newer = at,
        }
        self.newest = at;
    }

    fn verdict(&mut self, key: Key, decide: impl FnOnce() -> Verdict) -> Verdict {
        // What was asked last is answered without a look-up.
        if self.newest != NOWHERE && self.nodes[self.newest].key == key {
            return self.nodes[self.newest].verdict;
        }
        if let Some(at) = self.places.get(&key).copied() {
            if at != self.newest {
                self.take_out(at);
                self.put_first(at);
            }
            return self.nodes[at].verdict;
        }
        let verdict = decide();
        let at = if self.nodes.len() < KEPT {
            self.nodes.push(Node { key, verdict, newer: NOWHERE, older: NOWHERE });
            self.nodes.len() - 1
        } else {
            let at = self.oldest;
            self.take_out(at);
            self.places.remove(&self.nodes[at].key);
            self.nodes[at] = Node { key, verdict, newer: NOWHERE, older: NOWHERE };
            at
        };
        self.put_first(at);
        self.places.insert(key, at);
        verdict
    }
}

struct Registry {
    connection_timeout: u64,
    policy: Policy,
    epoch: u64,
    clients: Vec<Client>,
    publications: Vec<Publication>,
    registrations: Vec<Registration>,
    subscriptions: Vec<Subscription>,
    /// Which subscription reads which log.
    pairs: Vec<(u64, u64)>,
}

fn fits(publication: &Publication, subscription: &Subscription) -> bool {
    publication.channel.media == Media::Ipc
        && subscription.channel.media == Media::Ipc
        && publication.stream == subscription.stream
        && subscription.channel.session_id().is_none_or(|stated| stated == publication.session)
}

impl Registry {
    /// Client 1 of principal 1, who subscribed, as number 1, to what it published, as number 2.
    fn new(rules: u64) -> Registry {
        let mut registry = Registry {
            connection_timeout: 5_000_000_000,
            policy: Policy::new(rules),
            epoch: 1,
            clients: vec![Client { number: 1, principal: 1, heard: 0 }],
            publications: vec![Publication { source: 2, channel: ipc(), stream: STREAM, session: 1 }],
            registrations: vec![Registration { number: 2, client: 1, channel: ipc(), source: 2 }],
            subscriptions: vec![Subscription { number: 1, client: 1, channel: ipc(), stream: STREAM }],
            pairs: Vec::new(),
        };
        if fits(&registry.publications[0], &registry.subscriptions[0]) && registry.has_image(&registry.subscriptions[0]) {
            registry.pairs.push((2, 1));
        }
        registry
    }

    fn client(&self, number: u64) -> Option<Client> {
        self.clients.iter().find(|client| client.number == number).copied()
    }

    fn publication(&self, source: u64) -> Option<&Publication> {
        self.publications.iter().find(|publication| publication.source == source)
    }

    fn registration(&self, client: u64, number: u64) -> Option<&Registration> {
        self.registrations
            .iter()
            .find(|registration| registration.number == number && registration.client == client)
    }

    fn subscription(&self, number: u64) -> Option<&Subscription> {
        self.subscriptions.iter().find(|subscription| subscription.number == number)
    }

    fn verdict(&self, principal: u32, act: Act, channel: &Channel, stream: i32) -> Verdict {
        self.policy.verdict(self.epoch, &Request { principal, act, channel, stream })
    }

    fn has_image(&self, subscription: &Subscription) -> bool {
        self.client(subscription.client).is_some_and(|holder| {
            self.verdict(holder.principal, Act::Image, &subscription.channel, subscription.stream).allow
        })
    }

    fn decision(&self, cache: &mut Cache, principal: u32, act: Act, subject: u64, channel: &Channel, stream: i32) -> Decision {
        let key = Key { epoch: self.epoch, subject, principal, act };
        let verdict = cache.verdict(key, || self.verdict(principal, act, channel, stream));
        Decision { principal, act, subject, stream, verdict }
    }

    fn offering(&self, cache: &mut Cache, client: u64, registration: u64) -> Option<LogRequest> {
        let holder = self.client(client)?;
        let registration = self.registration(client, registration)?;
        let publication = self.publication(registration.source)?;
        let (number, stream) = (registration.number, publication.stream);
        Some(LogRequest {
            source: publication.source,
            decision: self.decision(cache, holder.principal, Act::Offer, number, &registration.channel, stream),
        })
    }

    fn receiving(&self, cache: &mut Cache, client: u64, subscription: u64, source: u64) -> Option<LogRequest> {
        if !self.pairs.contains(&(source, subscription)) {
            return None;
        }
        let holder = self.client(client)?;
        let subscription = self.subscription(subscription)?;
        if subscription.client != client {
            return None;
        }
        let (number, stream) = (subscription.number, subscription.stream);
        Some(LogRequest {
            source,
            decision: self.decision(cache, holder.principal, Act::Receive, number, &subscription.channel, stream),
        })
    }
}

// ---- the log

enum Offer {
    At(u64),
    TooLong,
    MaxPosition,
    BackPressured,
    AdminAction,
}

enum Content<'a> {
    Fragment(u8, &'a [u8]),
    Pad(u32),
}

struct Frame<'a> {
    content: Content<'a>,
    sent: usize,
}

struct Pair {
    subscription: u64,
    position: u64,
}

#[allow(dead_code)]
#[derive(Clone, Copy)]
enum LogKind {
    Ipc,
    Udp,
}

#[derive(Clone, Copy)]
struct Ident {
    kind: LogKind,
    session: i32,
    stream: i32,
    initial_term: i32,
    term_length: u32,
    mtu: u32,
}

struct Log {
    ident: Ident,
    bytes: Vec<u8>,
    tail: u64,
    messages: u64,
    pairs: Vec<Pair>,
    /// The position up to which the log was sent, and when it was last heard that it is received.
    sent: u64,
    heard: Option<u64>,
}

fn padded(length: u64) -> u64 {
    length.div_ceil(32) * 32
}

impl Log {
    fn new(ident: Ident) -> Log {
        let mut pairs = Vec::with_capacity(512);
        pairs.push(Pair { subscription: 1, position: 0 });
        let bytes = vec![0; 3 * ident.term_length as usize];
        Log { ident, bytes, tail: 0, messages: 0, pairs, sent: 0, heard: None }
    }

    fn term(&self) -> u64 {
        self.ident.term_length.into()
    }

    fn greatest_message(&self) -> usize {
        (self.ident.term_length as usize / 8).min(16_777_216)
    }

    fn connected(&self, now: u64, timeout: u64) -> bool {
        match self.ident.kind {
            LogKind::Ipc => !self.pairs.is_empty(),
            LogKind::Udp => self.heard.is_some_and(|heard| now.saturating_sub(heard) <= timeout),
        }
    }

    fn limit(&self) -> u64 {
        let half = self.term() / 2;
        let least = self.pairs.iter().map(|pair| pair.position).min();
        match self.ident.kind {
            LogKind::Ipc => least.map_or(self.tail, |least| least + half),
            LogKind::Udp => least.map_or(self.sent, |least| least.min(self.sent)) + half,
        }
    }

    fn buffer(&self, position: u64) -> usize {
        (position / self.term() % 3 * self.term()) as usize
    }

    fn header(&mut self, length: u32, flags: u8, kind: u16) -> usize {
        let Ident { session, stream, initial_term, .. } = self.ident;
        let offset = self.tail % self.term();
        let term = initial_term.wrapping_add((self.tail / self.term()) as i32);
        let at = self.buffer(self.tail) + offset as usize;
        let out = &mut self.bytes[at..at + HEADER];
        out[..4].copy_from_slice(&length.to_le_bytes());
        out[4] = 0;
        out[5] = flags;
        out[6..8].copy_from_slice(&kind.to_le_bytes());
        out[8..12].copy_from_slice(&(offset as u32).to_le_bytes());
        out[12..16].copy_from_slice(&session.to_le_bytes());
        out[16..20].copy_from_slice(&stream.to_le_bytes());
        out[20..24].copy_from_slice(&term.to_le_bytes());
        out[24..32].copy_from_slice(&0_u64.to_le_bytes());
        at
    }

    fn append(&mut self, flags: u8, payload: &[u8]) {
        let length = HEADER + payload.len();
        let at = self.header(length as u32, flags, 1);
        let span = padded(length as u64);
        self.bytes[at + HEADER..at + length].copy_from_slice(payload);
        self.bytes[at + length..at + span as usize].fill(0);
        self.tail += span;
    }

    fn offer(&mut self, message: &[u8]) -> Offer {
        if message.len() > self.greatest_message() {
            return Offer::TooLong;
        }
        let mtu = self.ident.mtu as usize;
        let payload = mtu - HEADER;
        let whole = (message.len() / payload) as u64;
        let rest = (message.len() % payload) as u64;
        let last = if rest > 0 || whole == 0 { padded(32 + rest) } else { 0 };
        let size = whole * mtu as u64 + last;
        if self.tail + size > self.term() << 31 {
            return Offer::MaxPosition;
        }
        if self.tail >= self.limit() {
            return Offer::BackPressured;
        }
        let left = self.term() - self.tail % self.term();
        if size > left {
            let at = self.header(left as u32, 0xc0, 0);
            self.bytes[at + HEADER..at + left as usize].fill(0);
            self.tail += left;
            return Offer::AdminAction;
        }
        if message.is_empty() {
            self.append(0xc0, message);
        } else {
            let count = message.len().div_ceil(payload);
            for (i, part) in message.chunks(payload).enumerate() {
                let begin = if i == 0 { 0x80 } else { 0 };
                let end = if i + 1 == count { 0x40 } else { 0 };
                self.append(begin | end, part);
            }
        }
        self.messages += 1;
        Offer::At(self.tail)
    }

    fn position_of(&self, subscription: u64) -> Option<u64> {
        self.pairs.iter().find(|pair| pair.subscription == subscription).map(|pair| pair.position)
    }

    fn advance(&mut self, subscription: u64, position: u64) {
        for pair in &mut self.pairs {
            if pair.subscription == subscription {
                pair.position = position;
            }
        }
    }

    fn next_term(&self, position: u64) -> u64 {
        self.tail.min(position - position % self.term() + self.term())
    }

    /// The frames of one term from a position on.
    fn frames_from(&self, position: u64) -> Frames<'_> {
        let at = self.buffer(position) + (position % self.term()) as usize;
        let count = (self.next_term(position) - position) as usize;
        Frames { rest: &self.bytes[at..at + count], budget: self.term() as usize }
    }

    /// The frames from a position on, up to the tail.
    fn frames_behind(&self, position: u64) -> impl Iterator<Item = Frame<'_>> {
        let second = self.next_term(position);
        let third = self.next_term(second);
        self.frames_from(position).chain(self.frames_from(second)).chain(self.frames_from(third))
    }

    /// The fragments from a position on, at most so many, and the position behind them.
    fn fragments(&self, position: u64, limit: usize) -> (Vec<Fragment>, u64) {
        let mut fragments = Vec::new();
        let mut end = position;
        for frame in self.frames_behind(position) {
            if fragments.len() >= limit {
                break;
            }
            end += frame.span();
            if let Content::Fragment(flags, payload) = frame.content {
                fragments.push(Fragment { position: end, flags, payload: payload.to_vec() });
            }
        }
        (fragments, end)
    }
}

struct Frames<'a> {
    rest: &'a [u8],
    budget: usize,
}

impl<'a> Iterator for Frames<'a> {
    type Item = Frame<'a>;

    fn next(&mut self) -> Option<Frame<'a>> {
        let bytes = self.rest;
        if bytes.len() < HEADER {
            return None;
        }
        let length = u32::from_le_bytes(bytes[..4].try_into().unwrap());
        let frame = if bytes[6] == 0 {
            Frame { content: Content::Pad(length), sent: HEADER }
        } else {
            let span = padded(length.into()) as usize;
            if length < 32 || span > bytes.len() {
                return None;
            }
            Frame { content: Content::Fragment(bytes[5], &bytes[HEADER..length as usize]), sent: span }
        };
        if frame.sent > self.budget {
            return None;
        }
        self.budget -= frame.sent;
        self.rest = match frame.content {
            Content::Fragment(..) => &bytes[frame.sent..],
            Content::Pad(_) => &[],
        };
        Some(frame)
    }
}

impl Frame<'_> {
    fn span(&self) -> u64 {
        match self.content {
            Content::Fragment(_, payload) => padded(32 + payload.len() as u64),
            Content::Pad(size) => size.into(),
        }
    }
}

// ---- the steps

#[allow(dead_code)]
enum Step {
    Offer { now: u64, client: u64, registration: u64, message: Vec<u8> },
    Poll { now: u64, client: u64, subscription: u64, source: u64, limit: u32 },
}

enum Offered {
    At(u64),
    Closed,
    TooLong,
    NotConnected,
    MaxPositionExceeded,
    BackPressured,
    AdminAction,
}

struct Fragment {
    position: u64,
    #[allow(dead_code)]
    flags: u8,
    payload: Vec<u8>,
}

enum Answer {
    Offered(Offered),
    Polled(Vec<Fragment>),
    Gone,
    Denied(#[allow(dead_code)] Verdict),
}

struct OpenLog {
    source: u64,
    log: Log,
}

/// How many decisions an audit keeps.
const AUDITED: usize = 4_096;

/// What was decided for a client, and the greatest moment of its steps.
struct Seat {
    client: u64,
    moment: u64,
    audit: VecDeque<Decision>,
    /// How many decisions went.
    before: u64,
}

/// How many caches there are for the clients.
const CACHES: u64 = 64;

struct World {
    registry: Registry,
    logs: Vec<OpenLog>,
    caches: Vec<Cache>,
    seats: Vec<Seat>,
}

impl World {
    fn new(rules: u64) -> World {
        let ident = Ident {
            kind: LogKind::Ipc,
            session: 1,
            stream: STREAM,
            initial_term: 0,
            term_length: 65_536,
            mtu: 1_408,
        };
        World {
            registry: Registry::new(rules),
            logs: vec![OpenLog { source: 2, log: Log::new(ident) }],
            caches: (0..CACHES).map(|_| Cache::new()).collect(),
            seats: vec![Seat { client: 1, moment: 0, audit: VecDeque::with_capacity(AUDITED), before: 0 }],
        }
    }

    /// What was decided for a step of the client is told.
    fn tell(&mut self, client: u64, now: u64, decision: Decision) {
        let Some(seat) = self.seats.iter_mut().find(|seat| seat.client == client) else {
            return;
        };
        seat.moment = seat.moment.max(now);
        if seat.audit.len() == AUDITED {
            seat.audit.pop_front();
            seat.before += 1;
        }
        seat.audit.push_back(decision);
    }

    fn cache(&mut self, client: u64) -> (&mut Cache, &Registry) {
        (&mut self.caches[(client % CACHES) as usize], &self.registry)
    }

    fn offer(&mut self, now: u64, client: u64, registration: u64, message: &[u8]) -> Answer {
        let (cache, registry) = self.cache(client);
        let Some(request) = registry.offering(cache, client, registration) else {
            return Answer::Offered(Offered::Closed);
        };
        self.tell(client, now, request.decision);
        let Some(open) = self.logs.iter_mut().find(|open| open.source == request.source) else {
            return Answer::Offered(Offered::Closed);
        };
        if !request.decision.verdict.allow {
            return Answer::Denied(request.decision.verdict);
        }
        if message.len() > open.log.greatest_message() {
            return Answer::Offered(Offered::TooLong);
        }
        if !open.log.connected(now, self.registry.connection_timeout) {
            return Answer::Offered(Offered::NotConnected);
        }
        Answer::Offered(match open.log.offer(message) {
            Offer::At(position) => Offered::At(position),
            Offer::TooLong => Offered::TooLong,
            Offer::MaxPosition => Offered::MaxPositionExceeded,
            Offer::BackPressured => Offered::BackPressured,
            Offer::AdminAction => Offered::AdminAction,
        })
    }

    fn poll(&mut self, now: u64, client: u64, subscription: u64, source: u64, limit: u32) -> Answer {
        let (cache, registry) = self.cache(client);
        let Some(request) = registry.receiving(cache, client, subscription, source) else {
            return Answer::Gone;
        };
        self.tell(client, now, request.decision);
        let Some(open) = self.logs.iter_mut().find(|open| open.source == source) else {
            return Answer::Gone;
        };
        let Some(position) = open.log.position_of(subscription) else {
            return Answer::Gone;
        };
        if !request.decision.verdict.allow {
            return Answer::Denied(request.decision.verdict);
        }
        let (fragments, end) = open.log.fragments(position, limit as usize);
        open.log.advance(subscription, end);
        Answer::Polled(fragments)
    }

    fn step(&mut self, step: &Step) -> Answer {
        match step {
            Step::Offer { now, client, registration, message } => self.offer(*now, *client, *registration, message),
            Step::Poll { now, client, subscription, source, limit } => {
                self.poll(*now, *client, *subscription, *source, *limit)
            }
        }
    }
}

/// Offers a message, again where the rest of the term was too short for it: the position behind it.
fn offer(world: &mut World, offer: &Step) -> Option<u64> {
    for _ in 0..2 {
        match world.step(offer) {
            Answer::Offered(Offered::At(position)) => return Some(position),
            Answer::Offered(Offered::AdminAction) => {}
            _ => return None,
        }
    }
    None
}

/// Polls a batch: the sum of where the fragments end and how long they are.
fn poll(world: &mut World, poll: &Step) -> Option<u64> {
    match world.step(poll) {
        Answer::Polled(fragments) if fragments.len() == BATCH => {
            let ends = fragments.iter().map(|fragment| fragment.position + fragment.payload.len() as u64);
            Some(ends.sum())
        }
        _ => None,
    }
}

fn run(rules: u64, rounds: u64) -> Option<u64> {
    let mut world = World::new(rules);
    let message = vec![0x61; SIZE];
    let offered = Step::Offer { now: 0, client: 1, registration: 2, message };
    let polled = Step::Poll { now: 0, client: 1, subscription: 1, source: 2, limit: BATCH as u32 };
    let mut sum = 0_u64;
    for _ in 0..rounds {
        for _ in 0..BATCH {
            sum = sum.wrapping_add(offer(&mut world, &offered)?);
        }
        sum = sum.wrapping_add(poll(&mut world, &polled)?);
    }
    black_box((world.logs[0].log.messages, world.seats[0].moment, world.seats[0].before));
    Some(sum)
}

#[inline(never)]
fn plain_run(rules: u64, rounds: u64) -> u64 {
    run(rules, rounds).unwrap_or(0)
}

fn proved_run(rules: u64, rounds: u64) -> u64 {
    unsafe { driver_world_run(rules, rounds) }
}

/// The least time of several runs of so many rounds.
fn least(run: fn(u64, u64) -> u64, rules: u64, rounds: u64) -> Duration {
    let mut least = Duration::MAX;
    for _ in 0..5 {
        let start = Instant::now();
        black_box(run(black_box(rules), black_box(rounds)));
        least = least.min(start.elapsed());
    }
    least
}

fn main() {
    for (rules, rounds) in [(10, 50_000), (1_000, 2_500)] {
        let sum = plain_run(rules, rounds);
        assert!(sum > 0);
        assert_eq!(proved_run(rules, rounds), sum);
        let mut opened = [Duration::MAX; 2];
        let mut times = [Duration::MAX; 2];
        // In turns, so that both meet the same machine.
        for _ in 0..4 {
            for (i, run) in [plain_run, proved_run].into_iter().enumerate() {
                opened[i] = opened[i].min(least(run, rules, 0));
                times[i] = times[i].min(least(run, rules, rounds));
            }
        }
        // What it takes to open a driver and to close it is no part of the steps.
        let messages = (rounds * BATCH as u64) as f64;
        let [plain, proved] = [0, 1].map(|i| messages / times[i].saturating_sub(opened[i]).as_secs_f64());
        let ratio = proved / plain;
        println!("{rules} rules: plain {plain:.0}/s, driver_world {proved:.0}/s, ratio {ratio:.2}");
    }
}
