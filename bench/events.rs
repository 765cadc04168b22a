//! Gives events to a registry, by `driver_core` and by plain Rust, and prints how the two compare.
//!
//! The plain registry here is the same program, as one would write it in Rust: the same lists are looked through, by the
//! same tests in their order, and the rules of the policy one behind the other. It is changed in place, and each log keeps
//! the subscriptions that read it, so that a subscription asks each log once.

use std::collections::BTreeMap;
use std::hint::black_box;
use std::mem;
use std::net::SocketAddrV4;

/// A number for each kind of event.
#[repr(C)]
#[derive(Clone, Copy)]
struct Each {
    subscribe: u64,
    publish: u64,
    keepalive: u64,
    reload: u64,
}

unsafe extern "C" {
    fn driver_core_run(full: bool, rounds: &Each, times: &mut Each) -> u64;
    fn clock_gettime(clock: i32, time: &mut Timespec) -> i32;
    fn malloc(size: usize) -> *mut u8;
    fn realloc(start: *mut u8, size: usize) -> *mut u8;
    fn free(start: *mut u8);
}

/// A time of a clock.
#[repr(C)]
struct Timespec {
    seconds: i64,
    nanoseconds: i64,
}

/// What the library is told of memory: whether there is some, and where.
#[repr(C)]
struct Tried {
    ok: bool,
    start: *mut u8,
}

fn tried(start: *mut u8) -> Tried {
    static NOTHING: u8 = 0;
    if start.is_null() {
        Tried { ok: false, start: (&raw const NOTHING).cast_mut() }
    } else {
        Tried { ok: true, start }
    }
}

/// The heap of the library, which leaves it to the program that it is linked with.
#[unsafe(no_mangle)]
extern "C" fn rattle_alloc(size: usize, align: usize) -> Tried {
    tried(unsafe { malloc(if size == 0 { align } else { size }) })
}

#[unsafe(no_mangle)]
extern "C" fn rattle_realloc(start: *mut u8, _kept: usize, size: usize, align: usize) -> Tried {
    tried(unsafe { realloc(start, if size == 0 { align } else { size }) })
}

#[unsafe(no_mangle)]
extern "C" fn rattle_dealloc(start: *mut u8) {
    unsafe { free(start) }
}

/// The channel that is published and subscribed to.
const CHANNEL: &str = "aeron:ipc?linger=5s|mtu=1408|term-length=64k";

/// How many streams there are.
const STREAMS: u64 = 33;

/// The clock of the processor time that a program takes.
const PROCESSOR_TIME: i32 = 2;

/// How often each kind of event is timed, to take the least time.
const TURNS: u64 = 3;

// ---- channels

#[derive(Clone, Copy, PartialEq)]
enum Media {
    Udp,
    Ipc,
    Counter,
}

type Keys = BTreeMap<String, String>;

#[derive(Clone)]
struct Channel {
    spy: bool,
    media: Media,
    keys: Keys,
}

#[derive(Clone)]
enum Pattern {
    Any,
    Of(Media, Keys),
}

enum Place<'a> {
    Ipc,
    Manual,
    Endpoint(&'a str),
}

fn number(text: &str) -> Option<u64> {
    if text.is_empty() || !text.bytes().all(|byte| byte.is_ascii_digit()) {
        return None;
    }
    text.parse().ok()
}

/// The number before the first of these units that the text ends in, or of the whole text where it ends in none.
fn measured(units: &[(&str, u64)], text: &str) -> Option<u64> {
    let ended = units.iter().find_map(|(unit, factor)| Some((text.strip_suffix(unit)?, *factor)));
    let (digits, factor) = ended.unwrap_or((text, 1));
    number(digits)?.checked_mul(factor).filter(|product| *product < 1 << 63)
}

fn size_of(text: &str) -> Option<u64> {
    let units =
        [("k", 1 << 10), ("K", 1 << 10), ("m", 1 << 20), ("M", 1 << 20), ("g", 1 << 30), ("G", 1 << 30)];
    measured(&units, text)
}

fn mtu_of(text: &str) -> Option<u32> {
    size_of(text).filter(|size| (64..=65_504).contains(size) && size % 32 == 0).map(|size| size as u32)
}

fn term_length_of(text: &str) -> Option<u32> {
    size_of(text)
        .filter(|size| (65_536..=16_777_216).contains(size) && size.is_power_of_two())
        .map(|size| size as u32)
}

fn linger_of(text: &str) -> Option<u64> {
    measured(&[("ns", 1), ("us", 1_000), ("ms", 1_000_000), ("s", 1_000_000_000)], text)
}

fn session_id_of(text: &str) -> Option<i32> {
    let digits = text.strip_prefix('-').unwrap_or(text);
    if digits.bytes().all(|byte| byte.is_ascii_digit()) { text.parse().ok() } else { None }
}

fn is_address(text: &str) -> bool {
    text.parse::<SocketAddrV4>().is_ok_and(|address| !address.ip().is_multicast() && address.port() != 0)
}

/// Whether the value follows the rule of its key.
fn is_good(key: &str, value: &str) -> bool {
    match key {
        "endpoint" | "control" => is_address(value),
        "mtu" => mtu_of(value).is_some(),
        "term-length" => term_length_of(value).is_some(),
        "session-id" => session_id_of(value).is_some(),
        "linger" => linger_of(value).is_some(),
        "control-mode" => value == "manual",
        "interface" | "tags" => false,
        _ => true,
    }
}

fn value_read(key: &str, value: &str) -> String {
    match value.strip_prefix("localhost:") {
        Some(port) if key == "endpoint" || key == "control" => format!("127.0.0.1:{port}"),
        _ => value.to_string(),
    }
}

/// The medium and the keys of what stands behind the scheme.
fn halves(text: &str) -> Option<(&str, Keys)> {
    let (media, pairs) = match text.split_once('?') {
        Some((media, pairs)) => (media, Some(pairs)),
        None => (text, None),
    };
    let mut keys = Keys::new();
    for piece in pairs.into_iter().flat_map(|pairs| pairs.split('|')) {
        let (key, value) = piece.split_once('=')?;
        if key.is_empty() {
            return None;
        }
        keys.insert(key.to_string(), value_read(key, value));
    }
    Some((media, keys))
}

impl Channel {
    fn parse(text: &str) -> Option<Channel> {
        if text.len() > 1_024 {
            return None;
        }
        let (spy, rest) = match text.strip_prefix("aeron-spy:") {
            Some(rest) => (true, rest),
            None => (false, text),
        };
        let (media, keys) = halves(rest.strip_prefix("aeron:")?)?;
        let media = match media {
            "udp" => Media::Udp,
            "ipc" if !spy => Media::Ipc,
            _ => return None,
        };
        if keys.iter().all(|(key, value)| is_good(key, value)) { Some(Channel { spy, media, keys }) } else { None }
    }

    fn counter() -> Channel {
        Channel { spy: false, media: Media::Counter, keys: Keys::new() }
    }

    fn get(&self, key: &str) -> Option<&str> {
        self.keys.get(key).map(String::as_str)
    }

    fn session_id(&self) -> Option<i32> {
        session_id_of(self.get("session-id")?)
    }

    fn is_manual(&self) -> bool {
        self.get("control-mode") == Some("manual")
    }

    fn place(&self) -> Option<Place<'_>> {
        match self.media {
            Media::Ipc => Some(Place::Ipc),
            Media::Udp if self.is_manual() => Some(Place::Manual),
            Media::Udp => self.get("endpoint").map(Place::Endpoint),
            Media::Counter => None,
        }
    }

    fn is_subscribable(&self) -> bool {
        if self.spy {
            return self.place().is_some();
        }
        match self.media {
            Media::Ipc => true,
            Media::Udp => self.get("endpoint").is_some() && self.get("control-mode").is_none(),
            Media::Counter => false,
        }
    }

    fn is_publishable(&self) -> bool {
        !self.spy && self.place().is_some()
    }
}

fn is_same_place(channel: &Channel, other: &Channel) -> bool {
    match (channel.place(), other.place()) {
        (Some(Place::Ipc), Some(Place::Ipc)) => true,
        (Some(Place::Manual), Some(Place::Manual)) => true,
        (Some(Place::Endpoint(address)), Some(Place::Endpoint(other))) => address == other,
        _ => false,
    }
}

fn value_fits(wanted: &str, value: &str) -> bool {
    wanted == value || wanted.strip_suffix('*').is_some_and(|front| value.starts_with(front))
}

impl Pattern {
    fn parse(text: &str) -> Option<Pattern> {
        if text == "*" {
            return Some(Pattern::Any);
        }
        let (media, keys) = halves(text.strip_prefix("aeron:")?)?;
        let media = match media {
            "udp" => Media::Udp,
            "ipc" => Media::Ipc,
            "counter" => Media::Counter,
            _ => return None,
        };
        Some(Pattern::Of(media, keys))
    }

    fn covers(&self, channel: &Channel) -> bool {
        match self {
            Pattern::Any => true,
            Pattern::Of(media, wanted) => {
                *media == channel.media
                    && wanted
                        .iter()
                        .all(|(key, wanted)| channel.keys.get(key).is_some_and(|value| value_fits(wanted, value)))
            }
        }
    }
}

// ---- the policy

#[allow(dead_code)]
#[derive(Clone, Copy)]
enum Act {
    Publish,
    PublishExclusive,
    Subscribe,
    Spy,
    Destination,
    Counter,
    Terminate,
    Offer,
    Image,
    Receive,
    Send,
    Retransmit,
    List,
}

#[derive(Clone, Copy)]
enum Principals {
    Any,
    One(u32),
}

#[derive(Clone)]
struct Rule {
    #[allow(dead_code)]
    name: String,
    principals: Principals,
    acts: [bool; 13],
    channel: Pattern,
    low: i32,
    high: i32,
    allow: bool,
}

struct Request<'a> {
    principal: u32,
    act: Act,
    channel: &'a Channel,
    stream: i32,
}

#[derive(Clone, Copy)]
struct Verdict {
    allow: bool,
    #[allow(dead_code)]
    rule: Option<u32>,
    #[allow(dead_code)]
    epoch: u64,
}

#[derive(Clone)]
struct Policy {
    rules: Vec<Rule>,
    default: bool,
}

impl Principals {
    fn include(self, principal: u32) -> bool {
        match self {
            Principals::Any => true,
            Principals::One(one) => one == principal,
        }
    }
}

impl Rule {
    fn matches(&self, request: &Request) -> bool {
        self.principals.include(request.principal)
            && self.acts[request.act as usize]
            && self.channel.covers(request.channel)
            && self.low <= request.stream
            && request.stream <= self.high
    }

    /// A rule that allows everything.
    fn last() -> Rule {
        Rule {
            name: "a rule".to_string(),
            principals: Principals::Any,
            acts: [true; 13],
            channel: Pattern::Any,
            low: i32::MIN,
            high: i32::MAX,
            allow: true,
        }
    }

    /// A rule on a principal, an act or streams that there are not, by its number.
    fn other(number: u64) -> Option<Rule> {
        let mut rule = Rule::last();
        rule.channel = Pattern::parse("aeron:ipc?mtu=1408")?;
        rule.allow = false;
        match number % 3 {
            0 => rule.principals = Principals::One(9),
            1 => {
                rule.acts = [false; 13];
                rule.acts[Act::Terminate as usize] = true;
            }
            _ => rule.low = 1_000,
        }
        Some(rule)
    }
}

impl Policy {
    fn verdict(&self, epoch: u64, request: &Request) -> Verdict {
        match self.rules.iter().position(|rule| rule.matches(request)) {
            Some(index) => Verdict { allow: self.rules[index].allow, rule: Some(index as u32 + 1), epoch },
            None => Verdict { allow: self.default, rule: None, epoch },
        }
    }

    /// So many rules, of which the last alone speaks of what the clients do, and allows it.
    fn new(rules: u64) -> Option<Policy> {
        let mut list: Vec<_> = (1..rules).map(Rule::other).collect::<Option<_>>()?;
        list.push(Rule::last());
        Some(Policy { rules: list, default: false })
    }
}

// ---- commands

enum Body<'a> {
    AddPublication { stream: i32, channel: &'a str, exclusive: bool },
    RemovePublication { registration: u64 },
    AddSubscription { stream: i32, channel: &'a str },
    RemoveSubscription { registration: u64 },
    Keepalive,
    AddCounter { type_id: i32, key: &'a [u8], label: &'a str },
}

struct Command<'a> {
    client: u64,
    correlation: u64,
    body: Body<'a>,
}

/// Reads fields from the front of the bytes.
struct Fields<'a>(&'a [u8]);

impl<'a> Fields<'a> {
    fn bytes(&mut self, size: usize) -> Option<&'a [u8]> {
        let (front, rest) = self.0.split_at_checked(size)?;
        self.0 = rest;
        Some(front)
    }

    fn u32(&mut self) -> Option<u32> {
        Some(u32::from_le_bytes(self.bytes(4)?.try_into().unwrap()))
    }

    fn u64(&mut self) -> Option<u64> {
        Some(u64::from_le_bytes(self.bytes(8)?.try_into().unwrap()))
    }

    fn i32(&mut self) -> Option<i32> {
        Some(self.u32()?.cast_signed())
    }

    /// Bytes behind their length.
    fn sized(&mut self, greatest: u32) -> Option<&'a [u8]> {
        let size = self.u32().filter(|size| *size <= greatest)?;
        self.bytes(size as usize)
    }

    fn text(&mut self, greatest: u32) -> Option<&'a str> {
        let bytes = self.sized(greatest)?;
        if bytes.is_ascii() { str::from_utf8(bytes).ok() } else { None }
    }
}

impl Body<'_> {
    fn read<'a>(kind: u32, fields: &mut Fields<'a>) -> Option<Body<'a>> {
        let longest = 0x7FFF_FFFF;
        Some(match kind {
            1 | 3 => {
                Body::AddPublication { stream: fields.i32()?, channel: fields.text(longest)?, exclusive: kind == 3 }
            }
            2 => Body::RemovePublication { registration: fields.u64()? },
            4 => {
                fields.u64()?;
                Body::AddSubscription { stream: fields.i32()?, channel: fields.text(longest)? }
            }
            5 => Body::RemoveSubscription { registration: fields.u64()? },
            6 => Body::Keepalive,
            9 => Body::AddCounter { type_id: fields.i32()?, key: fields.sized(112)?, label: fields.text(380)? },
            _ => return None,
        })
    }
}

impl Command<'_> {
    fn read(bytes: &[u8]) -> Option<Command<'_>> {
        let mut fields = Fields(bytes);
        let kind = fields.u32()?;
        let (client, correlation) = (fields.u64()?, fields.u64()?);
        let body = Body::read(kind, &mut fields)?;
        if fields.0.is_empty() { Some(Command { client, correlation, body }) } else { None }
    }

    fn write(&self) -> Vec<u8> {
        let kind: u32 = match self.body {
            Body::AddPublication { exclusive, .. } => 1 + 2 * u32::from(exclusive),
            Body::RemovePublication { .. } => 2,
            Body::AddSubscription { .. } => 4,
            Body::RemoveSubscription { .. } => 5,
            Body::Keepalive => 6,
            Body::AddCounter { .. } => 9,
        };
        let mut out = Vec::new();
        out.extend(kind.to_le_bytes());
        out.extend(self.client.to_le_bytes());
        out.extend(self.correlation.to_le_bytes());
        let mut put = |numbers: &[u8], texts: &[&[u8]]| {
            out.extend(numbers);
            for text in texts {
                out.extend((text.len() as u32).to_le_bytes());
                out.extend(*text);
            }
        };
        match self.body {
            Body::AddPublication { stream, channel, .. } => put(&stream.to_le_bytes(), &[channel.as_bytes()]),
            Body::AddSubscription { stream, channel } => {
                put(&0_u64.to_le_bytes(), &[]);
                put(&stream.to_le_bytes(), &[channel.as_bytes()]);
            }
            Body::RemovePublication { registration } | Body::RemoveSubscription { registration } => {
                put(&registration.to_le_bytes(), &[]);
            }
            Body::Keepalive => {}
            Body::AddCounter { type_id, key, label } => put(&type_id.to_le_bytes(), &[key, label.as_bytes()]),
        }
        out
    }
}

// ---- the registry

#[derive(Clone, Copy)]
struct Client {
    number: u64,
    principal: u32,
    heard: u64,
}

#[derive(Clone, Copy, PartialEq)]
struct Measures {
    mtu: u32,
    term_length: u32,
    linger: u64,
}

struct Publication {
    source: u64,
    channel: Channel,
    stream: i32,
    session: i32,
    exclusive: bool,
    place: u64,
    measures: Measures,
    lingering_since: Option<u64>,
    /// The subscriptions that read the log.
    readers: Vec<u64>,
}

struct Registration {
    number: u64,
    client: u64,
    #[allow(dead_code)]
    channel: Channel,
    source: u64,
}

struct Subscription {
    number: u64,
    client: u64,
    channel: Channel,
    stream: i32,
}

#[allow(dead_code)]
struct Counter {
    number: u64,
    client: u64,
    type_id: i32,
    key: Vec<u8>,
    label: String,
    value: i64,
}

enum Event {
    Attach { now: u64, principal: u32 },
    Command { now: u64, client: u64, bytes: Vec<u8> },
    Reload { now: u64, policy: Policy },
}

struct End {
    source: u64,
    position: u64,
}

/// What the logs tell at an event.
struct Inputs {
    ends: Vec<End>,
}

#[allow(dead_code)]
#[derive(Clone, Copy)]
enum Refusal {
    MalformedCommand,
    WrongClient,
    InvalidChannel,
    UnknownSubscription,
    UnknownPublication,
    Denied(Verdict),
    Conflict,
    Full,
    NoRoom,
}

#[allow(dead_code)]
#[derive(Clone, Copy)]
enum Reply {
    Error { correlation: u64, refusal: Refusal },
    OperationSuccess { correlation: u64 },
    PublicationReady { correlation: u64, registration: u64, session: i32, stream: i32, exclusive: bool },
    SubscriptionReady { correlation: u64, registration: u64 },
    AvailableImage { source: u64, subscription: u64, session: i32, stream: i32, position: u64 },
    UnavailableImage { source: u64, subscription: u64, stream: i32 },
    CounterReady { correlation: u64, registration: u64 },
}

#[allow(dead_code)]
struct Message {
    client: u64,
    reply: Reply,
}

#[allow(dead_code)]
#[derive(Clone, Copy)]
struct Decision {
    principal: u32,
    act: Act,
    subject: u64,
    stream: i32,
    verdict: Verdict,
}

#[allow(dead_code)]
struct Pair {
    source: u64,
    subscription: u64,
}

#[allow(dead_code)]
struct LogPlace {
    source: u64,
    place: u64,
}

enum Response {
    Nothing,
    Attached(u64),
    Full,
    PolicyInForce(u64),
    PolicyFull,
}

struct Outcome {
    response: Response,
    replies: Vec<Message>,
    decisions: Vec<Decision>,
    opens: Option<LogPlace>,
    gone: Vec<Pair>,
    come: Vec<Pair>,
}

impl Outcome {
    fn answered(response: Response) -> Outcome {
        Outcome {
            response,
            replies: Vec::new(),
            decisions: Vec::new(),
            opens: None,
            gone: Vec::new(),
            come: Vec::new(),
        }
    }

    fn replied(client: u64, reply: Reply) -> Outcome {
        Outcome { replies: vec![Message { client, reply }], ..Outcome::answered(Response::Nothing) }
    }

    fn replied_on(decision: Decision, client: u64, reply: Reply) -> Outcome {
        Outcome { decisions: vec![decision], ..Outcome::replied(client, reply) }
    }
}

/// What becomes of a publication that is asked for.
enum Adding {
    Join { source: u64, session: i32 },
    Make { session: i32 },
}

struct Registry {
    defaults: Measures,
    arena_pages: u64,
    next_session: i32,
    policy: Policy,
    epoch: u64,
    moment: u64,
    last_client: u64,
    last_number: u64,
    /// How many pairs there are.
    pairs: usize,
    clients: Vec<Client>,
    publications: Vec<Publication>,
    registrations: Vec<Registration>,
    subscriptions: Vec<Subscription>,
    counters: Vec<Counter>,
}

fn fits(publication: &Publication, subscription: &Subscription) -> bool {
    publication.channel.media == Media::Ipc
        && subscription.channel.media == Media::Ipc
        && publication.stream == subscription.stream
        && subscription.channel.session_id().is_none_or(|stated| stated == publication.session)
}

fn position_at(ends: &[End], source: u64) -> u64 {
    ends.iter().find(|end| end.source == source).map_or(0, |end| end.position)
}

fn available(publication: &Publication, subscription: u64, inputs: &Inputs) -> Reply {
    Reply::AvailableImage {
        source: publication.source,
        subscription,
        session: publication.session,
        stream: publication.stream,
        position: position_at(&inputs.ends, publication.source),
    }
}

impl Measures {
    fn with_those_of(self, channel: &Channel) -> Measures {
        Measures {
            mtu: channel.get("mtu").and_then(mtu_of).unwrap_or(self.mtu),
            term_length: channel.get("term-length").and_then(term_length_of).unwrap_or(self.term_length),
            linger: channel.get("linger").and_then(linger_of).unwrap_or(self.linger),
        }
    }

    fn pages(self) -> u64 {
        3 * u64::from(self.term_length) / 4_096
    }
}

impl Publication {
    fn is_joinable(&self, channel: &Channel, stream: i32) -> bool {
        !self.exclusive
            && !matches!(self.channel.place(), Some(Place::Manual))
            && self.lingering_since.is_none()
            && self.stream == stream
            && is_same_place(&self.channel, channel)
    }

    /// Whether the log holds one of so many pages from `place` on.
    fn holds_some(&self, pages: u64, place: u64) -> bool {
        place < self.place + self.measures.pages() && self.place < place + pages
    }
}

impl Registry {
    fn new(policy: Policy) -> Registry {
        Registry {
            defaults: Measures { mtu: 1_408, term_length: 65_536, linger: 5_000_000_000 },
            arena_pages: 16_384,
            next_session: 1,
            policy,
            epoch: 1,
            moment: 0,
            last_client: 0,
            last_number: 0,
            pairs: 0,
            clients: Vec::new(),
            publications: Vec::new(),
            registrations: Vec::new(),
            subscriptions: Vec::new(),
            counters: Vec::new(),
        }
    }

    fn decide(&self, principal: u32, act: Act, subject: u64, channel: &Channel, stream: i32) -> Decision {
        let request = Request { principal, act, channel, stream };
        Decision { principal, act, subject, stream, verdict: self.policy.verdict(self.epoch, &request) }
    }

    /// What the policy says to the images of a subscription.
    fn image(&self, subscription: &Subscription) -> Option<Decision> {
        let client = self.clients.iter().find(|client| client.number == subscription.client)?;
        let Subscription { number, channel, stream, .. } = subscription;
        Some(self.decide(client.principal, Act::Image, *number, channel, *stream))
    }

    /// What the policy says to the image, where the subscription reads the log.
    fn reading(&self, publication: &Publication, subscription: &Subscription) -> Option<Decision> {
        if !fits(publication, subscription) {
            return None;
        }
        self.image(subscription).filter(|decision| decision.verdict.allow)
    }

    fn attach(&mut self, principal: u32) -> Outcome {
        if self.clients.len() >= 64 {
            return Outcome::answered(Response::Full);
        }
        self.last_client += 1;
        self.clients.push(Client { number: self.last_client, principal, heard: self.moment });
        Outcome::answered(Response::Attached(self.last_client))
    }

    fn is_subscribable(&self) -> bool {
        self.last_number < u64::MAX && self.subscriptions.len() < 512
    }

    fn add_subscription(
        &mut self,
        client: Client,
        stream: i32,
        text: &str,
        inputs: &Inputs,
        correlation: u64,
    ) -> Result<Outcome, (Option<Decision>, Refusal)> {
        let channel = Channel::parse(text).filter(Channel::is_subscribable).ok_or((None, Refusal::InvalidChannel))?;
        let act = if channel.spy { Act::Spy } else { Act::Subscribe };
        let decision = self.decide(client.principal, act, 0, &channel, stream);
        if !decision.verdict.allow {
            return Err((Some(decision), Refusal::Denied(decision.verdict)));
        }
        if !self.is_subscribable() {
            return Err((Some(decision), Refusal::Full));
        }
        let number = self.last_number + 1;
        let subscription = Subscription { number, client: client.number, channel, stream };
        let mut read = Vec::new();
        let reply = Reply::SubscriptionReady { correlation, registration: number };
        let mut outcome = Outcome::replied_on(decision, client.number, reply);
        for (at, publication) in self.publications.iter().enumerate() {
            if let Some(decision) = self.reading(publication, &subscription) {
                read.push(at);
                outcome.decisions.push(decision);
            }
        }
        if self.pairs + read.len() > 4_096 {
            return Err((Some(decision), Refusal::Full));
        }
        for at in read {
            let publication = &mut self.publications[at];
            publication.readers.push(number);
            outcome.come.push(Pair { source: publication.source, subscription: number });
            let reply = available(publication, number, inputs);
            outcome.replies.push(Message { client: client.number, reply });
        }
        self.pairs += outcome.come.len();
        self.subscriptions.push(subscription);
        self.last_number = number;
        Ok(outcome)
    }

    fn remove_subscription(
        &mut self,
        client: Client,
        number: u64,
        correlation: u64,
    ) -> Result<Outcome, (Option<Decision>, Refusal)> {
        let at = self.subscriptions.iter().position(|row| row.client == client.number && row.number == number);
        self.subscriptions.remove(at.ok_or((None, Refusal::UnknownSubscription))?);
        let mut outcome = Outcome::replied(client.number, Reply::OperationSuccess { correlation });
        for publication in &mut self.publications {
            if let Some(at) = publication.readers.iter().position(|reader| *reader == number) {
                publication.readers.remove(at);
                outcome.gone.push(Pair { source: publication.source, subscription: number });
            }
        }
        self.pairs -= outcome.gone.len();
        Ok(outcome)
    }

    fn is_taken(&self, session: i32) -> bool {
        self.publications.iter().any(|publication| publication.session == session)
    }

    fn free_session(&self) -> i32 {
        let mut session = self.next_session;
        while self.is_taken(session) {
            session = session.wrapping_add(1);
        }
        session
    }

    fn making(&self, channel: &Channel, stream: i32) -> Result<Adding, Refusal> {
        let stated = channel.session_id();
        let is_used = stated.is_some_and(|stated| {
            self.publications.iter().any(|publication| {
                publication.channel.media == channel.media
                    && publication.stream == stream
                    && publication.session == stated
            })
        });
        if is_used {
            return Err(Refusal::Conflict);
        }
        if self.registrations.len() >= 1_024 || self.publications.len() >= 256 {
            return Err(Refusal::Full);
        }
        Ok(Adding::Make { session: stated.unwrap_or_else(|| self.free_session()) })
    }

    fn adding(&self, channel: &Channel, stream: i32, exclusive: bool) -> Result<Adding, Refusal> {
        if exclusive {
            return self.making(channel, stream);
        }
        let Some(publication) = self.publications.iter().find(|row| row.is_joinable(channel, stream)) else {
            return self.making(channel, stream);
        };
        if self.defaults.with_those_of(channel) != publication.measures
            || channel.session_id().is_some_and(|stated| stated != publication.session)
        {
            return Err(Refusal::Conflict);
        }
        if self.registrations.len() >= 1_024 {
            return Err(Refusal::Full);
        }
        Ok(Adding::Join { source: publication.source, session: publication.session })
    }

    fn is_free(&self, pages: u64, place: u64) -> bool {
        place + pages <= self.arena_pages && !self.publications.iter().any(|log| log.holds_some(pages, place))
    }

    /// The least place for so many pages: place 0, or where a log ends.
    fn free_place(&self, pages: u64) -> Option<u64> {
        if self.is_free(pages, 0) {
            return Some(0);
        }
        let mut least = None;
        for log in &self.publications {
            let end = log.place + log.measures.pages();
            if least.is_none_or(|least| end < least) && self.is_free(pages, end) {
                least = Some(end);
            }
        }
        least
    }

    /// Makes a log, and tells its readers.
    fn make(
        &mut self,
        mut publication: Publication,
        outcome: &mut Outcome,
        inputs: &Inputs,
    ) -> Result<(), Refusal> {
        for subscription in &self.subscriptions {
            if let Some(decision) = self.reading(&publication, subscription) {
                publication.readers.push(subscription.number);
                outcome.decisions.push(decision);
                outcome.come.push(Pair { source: publication.source, subscription: subscription.number });
                let reply = available(&publication, subscription.number, inputs);
                outcome.replies.push(Message { client: subscription.client, reply });
            }
        }
        if self.pairs + outcome.come.len() > 4_096 {
            return Err(Refusal::Full);
        }
        publication.place = self.free_place(publication.measures.pages()).ok_or(Refusal::NoRoom)?;
        outcome.opens = Some(LogPlace { source: publication.source, place: publication.place });
        self.pairs += outcome.come.len();
        if publication.channel.session_id().is_none() {
            self.next_session = publication.session.wrapping_add(1);
        }
        self.publications.push(publication);
        Ok(())
    }

    fn add_publication(
        &mut self,
        client: Client,
        (stream, text, exclusive): (i32, &str, bool),
        inputs: &Inputs,
        correlation: u64,
    ) -> Result<Outcome, (Option<Decision>, Refusal)> {
        let channel = Channel::parse(text).filter(Channel::is_publishable).ok_or((None, Refusal::InvalidChannel))?;
        let act = if exclusive { Act::PublishExclusive } else { Act::Publish };
        let decision = self.decide(client.principal, act, 0, &channel, stream);
        if !decision.verdict.allow {
            return Err((Some(decision), Refusal::Denied(decision.verdict)));
        }
        let adding = self.adding(&channel, stream, exclusive).map_err(|refusal| (Some(decision), refusal))?;
        if self.last_number == u64::MAX {
            return Err((Some(decision), Refusal::Full));
        }
        let number = self.last_number + 1;
        let (Adding::Join { session, .. } | Adding::Make { session }) = adding;
        let reply = Reply::PublicationReady { correlation, registration: number, session, stream, exclusive };
        let mut outcome = Outcome::replied_on(decision, client.number, reply);
        let source = match adding {
            Adding::Join { source, .. } => source,
            Adding::Make { session } => {
                let measures = self.defaults.with_those_of(&channel);
                let publication = Publication {
                    source: number,
                    channel: channel.clone(),
                    stream,
                    session,
                    exclusive,
                    place: 0,
                    measures,
                    lingering_since: None,
                    readers: Vec::new(),
                };
                self.make(publication, &mut outcome, inputs).map_err(|refusal| (Some(decision), refusal))?;
                number
            }
        };
        self.registrations.push(Registration { number, client: client.number, channel, source });
        self.last_number = number;
        Ok(outcome)
    }

    fn remove_publication(
        &mut self,
        client: Client,
        number: u64,
        correlation: u64,
    ) -> Result<Outcome, (Option<Decision>, Refusal)> {
        let at = self.registrations.iter().position(|row| row.client == client.number && row.number == number);
        let Registration { source, .. } = self.registrations.remove(at.ok_or((None, Refusal::UnknownPublication))?);
        if !self.registrations.iter().any(|row| row.source == source) {
            if let Some(publication) = self.publications.iter_mut().find(|row| row.source == source) {
                publication.lingering_since = publication.lingering_since.or(Some(self.moment));
            }
        }
        Ok(Outcome::replied(client.number, Reply::OperationSuccess { correlation }))
    }

    fn add_counter(
        &mut self,
        client: Client,
        (type_id, key, label): (i32, &[u8], &str),
        correlation: u64,
    ) -> Result<Outcome, (Option<Decision>, Refusal)> {
        let decision = self.decide(client.principal, Act::Counter, 0, &Channel::counter(), type_id);
        if !decision.verdict.allow {
            return Err((Some(decision), Refusal::Denied(decision.verdict)));
        }
        if self.counters.len() >= 1_024 || self.last_number == u64::MAX {
            return Err((Some(decision), Refusal::Full));
        }
        self.last_number += 1;
        let number = self.last_number;
        let (key, label) = (key.to_vec(), label.to_string());
        self.counters.push(Counter { number, client: client.number, type_id, key, label, value: 0 });
        Ok(Outcome::replied_on(decision, client.number, Reply::CounterReady { correlation, registration: number }))
    }

    fn requested(
        &mut self,
        client: Client,
        command: &Command,
        inputs: &Inputs,
    ) -> Result<Outcome, (Option<Decision>, Refusal)> {
        let correlation = command.correlation;
        match command.body {
            Body::AddPublication { stream, channel, exclusive } => {
                self.add_publication(client, (stream, channel, exclusive), inputs, correlation)
            }
            Body::RemovePublication { registration } => self.remove_publication(client, registration, correlation),
            Body::AddSubscription { stream, channel } => {
                self.add_subscription(client, stream, channel, inputs, correlation)
            }
            Body::RemoveSubscription { registration } => self.remove_subscription(client, registration, correlation),
            Body::Keepalive => Ok(Outcome::answered(Response::Nothing)),
            Body::AddCounter { type_id, key, label } => self.add_counter(client, (type_id, key, label), correlation),
        }
    }

    fn asked(&mut self, handle: u64, command: &Command, inputs: &Inputs) -> Result<Outcome, (Option<Decision>, Refusal)> {
        if command.client != handle {
            return Err((None, Refusal::WrongClient));
        }
        let client = self.clients.iter_mut().find(|client| client.number == handle);
        let client = client.ok_or((None, Refusal::WrongClient))?;
        client.heard = client.heard.max(self.moment);
        let client = *client;
        self.requested(client, command, inputs)
    }

    fn command(&mut self, handle: u64, bytes: &[u8], inputs: &Inputs) -> Outcome {
        let Some(command) = Command::read(bytes) else {
            let reply = Reply::Error { correlation: 0, refusal: Refusal::MalformedCommand };
            return Outcome::replied(handle, reply);
        };
        match self.asked(handle, &command, inputs) {
            Ok(outcome) => outcome,
            Err((decision, refusal)) => {
                let reply = Reply::Error { correlation: command.correlation, refusal };
                let decisions = decision.into_iter().collect();
                Outcome { decisions, ..Outcome::replied(handle, reply) }
            }
        }
    }

    /// The readers of each log, by the policy in force.
    fn readers(&self) -> Vec<Vec<u64>> {
        let readers_of = |publication| {
            let read = self.subscriptions.iter().filter(|row| self.reading(publication, row).is_some());
            read.map(|row| row.number).collect()
        };
        self.publications.iter().map(readers_of).collect()
    }

    /// The pairs of these readers that the others lack.
    fn lacking(&self, readers: &[Vec<u64>], others: &[Vec<u64>]) -> Vec<Pair> {
        let mut lacked = Vec::new();
        for (publication, (readers, others)) in self.publications.iter().zip(readers.iter().zip(others)) {
            let source = publication.source;
            let lacking = readers.iter().filter(|number| !others.contains(number));
            lacked.extend(lacking.map(|number| Pair { source, subscription: *number }));
        }
        lacked
    }

    /// Tells of the images that went, or of those that came, and what is decided on them.
    fn tell(&self, outcome: &mut Outcome, pairs: &[Pair], inputs: Option<&Inputs>) {
        for Pair { source, subscription } in pairs {
            let publication = self.publications.iter().find(|row| row.source == *source);
            let row = self.subscriptions.iter().find(|row| row.number == *subscription);
            let (Some(publication), Some(row)) = (publication, row) else {
                continue;
            };
            let reply = match inputs {
                Some(inputs) => available(publication, row.number, inputs),
                None => Reply::UnavailableImage { source: *source, subscription: row.number, stream: row.stream },
            };
            outcome.replies.push(Message { client: row.client, reply });
            outcome.decisions.extend(self.image(row));
        }
    }

    fn reload(&mut self, policy: Policy, inputs: &Inputs) -> Outcome {
        if self.epoch == u64::MAX {
            return Outcome::answered(Response::PolicyFull);
        }
        let before = mem::replace(&mut self.policy, policy);
        self.epoch += 1;
        let readers = self.readers();
        let pairs = readers.iter().map(Vec::len).sum();
        if pairs > 4_096 {
            self.policy = before;
            self.epoch -= 1;
            return Outcome::answered(Response::PolicyFull);
        }
        let old = self.publications.iter_mut().map(|row| mem::take(&mut row.readers)).collect::<Vec<_>>();
        let mut outcome = Outcome::answered(Response::PolicyInForce(self.epoch));
        let (gone, come) = (self.lacking(&old, &readers), self.lacking(&readers, &old));
        self.tell(&mut outcome, &gone, None);
        self.tell(&mut outcome, &come, Some(inputs));
        (outcome.gone, outcome.come) = (gone, come);
        for (publication, readers) in self.publications.iter_mut().zip(readers) {
            publication.readers = readers;
        }
        self.pairs = pairs;
        outcome
    }

    fn step(&mut self, event: &Event, inputs: &Inputs) -> Outcome {
        let (Event::Attach { now, .. } | Event::Command { now, .. } | Event::Reload { now, .. }) = event;
        self.moment = self.moment.max(*now);
        match event {
            Event::Attach { principal, .. } => self.attach(*principal),
            Event::Command { client, bytes, .. } => self.command(*client, bytes, inputs),
            Event::Reload { policy, .. } => self.reload(policy.clone(), inputs),
        }
    }
}

// ---- the events that are timed

fn with(sum: u64, more: u64) -> u64 {
    sum.wrapping_mul(31).wrapping_add(more)
}

/// What a reply says, as one number.
fn word_of(reply: Reply) -> u64 {
    match reply {
        Reply::OperationSuccess { correlation } => correlation,
        Reply::PublicationReady { registration, .. } => registration,
        Reply::SubscriptionReady { registration, .. } => registration,
        Reply::CounterReady { registration, .. } => registration,
        Reply::AvailableImage { source, subscription, .. } => source.wrapping_mul(3).wrapping_add(subscription),
        _ => 1,
    }
}

/// The sum with what an event tells: the replies, the log that it opens, and how many decisions were made and pairs went
/// and came.
fn with_outcome(sum: u64, outcome: &Outcome) -> u64 {
    let answer = match outcome.response {
        Response::Attached(number) | Response::PolicyInForce(number) => number,
        _ => 0,
    };
    let mut sum = with(sum, answer);
    for message in &outcome.replies {
        sum = with(sum, word_of(message.reply));
    }
    sum = with(sum, outcome.opens.as_ref().map_or(1, |log| log.place));
    let counts = [outcome.replies.len(), outcome.decisions.len(), outcome.gone.len(), outcome.come.len()];
    counts.into_iter().fold(sum, |sum, count| with(sum, count as u64))
}

fn command(client: u64, body: Body) -> Event {
    Event::Command { now: 0, client, bytes: Command { client, correlation: 7, body }.write() }
}

fn add_subscription(client: u64, stream: i32) -> Event {
    command(client, Body::AddSubscription { stream, channel: CHANNEL })
}

fn add_publication(client: u64, stream: i32, exclusive: bool) -> Event {
    command(client, Body::AddPublication { stream, channel: CHANNEL, exclusive })
}

/// The stream of a row, by its number.
fn stream_of(number: u64) -> i32 {
    (number % STREAMS) as i32 + 1
}

/// The processor time that the program took so far, in nanoseconds, so that other work of the machine counts little.
fn moment() -> u64 {
    let mut time = Timespec { seconds: 0, nanoseconds: 0 };
    unsafe { clock_gettime(PROCESSOR_TIME, &mut time) };
    (time.seconds * 1_000_000_000 + time.nanoseconds) as u64
}

/// A registry, with what was told so far.
struct Driver {
    registry: Registry,
    /// The client whose events are timed.
    client: u64,
    /// The stream that it publishes and subscribes to.
    stream: i32,
    /// How many numbers were drawn.
    drawn: u64,
    sum: u64,
}

impl Driver {
    fn new(client: u64, stream: i32) -> Option<Driver> {
        Some(Driver { registry: Registry::new(Policy::new(10)?), client, stream, drawn: 0, sum: 0 })
    }

    fn take(&mut self, event: &Event) {
        let outcome = self.registry.step(event, &Inputs { ends: Vec::new() });
        self.sum = with_outcome(self.sum, &outcome);
    }

    fn draw(&mut self, event: &Event) {
        self.drawn += 1;
        self.take(event);
    }

    /// One client, and one publication.
    fn nearly_empty() -> Option<Driver> {
        let mut driver = Driver::new(1, stream_of(0))?;
        driver.take(&Event::Attach { now: 0, principal: 1 });
        driver.draw(&add_publication(1, stream_of(0), false));
        Some(driver)
    }

    /// 64 clients, to whom the rows are dealt in turns: 1,000 counters, 511 subscriptions and 255 publications, which are
    /// 3,953 pairs. The last publication of each stream can be joined.
    fn nearly_full() -> Option<Driver> {
        let mut driver = Driver::new(64, stream_of(254))?;
        for _ in 0..64 {
            driver.take(&Event::Attach { now: 0, principal: 1 });
        }
        for number in 0..1_000 {
            let body = Body::AddCounter { type_id: 1_001, key: &[0x61; 16], label: "what is counted" };
            driver.draw(&command(number % 64 + 1, body));
        }
        for number in 0..511 {
            driver.draw(&add_subscription(number % 64 + 1, stream_of(number)));
        }
        for number in 0..255 {
            let exclusive = number < 255 - STREAMS;
            driver.draw(&add_publication(number % 64 + 1, stream_of(number), exclusive));
        }
        if driver.registry.pairs == 3_953 { Some(driver) } else { None }
    }

    fn subscribing(&mut self, rounds: u64) -> Vec<Event> {
        let mut events = Vec::new();
        for _ in 0..rounds {
            self.drawn += 1;
            events.push(add_subscription(self.client, self.stream));
            events.push(command(self.client, Body::RemoveSubscription { registration: self.drawn }));
        }
        events
    }

    fn publishing(&mut self, rounds: u64) -> Vec<Event> {
        let mut events = Vec::new();
        for _ in 0..rounds {
            self.drawn += 1;
            events.push(add_publication(self.client, self.stream, false));
            events.push(command(self.client, Body::RemovePublication { registration: self.drawn }));
        }
        events
    }

    /// The least time of some turns, each with its own events.
    fn time(&mut self, rounds: u64, events: fn(&mut Driver, u64) -> Vec<Event>) -> u64 {
        let turns = (0..TURNS).map(|_| {
            let events = events(self, rounds);
            let start = moment();
            for event in &events {
                self.take(event);
            }
            moment() - start
        });
        turns.min().unwrap_or(0)
    }

    fn time_repeated(&mut self, rounds: u64, event: &Event) -> u64 {
        let turns = (0..TURNS).map(|_| {
            let start = moment();
            for _ in 0..rounds {
                self.take(event);
            }
            moment() - start
        });
        turns.min().unwrap_or(0)
    }
}

fn run(full: bool, rounds: &Each, times: &mut Each) -> Option<u64> {
    let mut driver = if full { Driver::nearly_full() } else { Driver::nearly_empty() }?;
    times.subscribe = driver.time(rounds.subscribe, Driver::subscribing);
    times.publish = driver.time(rounds.publish, Driver::publishing);
    times.keepalive = driver.time_repeated(rounds.keepalive, &command(driver.client, Body::Keepalive));
    // The first reload is not timed, since it finds fewer rules in force.
    let reload = Event::Reload { now: 0, policy: Policy::new(1_000)? };
    driver.take(&reload);
    times.reload = driver.time_repeated(rounds.reload, &reload);
    Some(driver.sum)
}

#[inline(never)]
fn plain_run(full: bool, rounds: &Each, times: &mut Each) -> u64 {
    run(full, rounds, times).unwrap_or(0)
}

fn proved_run(full: bool, rounds: &Each, times: &mut Each) -> u64 {
    unsafe { driver_core_run(full, rounds, times) }
}

impl Each {
    fn all(number: u64) -> Each {
        Each { subscribe: number, publish: number, keepalive: number, reload: number }
    }

    fn paired(self, other: Each, with: fn(u64, u64) -> u64) -> Each {
        Each {
            subscribe: with(self.subscribe, other.subscribe),
            publish: with(self.publish, other.publish),
            keepalive: with(self.keepalive, other.keepalive),
            reload: with(self.reload, other.reload),
        }
    }

    /// How long an event takes, in seconds, of those that took this time in so many rounds.
    fn per_event(self, rounds: Each) -> [f64; 4] {
        let pairs = [
            (self.subscribe, 2 * rounds.subscribe),
            (self.publish, 2 * rounds.publish),
            (self.keepalive, rounds.keepalive),
            (self.reload, rounds.reload),
        ];
        pairs.map(|(time, events)| time as f64 * 1e-9 / events as f64)
    }
}

/// As many rounds as take some 10 ms, where this few took this time: at least as few, and at most 2,000.
fn rounds_for(few: u64, time: u64) -> u64 {
    (10_000_000 * few / time.max(1)).clamp(few, 2_000)
}

/// Three digits of a number.
fn digits(number: f64) -> String {
    let places = (2.0 - number.log10().floor()).clamp(0.0, 9.0);
    format!("{number:.0$}", places as usize)
}

fn shown(seconds: f64) -> String {
    match seconds {
        _ if seconds < 1e-6 => format!("{} ns", digits(seconds * 1e9)),
        _ if seconds < 1e-3 => format!("{} us", digits(seconds * 1e6)),
        _ => format!("{} ms", digits(seconds * 1e3)),
    }
}

fn main() {
    for (which, full) in [("nearly empty", false), ("nearly full", true)] {
        let few = Each::all(2);
        let mut first = [few; 2];
        let sum = plain_run(full, &few, &mut first[0]);
        assert!(sum > 0);
        assert_eq!(proved_run(full, &few, &mut first[1]), sum);
        let rounds = first.map(|times| few.paired(times, rounds_for));
        let mut times = [Each::all(u64::MAX); 2];
        // In turns, so that both meet the same machine.
        for _ in 0..4 {
            for (i, run) in [plain_run, proved_run].into_iter().enumerate() {
                let mut these = Each::all(0);
                black_box(run(full, black_box(&rounds[i]), &mut these));
                times[i] = times[i].paired(these, u64::min);
            }
        }
        let [plain, proved] = [0, 1].map(|i| times[i].per_event(rounds[i]));
        let kinds = ["subscribe and unsubscribe", "publish and remove", "keepalive", "reload of 1,000 rules"];
        for (kind, (plain, proved)) in kinds.into_iter().zip(plain.into_iter().zip(proved)) {
            let ratio = digits(plain / proved);
            println!("{which}, {kind}: plain {}, driver_core {}, ratio {ratio}", shown(plain), shown(proved));
        }
    }
}
