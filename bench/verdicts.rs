//! Asks policies for verdicts, by `policy_core` and `compiled_policy` and by plain Rust, and prints how the two compare.
//!
//! The plain program here is the same, as one would write it in Rust: the rules one behind the other, or by chains of the
//! rules of an act over a medium, one chain for each group of principals and streams.

use std::collections::BTreeMap;
use std::hint::black_box;

/// A number for each way to a verdict.
#[repr(C)]
#[derive(Clone, Copy)]
struct Each {
    scan: u64,
    compiled: u64,
}

unsafe extern "C" {
    fn compiled_policy_run(rules: u64, ranges: bool, rounds: &Each, times: &mut Each) -> u64;
    fn clock_gettime(clock: i32, time: &mut Timespec) -> i32;
    fn malloc(size: usize) -> *mut u8;
    fn realloc(start: *mut u8, size: usize) -> *mut u8;
    fn free(start: *mut u8);
}

/// A time of a clock.
#[repr(C)]
struct Timespec {
    seconds: i64,
    nanoseconds: i64,
}

/// What the library is told of memory: whether there is some, and where.
#[repr(C)]
struct Tried {
    ok: bool,
    start: *mut u8,
}

fn tried(start: *mut u8) -> Tried {
    static NOTHING: u8 = 0;
    if start.is_null() {
        Tried { ok: false, start: (&raw const NOTHING).cast_mut() }
    } else {
        Tried { ok: true, start }
    }
}

/// The heap of the library, which leaves it to the program that it is linked with.
#[unsafe(no_mangle)]
extern "C" fn rattle_alloc(size: usize, align: usize) -> Tried {
    tried(unsafe { malloc(if size == 0 { align } else { size }) })
}

#[unsafe(no_mangle)]
extern "C" fn rattle_realloc(start: *mut u8, _kept: usize, size: usize, align: usize) -> Tried {
    tried(unsafe { realloc(start, if size == 0 { align } else { size }) })
}

#[unsafe(no_mangle)]
extern "C" fn rattle_dealloc(start: *mut u8) {
    unsafe { free(start) }
}

/// The clock of the processor time that a program takes.
const PROCESSOR_TIME: i32 = 2;

fn moment() -> u64 {
    let mut time = Timespec { seconds: 0, nanoseconds: 0 };
    unsafe { clock_gettime(PROCESSOR_TIME, &mut time) };
    time.seconds as u64 * 1_000_000_000 + time.nanoseconds as u64
}

// ---- channels

#[allow(dead_code)]
#[derive(Clone, Copy, PartialEq)]
enum Media {
    Udp,
    Ipc,
    Counter,
}

const EVERY_MEDIUM: [Media; 3] = [Media::Udp, Media::Ipc, Media::Counter];

type Keys = BTreeMap<String, String>;

struct Channel {
    media: Media,
    keys: Keys,
}

enum Pattern {
    Any,
    Of(Media, Keys),
}

fn keys_of(pairs: &[(&str, &str)]) -> Keys {
    pairs.iter().map(|(key, value)| (key.to_string(), value.to_string())).collect()
}

fn value_fits(wanted: &str, value: &str) -> bool {
    wanted == value || wanted.strip_suffix('*').is_some_and(|front| value.starts_with(front))
}

impl Pattern {
    fn covers(&self, channel: &Channel) -> bool {
        match self {
            Pattern::Any => true,
            Pattern::Of(media, wanted) => {
                *media == channel.media
                    && wanted
                        .iter()
                        .all(|(key, wanted)| channel.keys.get(key).is_some_and(|value| value_fits(wanted, value)))
            }
        }
    }

    fn is_over(&self, other: Media) -> bool {
        match self {
            Pattern::Any => true,
            Pattern::Of(media, _) => *media == other,
        }
    }
}

// ---- the policy

/// How many acts there are.
const ACTS: usize = 13;

const TERMINATE: usize = 6;

const OFFER: usize = 7;

struct Rule {
    #[allow(dead_code)]
    name: String,
    principal: Option<u32>,
    acts: [bool; ACTS],
    channel: Pattern,
    low: i32,
    high: i32,
    allow: bool,
}

struct Request<'a> {
    principal: u32,
    act: usize,
    channel: &'a Channel,
    stream: i32,
}

#[derive(Clone, Copy)]
struct Verdict {
    allow: bool,
    rule: Option<u32>,
    epoch: u64,
}

impl Rule {
    /// A rule that allows everything.
    fn last() -> Rule {
        Rule {
            name: "a rule".to_string(),
            principal: None,
            acts: [true; ACTS],
            channel: Pattern::Any,
            low: i32::MIN,
            high: i32::MAX,
            allow: true,
        }
    }

    /// A rule on a principal, an act or streams that nobody asks for, by its number.
    fn other(number: u64, ranges: bool) -> Rule {
        let mut rule = Rule::last();
        rule.channel = Pattern::Of(Media::Ipc, keys_of(&[("mtu", "1408")]));
        rule.allow = false;
        match number % 3 {
            0 => rule.principal = Some(9),
            1 => {
                rule.acts = [false; ACTS];
                rule.acts[TERMINATE] = true;
            }
            _ => {
                rule.low = 1_000;
                if !ranges {
                    rule.high = 1_000;
                }
            }
        }
        rule
    }

    fn matches(&self, request: &Request) -> bool {
        self.principal.is_none_or(|principal| principal == request.principal)
            && self.acts[request.act]
            && self.low <= request.stream
            && request.stream <= self.high
            && self.channel.covers(request.channel)
    }

    fn group(&self) -> usize {
        group_of(self.principal, if self.low == self.high { Some(self.low) } else { None })
    }
}

struct Policy {
    rules: Vec<Rule>,
    default_allows: bool,
}

impl Policy {
    fn new(rules: u64, ranges: bool) -> Policy {
        let mut list: Vec<Rule> = (1..rules).map(|number| Rule::other(number, ranges)).collect();
        list.push(Rule::last());
        Policy { rules: list, default_allows: false }
    }

    fn by(&self, epoch: u64, decider: Option<usize>) -> Verdict {
        match decider {
            Some(index) => Verdict { allow: self.rules[index].allow, rule: Some(index as u32 + 1), epoch },
            None => Verdict { allow: self.default_allows, rule: None, epoch },
        }
    }

    fn verdict(&self, epoch: u64, request: &Request) -> Verdict {
        self.by(epoch, self.rules.iter().position(|rule| rule.matches(request)))
    }
}

// ---- the policy made ready

/// How many groups there are.
const GROUPS: usize = 3_073;

fn group_of(principal: Option<u32>, stream: Option<i32>) -> usize {
    let stream = stream.map(|stream| stream.unsigned_abs() as usize);
    match (principal, stream) {
        (None, None) => 0,
        (Some(principal), None) => 1 + principal as usize % 1024,
        (None, Some(stream)) => 1025 + stream % 1024,
        (Some(principal), Some(stream)) => 2049 + (31 * principal as usize + stream) % 1024,
    }
}

/// For each group the first rule, and for each rule the next of its group.
struct Chain {
    first: Vec<u16>,
    next: Vec<u16>,
}

impl Chain {
    fn new(rules: &[Rule], act: usize, media: Media) -> Chain {
        let mut chain = Chain { first: vec![rules.len() as u16; GROUPS], next: vec![0; rules.len()] };
        for (at, rule) in rules.iter().enumerate().rev() {
            if rule.acts[act] && rule.channel.is_over(media) {
                chain.next[at] = chain.first[rule.group()];
                chain.first[rule.group()] = at as u16;
            }
        }
        chain
    }

    fn decider(&self, rules: &[Rule], request: &Request) -> Option<usize> {
        let (principal, stream) = (Some(request.principal), Some(request.stream));
        let groups =
            [group_of(None, None), group_of(principal, None), group_of(None, stream), group_of(principal, stream)];
        let mut places = groups.map(|group| usize::from(self.first[group]));
        loop {
            let at = places[0].min(places[1]).min(places[2]).min(places[3]);
            if rules.get(at)?.matches(request) {
                return Some(at);
            }
            for place in &mut places {
                if *place == at {
                    *place = usize::from(self.next[at]);
                }
            }
        }
    }
}

struct Compiled {
    policy: Policy,
    epoch: u64,
    chains: Vec<Chain>,
}

impl Compiled {
    fn new(policy: Policy, epoch: u64) -> Compiled {
        let mut chains = Vec::new();
        for act in 0..ACTS {
            for media in EVERY_MEDIUM {
                chains.push(Chain::new(&policy.rules, act, media));
            }
        }
        Compiled { policy, epoch, chains }
    }

    fn verdict(&self, request: &Request) -> Verdict {
        let chain = &self.chains[3 * request.act + request.channel.media as usize];
        self.policy.by(self.epoch, chain.decider(&self.policy.rules, request))
    }
}

// ---- what is timed

fn request(channel: &Channel, round: u64) -> Request<'_> {
    Request { principal: 1, act: OFFER, channel, stream: (round % 64) as i32 }
}

/// The sum so far with a verdict.
fn with(sum: u64, verdict: Verdict) -> u64 {
    let word = if verdict.allow { verdict.rule.map_or(0, u64::from) } else { 0 };
    sum.wrapping_mul(31).wrapping_add(word).wrapping_add(verdict.epoch)
}

#[inline(never)]
fn plain_run(rules: u64, ranges: bool, rounds: &Each, times: &mut Each) -> u64 {
    let keys = keys_of(&[("linger", "5s"), ("mtu", "1408"), ("term-length", "64k")]);
    let channel = Channel { media: Media::Ipc, keys };
    let compiled = Compiled::new(Policy::new(rules, ranges), 1);
    let start = moment();
    let scanned =
        (0..rounds.scan).fold(0, |sum, round| with(sum, compiled.policy.verdict(1, &request(&channel, round))));
    times.scan = moment() - start;
    let start = moment();
    let asked = (0..rounds.compiled).fold(0, |sum, round| with(sum, compiled.verdict(&request(&channel, round))));
    times.compiled = moment() - start;
    scanned.wrapping_mul(31).wrapping_add(asked)
}

fn proved_run(rules: u64, ranges: bool, rounds: &Each, times: &mut Each) -> u64 {
    unsafe { compiled_policy_run(rules, ranges, rounds, times) }
}

/// Three digits of a number.
fn digits(number: f64) -> String {
    let places = (2.0 - number.log10().floor()).clamp(0.0, 9.0);
    format!("{number:.0$}", places as usize)
}

fn show(kind: &str, rules: u64, way: &str, plain: u64, proved: u64, rounds: u64) {
    let [plain, proved] = [plain, proved].map(|time| time as f64 / rounds as f64);
    println!(
        "{rules} rules, {kind}, {way}: plain {} ns, proved {} ns, ratio {}",
        digits(plain),
        digits(proved),
        digits(plain / proved)
    );
}

fn main() {
    for (kind, ranges) in [("one stream", false), ("ranges of streams", true)] {
        for rules in [10, 100, 1_000] {
            let few = Each { scan: 200, compiled: 200 };
            let mut first = Each { scan: 0, compiled: 0 };
            let sum = plain_run(rules, ranges, &few, &mut first);
            assert_eq!(proved_run(rules, ranges, &few, &mut first), sum);
            let rounds = Each { scan: 4_000_000 / rules, compiled: 400_000 };
            let mut times = [Each { scan: u64::MAX, compiled: u64::MAX }; 2];
            // In turns, so that both meet the same machine.
            for _ in 0..8 {
                for (i, run) in [plain_run, proved_run].into_iter().enumerate() {
                    let mut these = Each { scan: 0, compiled: 0 };
                    black_box(run(black_box(rules), ranges, &rounds, &mut these));
                    times[i].scan = times[i].scan.min(these.scan);
                    times[i].compiled = times[i].compiled.min(these.compiled);
                }
            }
            show(kind, rules, "scan", times[0].scan, times[1].scan, rounds.scan);
            show(kind, rules, "compiled", times[0].compiled, times[1].compiled, rounds.compiled);
        }
    }
}
