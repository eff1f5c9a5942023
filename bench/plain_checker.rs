//! What `ra check` does, as a plain program: a hash map of names at each node, the messages under way in another, and for the lock
//! table a third; nothing proved, and nothing kept that a later line does not need. It reads line by line into one buffer, and prints the
//! same verdict.
use std::collections::{HashMap, VecDeque};
use std::io::{self, BufRead};
use std::mem;

const MAX_TEXT: usize = 16_777_216;
const MAX_LINE: usize = 128;

#[derive(Clone, Copy, PartialEq, Eq, Hash)]
enum Mode {
    Shared,
    Exclusive,
}

fn conflict(a: Mode, b: Mode) -> bool {
    (a, b) != (Mode::Shared, Mode::Shared)
}

#[derive(Clone, PartialEq, Eq, Hash)]
struct Message {
    from: usize,
    to: usize,
    name: String,
    /// The mode of a REQUEST; a REPLY has none.
    mode: Option<Mode>,
    seq: u64,
}

#[derive(Clone, PartialEq, Eq)]
struct Entry {
    node: usize,
    client: u32,
    name: String,
    mode: Mode,
    seq: u64,
}

#[derive(Clone, Copy, PartialEq, Eq)]
enum Change {
    Requested,
    Entered,
    Left,
}

#[derive(PartialEq, Eq)]
struct Mark {
    change: Change,
    entry: Entry,
}

enum Line {
    First(usize, u64),
    Ask(usize, u32, String, Mode),
    Release(usize, u32, String),
    Deliver(Message),
    Lose(Message),
    Marked(Mark),
    Last,
}

/// Why a line is wrong.
enum Cause {
    Line,
    Refused,
    NotUnderWay,
    Marks,
    Table,
}

impl Cause {
    fn word(&self) -> &'static str {
        match self {
            Cause::Line => "Line",
            Cause::Refused => "Refused",
            Cause::NotUnderWay => "NotUnderWay",
            Cause::Marks => "Marks",
            Cause::Table => "Table",
        }
    }
}

// ---- Reading a line

fn number(field: &str) -> Option<u64> {
    let digits = field.as_bytes();
    if !digits.iter().all(u8::is_ascii_digit) || (digits.len() > 1 && digits[0] == b'0') {
        return None;
    }
    field.parse().ok()
}

fn node(field: &str) -> Option<usize> {
    number(field).filter(|node| (1..=16).contains(node)).map(|node| node as usize)
}

fn client(field: &str) -> Option<u32> {
    number(field)?.try_into().ok()
}

fn seq(field: &str) -> Option<u64> {
    number(field).filter(|seq| *seq > 0)
}

fn name(field: &str) -> Option<String> {
    let fits = |byte: &u8| byte.is_ascii_alphanumeric() || matches!(byte, b'_' | b'-' | b'.');
    ((1..=32).contains(&field.len()) && field.as_bytes().iter().all(fits)).then(|| field.to_string())
}

fn mode(field: &str) -> Option<Mode> {
    match field {
        "X" => Some(Mode::Exclusive),
        "S" => Some(Mode::Shared),
        _ => None,
    }
}

fn message<'a>(mut fields: impl Iterator<Item = &'a str>) -> Option<Message> {
    let asks = match fields.next()? {
        "request" => true,
        "reply" => false,
        _ => return None,
    };
    let (from, to, name) = (node(fields.next()?)?, node(fields.next()?)?, name(fields.next()?)?);
    let mode = if asks { Some(mode(fields.next()?)?) } else { None };
    let seq = seq(fields.next()?)?;
    fields.next().is_none().then_some(Message { from, to, name, mode, seq })
}

fn mark<'a>(change: Change, mut fields: impl Iterator<Item = &'a str>) -> Option<Mark> {
    let entry = Entry {
        node: node(fields.next()?)?,
        client: client(fields.next()?)?,
        name: name(fields.next()?)?,
        mode: mode(fields.next()?)?,
        seq: seq(fields.next()?)?,
    };
    fields.next().is_none().then_some(Mark { change, entry })
}

fn line(text: &str) -> Option<Line> {
    let mut fields = text.split(' ');
    let line = match fields.next()? {
        "trace" if fields.next()? == "1" => Line::First(node(fields.next()?)?, number(fields.next()?)?),
        "ask" => {
            Line::Ask(node(fields.next()?)?, client(fields.next()?)?, name(fields.next()?)?, mode(fields.next()?)?)
        }
        "release" => Line::Release(node(fields.next()?)?, client(fields.next()?)?, name(fields.next()?)?),
        "deliver" => return message(fields).map(Line::Deliver),
        "lose" => return message(fields).map(Line::Lose),
        "request" => return mark(Change::Requested, fields).map(Line::Marked),
        "enter" => return mark(Change::Entered, fields).map(Line::Marked),
        "leave" => return mark(Change::Left, fields).map(Line::Marked),
        "end" => Line::Last,
        _ => return None,
    };
    fields.next().is_none().then_some(line)
}

// ---- The cluster

enum Phase {
    Idle,
    Waiting { entry: Entry, awaited: usize },
    Inside(Entry),
}

struct Resource {
    highest: u64,
    phase: Phase,
    deferred: Vec<(usize, u64)>,
    queue: VecDeque<(u32, Mode)>,
}

impl Resource {
    fn new(start: u64) -> Resource {
        Resource { highest: start, phase: Phase::Idle, deferred: Vec::new(), queue: VecDeque::new() }
    }

    fn is_busy(&self, client: u32) -> bool {
        let is_current = match &self.phase {
            Phase::Idle => false,
            Phase::Waiting { entry, .. } | Phase::Inside(entry) => entry.client == client,
        };
        is_current || self.queue.iter().any(|(queued, _)| *queued == client)
    }
}

struct Cluster {
    start: u64,
    nodes: Vec<HashMap<String, Resource>>,
    under_way: HashMap<Message, usize>,
    /// The marks of the last step that have not come yet.
    due: VecDeque<Mark>,
    requests: u64,
    sent: u64,
}

impl Cluster {
    fn resource(&mut self, node: usize, name: &str) -> &mut Resource {
        let (start, names) = (self.start, &mut self.nodes[node - 1]);
        if !names.contains_key(name) {
            names.insert(name.to_string(), Resource::new(start));
        }
        names.get_mut(name).expect("it is there")
    }

    fn send(&mut self, message: Message) {
        *self.under_way.entry(message).or_default() += 1;
        self.sent += 1;
    }

    /// Takes a message, and returns whether it was under way.
    fn take(&mut self, message: &Message) -> bool {
        match self.under_way.get_mut(message) {
            None => return false,
            Some(1) => drop(self.under_way.remove(message)),
            Some(times) => *times -= 1,
        }
        true
    }

    fn mark(&mut self, change: Change, entry: Entry) {
        self.due.push_back(Mark { change, entry });
    }

    /// Takes the next number, and asks all other nodes.
    fn request(&mut self, node: usize, client: u32, name: &str, mode: Mode) {
        let count = self.nodes.len();
        let resource = self.resource(node, name);
        resource.highest += 1;
        let seq = resource.highest;
        let entry = Entry { node, client, name: name.to_string(), mode, seq };
        resource.phase = Phase::Waiting { entry: entry.clone(), awaited: count - 1 };
        self.requests += 1;
        self.mark(Change::Requested, entry.clone());
        for to in (1..=count).filter(|to| *to != node) {
            self.send(Message { from: node, to, name: name.to_string(), mode: Some(mode), seq });
        }
        if count == 1 {
            self.enter(entry);
        }
    }

    fn enter(&mut self, entry: Entry) {
        self.resource(entry.node, &entry.name).phase = Phase::Inside(entry.clone());
        self.mark(Change::Entered, entry);
    }

    fn ask(&mut self, node: usize, client: u32, name: &str, mode: Mode) -> Option<Cause> {
        if node > self.nodes.len() {
            return Some(Cause::Refused);
        }
        let resource = self.resource(node, name);
        if resource.is_busy(client) || resource.highest == u64::MAX {
            return Some(Cause::Refused);
        }
        match resource.phase {
            Phase::Idle => self.request(node, client, name, mode),
            _ => resource.queue.push_back((client, mode)),
        }
        None
    }

    fn release(&mut self, node: usize, client: u32, name: &str) -> Option<Cause> {
        if node > self.nodes.len() {
            return Some(Cause::Refused);
        }
        let resource = self.resource(node, name);
        match &resource.phase {
            Phase::Inside(entry) if entry.client == client => {}
            _ => return Some(Cause::Refused),
        }
        let Phase::Inside(entry) = mem::replace(&mut resource.phase, Phase::Idle) else {
            return None;
        };
        let deferred = mem::take(&mut resource.deferred);
        let next = if resource.highest < u64::MAX { resource.queue.pop_front() } else { None };
        self.mark(Change::Left, entry);
        for (to, seq) in deferred {
            self.send(Message { from: node, to, name: name.to_string(), mode: None, seq });
        }
        if let Some((client, mode)) = next {
            self.request(node, client, name, mode);
        }
        None
    }

    fn deliver(&mut self, message: Message) -> Option<Cause> {
        if !self.take(&message) {
            return Some(Cause::NotUnderWay);
        }
        let Message { from, to, name, mode, seq } = message;
        let resource = self.resource(to, &name);
        match mode {
            Some(mode) => {
                resource.highest = resource.highest.max(seq);
                let goes_first = match &resource.phase {
                    Phase::Idle => false,
                    Phase::Waiting { entry: own, .. } | Phase::Inside(own) => {
                        conflict(own.mode, mode) && (own.seq, to) < (seq, from)
                    }
                };
                if goes_first {
                    resource.deferred.push((from, seq));
                } else {
                    self.send(Message { from: to, to: from, name, mode: None, seq });
                }
            }
            None => {
                let mut entered = None;
                if let Phase::Waiting { entry, awaited } = &mut resource.phase {
                    if entry.seq == seq {
                        *awaited -= 1;
                        entered = (*awaited == 0).then(|| entry.clone());
                    }
                }
                if let Some(entry) = entered {
                    self.enter(entry);
                }
            }
        }
        None
    }
}

// ---- The lock table

#[derive(Default)]
struct Lane {
    waiting: Vec<Entry>,
    holding: Vec<Entry>,
    highest: Option<u64>,
}

impl Lane {
    /// Makes a step, and returns whether the table allows it.
    fn step(&mut self, mark: &Mark) -> bool {
        let entry = &mark.entry;
        match mark.change {
            Change::Requested => {
                let is_free = !self.waiting.iter().chain(&self.holding).any(|other| other.node == entry.node);
                let allowed = is_free && self.highest.is_none_or(|highest| highest < entry.seq);
                if allowed {
                    self.waiting.push(entry.clone());
                }
                allowed
            }
            Change::Entered => {
                let Some(place) = self.waiting.iter().position(|other| other == entry) else {
                    return false;
                };
                let excludes = |other: &Entry| conflict(other.mode, entry.mode);
                let is_earlier = |other: &Entry| (other.seq, other.node) < (entry.seq, entry.node);
                if self.holding.iter().any(excludes) || self.waiting.iter().any(|x| excludes(x) && is_earlier(x)) {
                    return false;
                }
                self.highest = self.highest.max(Some(entry.seq));
                self.holding.push(self.waiting.remove(place));
                true
            }
            Change::Left => match self.holding.iter().position(|other| other == entry) {
                Some(place) => {
                    self.holding.remove(place);
                    true
                }
                None => false,
            },
        }
    }
}

// ---- The checker

struct Checker {
    cluster: Cluster,
    table: HashMap<String, Lane>,
}

impl Checker {
    fn new(count: usize, start: u64) -> Checker {
        let nodes = (0..count).map(|_| HashMap::new()).collect();
        let cluster =
            Cluster { start, nodes, under_way: HashMap::new(), due: VecDeque::new(), requests: 0, sent: 0 };
        Checker { cluster, table: HashMap::new() }
    }

    fn take_mark(&mut self, mark: &Mark) -> Option<Cause> {
        let name = mark.entry.name.as_str();
        if !self.table.contains_key(name) {
            self.table.insert(name.to_string(), Lane::default());
        }
        if !self.table.get_mut(name).expect("it is there").step(mark) {
            return Some(Cause::Table);
        }
        if self.cluster.due.front() != Some(mark) {
            return Some(Cause::Marks);
        }
        self.cluster.due.pop_front();
        None
    }

    /// Takes a line, and returns why it is wrong, or `None` if it is right.
    fn take(&mut self, line: Line) -> Option<Cause> {
        match line {
            Line::First(..) => Some(Cause::Line),
            Line::Marked(mark) => self.take_mark(&mark),
            _ if !self.cluster.due.is_empty() => Some(Cause::Marks),
            Line::Ask(node, client, name, mode) => self.cluster.ask(node, client, &name, mode),
            Line::Release(node, client, name) => self.cluster.release(node, client, &name),
            Line::Deliver(message) => self.cluster.deliver(message),
            Line::Lose(message) => (!self.cluster.take(&message)).then_some(Cause::NotUnderWay),
            Line::Last => None,
        }
    }
}

/// Reads the next line, or `None` if what comes is none.
fn next_line(input: &mut impl BufRead, bytes: &mut Vec<u8>, left: &mut usize) -> Option<Line> {
    bytes.clear();
    let count = input.read_until(b'\n', bytes).expect("an input");
    *left = left.checked_sub(count).expect("at most 16,777,216 bytes");
    match bytes.split_last() {
        Some((b'\n', prefix)) if prefix.len() < MAX_LINE => line(std::str::from_utf8(prefix).ok()?),
        _ => None,
    }
}

fn verdict(input: &mut impl BufRead) -> Result<(u64, u64), (u64, Cause)> {
    let (mut bytes, mut left) = (Vec::new(), MAX_TEXT);
    let Some(Line::First(count, start)) = next_line(input, &mut bytes, &mut left) else {
        return Err((1, Cause::Line));
    };
    let mut checker = Checker::new(count, start);
    for number in 2.. {
        let line = next_line(input, &mut bytes, &mut left).ok_or((number, Cause::Line))?;
        let is_last = matches!(line, Line::Last);
        if let Some(cause) = checker.take(line) {
            return Err((number, cause));
        }
        if is_last {
            if !input.fill_buf().expect("an input").is_empty() {
                return Err((number + 1, Cause::Line));
            }
            break;
        }
    }
    Ok((checker.cluster.requests, checker.cluster.sent))
}

fn main() {
    match verdict(&mut io::stdin().lock()) {
        Ok((requests, sent)) => println!("valid\nrequests {requests}\nmessages {sent}"),
        Err((line, cause)) => {
            println!("invalid {line} {}", cause.word());
            std::process::exit(3);
        }
    }
}
