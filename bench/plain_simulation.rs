//! What `ra sim` does under the policies `oldest`, `newest` and `seeded`, as a plain program: a hash map of names at
//! each node and a queue of messages. Nothing is proved, and nothing is kept but what is printed. It reads a script
//! with the crate `toml` or, with the feature `cut_script`, by cutting it at its quotes, which is enough for what
//! `bench/largest-script` writes. The argument is the policy; the seed is 0. Each message has a copy of its name or,
//! with the feature `shared_names`, a counted reference to it, which only one thread can have.
use std::collections::{HashMap, VecDeque};
use std::fmt::Write as _;
use std::io::{self, Read, Write as _};
use std::mem;

#[cfg(not(feature = "shared_names"))]
type Name = String;

#[cfg(feature = "shared_names")]
type Name = std::rc::Rc<str>;

#[derive(Clone, Copy, PartialEq)]
enum Mode {
    Shared,
    Exclusive,
}

impl Mode {
    fn letter(self) -> char {
        if self == Mode::Shared { 'S' } else { 'X' }
    }
}

enum Op {
    Lock(Name, Mode),
    Unlock(Name),
}

struct Message {
    from: usize,
    to: usize,
    name: Name,
    /// The mode and number of a REQUEST; `None` for a REPLY.
    request: Option<(Mode, u64)>,
}

enum Phase {
    Idle,
    Waiting { client: usize, mode: Mode, seq: u64, awaited: usize },
    Inside { client: usize, mode: Mode, seq: u64 },
}

struct Resource {
    highest: u64,
    phase: Phase,
    deferred: Vec<usize>,
    queue: VecDeque<(usize, Mode)>,
}

impl Resource {
    fn new() -> Resource {
        Resource { highest: 0, phase: Phase::Idle, deferred: Vec::new(), queue: VecDeque::new() }
    }
}

struct Client {
    node: usize,
    ops: Vec<Op>,
    done: usize,
    waits: bool,
}

impl Client {
    fn can_go_on(&self) -> bool {
        !self.waits && self.done < self.ops.len()
    }
}

struct Cluster {
    nodes: Vec<HashMap<Name, Resource>>,
    under_way: VecDeque<Message>,
    clients: Vec<Client>,
    lines: String,
    requests: u64,
    sent: u64,
}

impl Cluster {
    fn mark(&mut self, word: &str, node: usize, client: usize, name: &str, mode: Mode, seq: u64) {
        let letter = mode.letter();
        writeln!(self.lines, "{word} {} {} {name} {letter} {seq}", node + 1, client + 1).unwrap();
    }

    fn send(&mut self, from: usize, to: usize, name: &Name, request: Option<(Mode, u64)>) {
        self.under_way.push_back(Message { from, to, name: name.clone(), request });
        self.sent += 1;
    }

    /// A client does its next operation.
    fn go_on(&mut self, client: usize) {
        let node = self.clients[client].node;
        let place = self.clients[client].done;
        self.clients[client].done += 1;
        match &self.clients[client].ops[place] {
            Op::Lock(name, mode) => {
                let (name, mode) = (name.clone(), *mode);
                self.clients[client].waits = true;
                let resource = self.nodes[node].entry(name.clone()).or_insert_with(Resource::new);
                if matches!(resource.phase, Phase::Idle) {
                    self.request(node, client, &name, mode);
                } else {
                    resource.queue.push_back((client, mode));
                }
            }
            Op::Unlock(name) => {
                let name = name.clone();
                self.leave(node, &name);
            }
        }
    }

    /// Takes the next number and asks all other nodes.
    fn request(&mut self, node: usize, client: usize, name: &Name, mode: Mode) {
        let count = self.nodes.len();
        let resource = self.nodes[node].get_mut(name).expect("the name was met");
        resource.highest += 1;
        let seq = resource.highest;
        resource.phase = Phase::Waiting { client, mode, seq, awaited: count - 1 };
        self.requests += 1;
        self.mark("request", node, client, name, mode, seq);
        for to in (0..count).filter(|to| *to != node) {
            self.send(node, to, name, Some((mode, seq)));
        }
        if count == 1 {
            self.enter(node, client, name, mode, seq);
        }
    }

    fn enter(&mut self, node: usize, client: usize, name: &Name, mode: Mode, seq: u64) {
        let resource = self.nodes[node].get_mut(name).expect("the name was met");
        resource.phase = Phase::Inside { client, mode, seq };
        self.clients[client].waits = false;
        self.mark("enter", node, client, name, mode, seq);
    }

    fn leave(&mut self, node: usize, name: &Name) {
        let resource = self.nodes[node].get_mut(name).expect("the name was met");
        let mut deferred = mem::take(&mut resource.deferred);
        let next = resource.queue.pop_front();
        let phase = mem::replace(&mut resource.phase, Phase::Idle);
        if let Phase::Inside { client, mode, seq } = phase {
            self.mark("leave", node, client, name, mode, seq);
        }
        deferred.sort_unstable();
        for to in deferred {
            self.send(node, to, name, None);
        }
        if let Some((client, mode)) = next {
            self.request(node, client, name, mode);
        }
    }

    fn deliver(&mut self, message: Message) {
        let Message { from, to, name, request } = message;
        match request {
            Some((mode, seq)) => {
                let resource = self.nodes[to].entry(name.clone()).or_insert_with(Resource::new);
                resource.highest = resource.highest.max(seq);
                let goes_first = match resource.phase {
                    Phase::Idle => false,
                    Phase::Waiting { mode: own, seq: mine, .. } | Phase::Inside { mode: own, seq: mine, .. } => {
                        (own, mode) != (Mode::Shared, Mode::Shared) && (mine, to) < (seq, from)
                    }
                };
                if goes_first {
                    resource.deferred.push(from);
                } else {
                    self.send(to, from, &name, None);
                }
            }
            None => {
                let resource = self.nodes[to].get_mut(&name).expect("the name was met");
                if let Phase::Waiting { client, mode, seq, awaited } = resource.phase {
                    if awaited == 1 {
                        self.enter(to, client, &name, mode, seq);
                    } else {
                        resource.phase = Phase::Waiting { client, mode, seq, awaited: awaited - 1 };
                    }
                }
            }
        }
    }

    /// Continues with the first client that can go on, or otherwise with a message, until there is neither.
    fn run_in_turn(&mut self, newest: bool) {
        loop {
            if let Some(client) = self.clients.iter().position(Client::can_go_on) {
                self.go_on(client);
                continue;
            }
            let message = if newest { self.under_way.pop_back() } else { self.under_way.pop_front() };
            let Some(message) = message else {
                return;
            };
            self.deliver(message);
        }
    }

    /// Continues with a client or message picked at random, until there is neither.
    fn run_by_chance(&mut self) {
        let mut chance = Chance::new(0);
        loop {
            let enabled = self.clients.iter().filter(|client| client.can_go_on()).count();
            let choices = enabled + self.under_way.len();
            if choices == 0 {
                return;
            }
            let picked = (chance.next() % choices as u64) as usize;
            if picked < enabled {
                let mut places = (0..self.clients.len()).filter(|place| self.clients[*place].can_go_on());
                let client = places.nth(picked).expect("a client that can go on");
                self.go_on(client);
            } else {
                let message = self.under_way.remove(picked - enabled).expect("a message under way");
                self.deliver(message);
            }
        }
    }
}

/// The generator of M. E. O'Neill (PCG, XSL RR 128/64), seeded as the crate `rand_core` does.
struct Chance {
    state: u128,
    increment: u128,
}

impl Chance {
    fn new(mut seed: u64) -> Chance {
        let mut words = [0u128; 2];
        for place in 0..8 {
            seed = seed.wrapping_mul(6364136223846793005).wrapping_add(11634580027462260723);
            let word = ((((seed >> 18) ^ seed) >> 27) as u32).rotate_right((seed >> 59) as u32);
            words[place / 4] |= u128::from(word) << (32 * (place % 4));
        }
        let increment = words[1] | 1;
        let mut chance = Chance { state: words[0].wrapping_add(increment), increment };
        chance.step();
        chance
    }

    fn step(&mut self) {
        let state = self.state.wrapping_mul(0x2360ed051fc65da44385df649fccf645);
        self.state = state.wrapping_add(self.increment);
    }

    fn next(&mut self) -> u64 {
        self.step();
        ((self.state >> 64) as u64 ^ self.state as u64).rotate_right((self.state >> 122) as u32)
    }
}

fn read_op(word: &str) -> Op {
    let (kind, name) = word.split_once(' ').expect("an operation");
    match kind {
        "X" => Op::Lock(name.into(), Mode::Exclusive),
        "S" => Op::Lock(name.into(), Mode::Shared),
        _ => Op::Unlock(name.into()),
    }
}

fn new_cluster() -> Cluster {
    Cluster {
        nodes: Vec::new(),
        under_way: VecDeque::new(),
        clients: Vec::new(),
        lines: String::new(),
        requests: 0,
        sent: 0,
    }
}

#[cfg(not(feature = "cut_script"))]
fn read_script(text: &str) -> Cluster {
    let mut cluster = new_cluster();
    let tree: toml::Value = text.parse().expect("a document");
    let count = tree["nodes"].as_integer().expect("a number of nodes");
    cluster.nodes = (0..count).map(|_| HashMap::new()).collect();
    for client in tree["client"].as_array().expect("clients") {
        let number = client["node"].as_integer().expect("a node's number") as usize;
        let list = client["ops"].as_array().expect("operations");
        let ops = list.iter().map(|op| read_op(op.as_str().expect("an operation"))).collect();
        cluster.clients.push(Client { node: number - 1, ops, done: 0, waits: false });
    }
    cluster
}

#[cfg(feature = "cut_script")]
fn read_script(text: &str) -> Cluster {
    let mut cluster = new_cluster();
    for line in text.lines() {
        if let Some(number) = line.strip_prefix("nodes = ") {
            let count: usize = number.parse().expect("a number of nodes");
            cluster.nodes = (0..count).map(|_| HashMap::new()).collect();
        } else if let Some(number) = line.strip_prefix("node = ") {
            let number: usize = number.parse().expect("a node's number");
            cluster.clients.push(Client { node: number - 1, ops: Vec::new(), done: 0, waits: false });
        } else if let Some(list) = line.strip_prefix("ops = ") {
            let client = cluster.clients.last_mut().expect("a client");
            // The text between quotes is every second piece.
            client.ops.extend(list.split('"').skip(1).step_by(2).map(read_op));
        }
    }
    cluster
}

fn main() {
    let mut text = String::new();
    io::stdin().read_to_string(&mut text).expect("a script");
    let mut cluster = read_script(&text);
    match std::env::args().nth(1).as_deref() {
        Some("oldest") => cluster.run_in_turn(false),
        Some("newest") => cluster.run_in_turn(true),
        Some("seeded") => cluster.run_by_chance(),
        _ => panic!("the argument must be oldest, newest or seeded"),
    }
    let (requests, sent, under_way) = (cluster.requests, cluster.sent, cluster.under_way.len());
    let lines = &mut cluster.lines;
    writeln!(lines, "requests {requests}\nmessages {sent}\nunder-way {under_way}\nlost 0\nwaiting 0\nqueued 0").unwrap();
    io::stdout().write_all(lines.as_bytes()).expect("an output");
}
