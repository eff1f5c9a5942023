//! What `ra cluster` does, as a plain program: nothing is proved, no history is kept and nothing is settled. It has the same
//! design: a thread for each node and for each client, each node under a lock, a condition on which its clients wait and which is told
//! when one was let in, and a channel for each node, by which messages come. With the argument `each`, each client has a condition of
//! its own, which is told after the lock is given back. It reads a script as `bench/cluster` writes it, and prints how many requests
//! were made and messages sent.
use std::collections::{HashMap, VecDeque};
use std::env;
use std::io::{self, Read};
use std::mem;
use std::sync::mpsc::{self, Receiver, Sender};
use std::sync::{Arc, Condvar, Mutex};
use std::thread;

type Name = Arc<str>;

#[derive(Clone, Copy, PartialEq)]
enum Mode {
    Shared,
    Exclusive,
}

#[derive(Clone)]
enum Op {
    Lock(Name, Mode),
    Unlock(Name),
}

enum Message {
    Request { from: usize, name: Name, mode: Mode, seq: u64 },
    Reply { name: Name },
    Stop,
}

/// A message and the place of the node that it is for.
type Send = (usize, Message);

enum Phase {
    Idle,
    Waiting { client: usize, mode: Mode, seq: u64, awaited: usize },
    Inside { client: usize, mode: Mode, seq: u64 },
}

struct Resource {
    highest: u64,
    phase: Phase,
    deferred: Vec<usize>,
    queue: VecDeque<(usize, Mode)>,
}

impl Resource {
    fn new() -> Resource {
        Resource { highest: 0, phase: Phase::Idle, deferred: Vec::new(), queue: VecDeque::new() }
    }
}

struct Node {
    me: usize,
    nodes: usize,
    resources: HashMap<Name, Resource>,
    /// The client that was let in since this was last asked.
    let_in: Option<usize>,
    requests: u64,
    sent: u64,
}

impl Node {
    fn new(me: usize, nodes: usize) -> Node {
        Node { me, nodes, resources: HashMap::new(), let_in: None, requests: 0, sent: 0 }
    }

    fn ask(&mut self, client: usize, name: &Name, mode: Mode) -> Vec<Send> {
        let resource = self.resources.entry(name.clone()).or_insert_with(Resource::new);
        if !matches!(resource.phase, Phase::Idle) {
            resource.queue.push_back((client, mode));
            return Vec::new();
        }
        let mut sends = Vec::new();
        self.request(client, name, mode, &mut sends);
        sends
    }

    /// Takes the next number, and asks all other nodes.
    fn request(&mut self, client: usize, name: &Name, mode: Mode, sends: &mut Vec<Send>) {
        let resource = self.resources.get_mut(name).expect("the name was met");
        resource.highest += 1;
        let seq = resource.highest;
        let awaited = self.nodes - 1;
        if awaited == 0 {
            self.let_in = Some(client);
        }
        resource.phase = if awaited == 0 {
            Phase::Inside { client, mode, seq }
        } else {
            Phase::Waiting { client, mode, seq, awaited }
        };
        self.requests += 1;
        for to in (0..self.nodes).filter(|to| *to != self.me) {
            sends.push((to, Message::Request { from: self.me, name: name.clone(), mode, seq }));
        }
        self.sent += awaited as u64;
    }

    fn leave(&mut self, name: &Name) -> Vec<Send> {
        let resource = self.resources.get_mut(name).expect("the name was met");
        resource.phase = Phase::Idle;
        let mut deferred = mem::take(&mut resource.deferred);
        deferred.sort_unstable();
        let next = resource.queue.pop_front();
        let mut sends = Vec::new();
        for to in deferred {
            sends.push((to, Message::Reply { name: name.clone() }));
        }
        self.sent += sends.len() as u64;
        if let Some((client, mode)) = next {
            self.request(client, name, mode, &mut sends);
        }
        sends
    }

    fn receive(&mut self, message: Message) -> Option<Send> {
        match message {
            Message::Request { from, name, mode, seq } => {
                let resource = self.resources.entry(name.clone()).or_insert_with(Resource::new);
                resource.highest = resource.highest.max(seq);
                let goes_first = match resource.phase {
                    Phase::Idle => false,
                    Phase::Waiting { mode: own, seq: mine, .. } | Phase::Inside { mode: own, seq: mine, .. } => {
                        (own, mode) != (Mode::Shared, Mode::Shared) && (mine, self.me) < (seq, from)
                    }
                };
                if goes_first {
                    resource.deferred.push(from);
                    return None;
                }
                self.sent += 1;
                Some((from, Message::Reply { name }))
            }
            Message::Reply { name } => {
                let resource = self.resources.get_mut(&name).expect("the name was met");
                if let Phase::Waiting { client, mode, seq, awaited } = resource.phase {
                    if awaited == 1 {
                        self.let_in = Some(client);
                    }
                    resource.phase = if awaited == 1 {
                        Phase::Inside { client, mode, seq }
                    } else {
                        Phase::Waiting { client, mode, seq, awaited: awaited - 1 }
                    };
                }
                None
            }
            Message::Stop => None,
        }
    }

    fn is_inside(&self, client: usize, name: &Name) -> bool {
        match self.resources.get(name) {
            Some(resource) => matches!(resource.phase, Phase::Inside { client: holder, .. } if holder == client),
            None => false,
        }
    }
}

struct Site {
    node: Mutex<Node>,
    /// On which the clients wait that have no condition of their own.
    entered: Condvar,
    /// The conditions of clients.
    own: HashMap<usize, Condvar>,
}

impl Site {
    fn new(me: usize, nodes: usize) -> Site {
        Site { node: Mutex::new(Node::new(me, nodes)), entered: Condvar::new(), own: HashMap::new() }
    }

    /// Steps the node, wakes the client that was let in, or all of the node, and sends what there is to send.
    fn step<S: IntoIterator<Item = Send>>(&self, post: &[Sender<Message>], step: impl FnOnce(&mut Node) -> S) {
        let mut node = self.node.lock().unwrap();
        let sends = step(&mut node);
        let let_in = node.let_in.take();
        if let_in.is_some() && self.own.is_empty() {
            self.entered.notify_all();
        }
        drop(node);
        if let Some(own) = let_in.and_then(|client| self.own.get(&client)) {
            own.notify_one();
        }
        send_all(sends, post);
    }

    fn lock(&self, client: usize, name: &Name, mode: Mode, post: &[Sender<Message>]) {
        self.step(post, |node| node.ask(client, name, mode));
        let entered = self.own.get(&client).unwrap_or(&self.entered);
        let node = self.node.lock().unwrap();
        drop(entered.wait_while(node, |node| !node.is_inside(client, name)).unwrap());
    }

    fn unlock(&self, name: &Name, post: &[Sender<Message>]) {
        self.step(post, |node| node.leave(name));
    }

    fn pump(&self, inbox: Receiver<Message>, post: &[Sender<Message>]) {
        for message in inbox {
            if matches!(message, Message::Stop) {
                return;
            }
            self.step(post, |node| node.receive(message));
        }
    }
}

fn send_all(sends: impl IntoIterator<Item = Send>, post: &[Sender<Message>]) {
    for (to, message) in sends {
        post[to].send(message).unwrap();
    }
}

fn run_client(client: usize, ops: &[Op], site: &Site, post: &[Sender<Message>]) {
    for op in ops {
        match op {
            Op::Lock(name, mode) => site.lock(client, name, *mode, post),
            Op::Unlock(name) => site.unlock(name, post),
        }
    }
}

/// Returns the number of nodes and, of each client, the place of its node and its operations.
fn read_script(text: &str) -> (usize, Vec<(usize, Vec<Op>)>) {
    let mut nodes = 0;
    let mut clients = Vec::new();
    for line in text.lines() {
        if let Some(number) = line.strip_prefix("nodes = ") {
            nodes = number.parse().expect("a number of nodes");
        } else if let Some(number) = line.strip_prefix("node = ") {
            let number: usize = number.parse().expect("a node's number");
            clients.push((number - 1, Vec::new()));
        } else if let Some(list) = line.strip_prefix("ops = ") {
            let (_, ops) = clients.last_mut().expect("a client");
            // Between quotes, so each second piece.
            ops.extend(list.split('"').skip(1).step_by(2).map(read_op));
        }
    }
    (nodes, clients)
}

fn read_op(word: &str) -> Op {
    let (kind, name) = word.split_once(' ').expect("an operation");
    match kind {
        "X" => Op::Lock(name.into(), Mode::Exclusive),
        "S" => Op::Lock(name.into(), Mode::Shared),
        _ => Op::Unlock(name.into()),
    }
}

fn main() {
    let mut text = String::new();
    io::stdin().read_to_string(&mut text).expect("a script");
    let (nodes, clients) = read_script(&text);
    let mut sites: Vec<Site> = (0..nodes).map(|me| Site::new(me, nodes)).collect();
    if env::args().nth(1).is_some_and(|word| word == "each") {
        for (client, (place, _)) in clients.iter().enumerate() {
            sites[*place].own.insert(client, Condvar::new());
        }
    }
    let (post, inboxes): (Vec<_>, Vec<_>) = (0..nodes).map(|_| mpsc::channel()).unzip();
    let (sites, post) = (&sites, &post);
    thread::scope(|pumps| {
        for (site, inbox) in sites.iter().zip(inboxes) {
            pumps.spawn(move || site.pump(inbox, post));
        }
        thread::scope(|threads| {
            for (client, (place, ops)) in clients.iter().enumerate() {
                threads.spawn(move || run_client(client, ops, &sites[*place], post));
            }
        });
        for sender in post {
            sender.send(Message::Stop).unwrap();
        }
    });
    let (mut requests, mut sent) = (0, 0);
    for site in sites {
        let node = site.node.lock().unwrap();
        requests += node.requests;
        sent += node.sent;
    }
    println!("requests {requests}\nmessages {sent}");
}
