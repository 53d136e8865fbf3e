// The acts of hall_bench over a runtime written by hand, under a plain mutex: `THREADS ACTS`. Each act is a packet that changes whether
// its match goes to port 2.
use std::collections::{BTreeMap, BTreeSet};
use std::sync::Mutex;
use std::thread;

type Match = [u64; 4];

#[derive(Clone, Copy)]
struct Entry {
    _seat: u32,
    _session: u32,
    packet: Match,
}

struct Rule {
    _key: Match,
    _ports: Vec<u64>,
    _cookie: u64,
    _idle: u16,
}

struct Reply {
    _rules: Vec<Rule>,
    _outs: Vec<u64>,
}

struct Runtime {
    switches: Vec<u64>,
    hosts: Vec<u64>,
    ports: Vec<u64>,
    flows: BTreeSet<(Match, u64)>,
    marks: BTreeMap<Match, u64>,
    history: Vec<Entry>,
}

impl Runtime {
    fn new() -> Runtime {
        Runtime {
            switches: (0..64).collect(),
            hosts: vec![1, 2],
            ports: vec![1, 2],
            flows: BTreeSet::new(),
            marks: BTreeMap::new(),
            history: Vec::new(),
        }
    }

    fn apply(&mut self, entry: &Entry) -> Option<Reply> {
        let [s, a, b, i] = entry.packet;
        let is_declared = self.switches.binary_search(&s).is_ok()
            && self.hosts.binary_search(&a).is_ok()
            && self.hosts.binary_search(&b).is_ok()
            && self.ports.binary_search(&i).is_ok();
        if !is_declared || self.history.len() >= 4194304 {
            return None;
        }
        let flow = (entry.packet, 2);
        if !self.flows.remove(&flow) {
            self.flows.insert(flow);
        }
        self.marks.insert(entry.packet, self.history.len() as u64);
        let ports = self.ports.iter().copied().filter(|o| self.flows.contains(&(entry.packet, *o))).collect();
        self.history.push(*entry);
        let rule = Rule { _key: entry.packet, _ports: ports, _cookie: 0, _idle: 0 };
        Some(Reply { _rules: vec![rule], _outs: Vec::new() })
    }
}

fn main() {
    let words: Vec<u64> = std::env::args().skip(1).map(|word| word.parse().unwrap()).collect();
    let (threads, acts) = (words[0], words[1]);
    let lock = Mutex::new(Runtime::new());
    thread::scope(|scope| {
        for number in 0..threads {
            let lock = &lock;
            scope.spawn(move || {
                for _ in 0..acts / threads {
                    let entry = Entry { _seat: number as u32, _session: 1, packet: [number % 64, 1, 2, 1] };
                    std::hint::black_box(lock.lock().unwrap().apply(&entry));
                }
            });
        }
    });
    println!("entered {}", lock.into_inner().unwrap().history.len());
}
