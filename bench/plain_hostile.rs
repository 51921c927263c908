// A plain Rust program that writes the journal of a scenario with frames from outside as `clnp sim` does, without proofs:
// the measure of its tables of neighbours, and of reassembly where segments touch no neighbour. It reads the lines that the
// measured scenarios have, and trusts them: one subnetwork, hosts and routers with one port that say no hello, the events
// inject, settle and tick, end system hellos of one address to routers, and segments of one header to hosts.
use std::collections::{BTreeMap, HashMap};
use std::io::{Read, Write};

const HOLD: u64 = 60;
const BLOCK: usize = 65_536;

struct Out {
    text: Vec<u8>,
    digits: [[u8; 2]; 256],
}

impl Out {
    fn new() -> Out {
        let mut digits = [[0; 2]; 256];
        for (octet, pair) in digits.iter_mut().enumerate() {
            *pair = [b"0123456789abcdef"[octet / 16], b"0123456789abcdef"[octet % 16]];
        }
        Out { text: Vec::with_capacity(4 * BLOCK), digits }
    }

    fn word(&mut self, word: &[u8]) {
        self.text.extend_from_slice(word);
    }

    fn number(&mut self, mut number: u64) {
        let mut room = [0; 20];
        let mut at = 20;
        loop {
            at -= 1;
            room[at] = b'0' + (number % 10) as u8;
            number /= 10;
            if number == 0 {
                break;
            }
        }
        self.text.extend_from_slice(&room[at..]);
    }

    fn hex(&mut self, octets: &[u8]) {
        let start = self.text.len();
        self.text.resize(start + 2 * octets.len(), 0);
        for (pair, octet) in self.text[start..].chunks_exact_mut(2).zip(octets) {
            pair.copy_from_slice(&self.digits[*octet as usize]);
        }
    }

    fn front(&mut self, now: u64, name: &[u8], kind: &[u8]) {
        self.number(now);
        self.word(b" ");
        self.word(name);
        self.word(kind);
    }

    fn end_line(&mut self, stdout: &mut impl Write) {
        self.text.push(b'\n');
        if self.text.len() >= BLOCK {
            self.flush(stdout);
        }
    }

    fn flush(&mut self, stdout: &mut impl Write) {
        stdout.write_all(&self.text).unwrap();
        self.text.clear();
    }
}

// the end systems that a router knows, and a moment before which none of them ends
struct Table {
    limit: usize,
    until: BTreeMap<Vec<u8>, u64>,
    soonest: u64,
}

impl Table {
    fn hear(&mut self, now: u64, key: &[u8], hold: u64, out: &mut Out) {
        let ends = now + 2 * hold;
        if hold == 0 {
            self.until.remove(key);
            return out.word(b"zero");
        }
        if let Some(until) = self.until.get_mut(key) {
            *until = ends;
            out.word(b"again");
        } else if self.until.len() >= self.limit {
            out.word(b"full ");
            return out.number(self.limit as u64);
        } else {
            self.until.insert(key.to_vec(), ends);
            out.word(b"new");
        }
        self.soonest = self.soonest.min(ends);
    }

    fn flush(&mut self, now: u64, name: &[u8], out: &mut Out, stdout: &mut impl Write) {
        if now < self.soonest {
            return;
        }
        self.until.retain(|key, until| {
            if *until <= now {
                out.front(now, name, b" gone es ");
                out.hex(key);
                out.end_line(stdout);
            }
            *until > now
        });
        self.soonest = self.until.values().copied().min().unwrap_or(u64::MAX);
    }
}

struct Buffer {
    octets: Vec<u8>,
    ranges: Vec<(usize, usize)>,
    covered: usize,
    size: usize,
    deadline: u64,
    serial: u64,
    first: bool,
}

struct System {
    name: Vec<u8>,
    is_router: bool,
    table: Table,
    budget: usize,
    held: usize,
    opened: u64,
    buffers: HashMap<Vec<u8>, Buffer>,
}

// the octets that aren't covered yet become so; how many these are
fn cover(ranges: &mut Vec<(usize, usize)>, from: usize, to: usize) -> usize {
    let low = ranges.partition_point(|range| range.1 < from);
    let mut high = low;
    let (mut start, mut end, mut there) = (from, to, 0);
    while high < ranges.len() && ranges[high].0 <= to {
        there += ranges[high].1.min(to) - ranges[high].0.max(from);
        start = start.min(ranges[high].0);
        end = end.max(ranges[high].1);
        high += 1;
    }
    if there < to - from {
        ranges.splice(low..high, [(start, end)]);
    }
    to - from - there
}

fn number_at(octets: &[u8], at: usize) -> usize {
    usize::from(u16::from_be_bytes([octets[at], octets[at + 1]]))
}

impl System {
    // a segment: its header has addresses and a segmentation part, and no options
    fn keep(&mut self, now: u64, frame: &[u8], out: &mut Out, stdout: &mut impl Write) {
        let head = usize::from(frame[1]);
        let destination = 10..10 + usize::from(frame[9]);
        let source = destination.end + 1..destination.end + 1 + usize::from(frame[destination.end]);
        let (id, offset, total) = (source.end..source.end + 2, number_at(frame, source.end + 2), number_at(frame, source.end + 4));
        let octets = &frame[head..];
        if self.held + frame.len() > self.budget {
            panic!("the measured scenarios keep their budgets");
        }
        self.opened += 1;
        let serial = self.opened;
        let key = &frame[destination.start..id.end];
        if !self.buffers.contains_key(key) {
            let buffer = Buffer {
                octets: vec![0; total - head],
                ranges: Vec::new(),
                covered: 0,
                size: 0,
                deadline: now + HOLD.min(u64::from(frame[3])),
                serial,
                first: false,
            };
            self.buffers.insert(key.to_vec(), buffer);
        }
        let buffer = self.buffers.get_mut(key).unwrap();
        let new = cover(&mut buffer.ranges, offset, offset + octets.len());
        if new == 0 {
            out.front(now, &self.name, b" repeat ");
            out.hex(&frame[id]);
            out.word(b" ");
            out.number(offset as u64);
            return out.end_line(stdout);
        }
        buffer.octets[offset..offset + octets.len()].copy_from_slice(octets);
        buffer.covered += new;
        buffer.size += frame.len();
        buffer.first |= offset == 0;
        self.held += frame.len();
        if buffer.covered == total - head {
            let buffer = self.buffers.remove(key).unwrap();
            self.held -= buffer.size;
            out.front(now, &self.name, b" got ");
            out.hex(&frame[source]);
            out.word(b" ");
            out.hex(&frame[destination]);
            out.word(b" ");
            out.hex(&buffer.octets);
            return out.end_line(stdout);
        }
        out.front(now, &self.name, b" held ");
        out.hex(&frame[id]);
        out.word(b" ");
        out.number(offset as u64);
        out.word(b" ");
        out.number(self.held as u64);
        out.end_line(stdout);
    }

    fn expire(&mut self, now: u64, out: &mut Out, stdout: &mut impl Write) {
        let mut ended: Vec<(u64, u64, Vec<u8>)> =
            self.buffers.iter().filter(|b| b.1.deadline <= now).map(|b| (b.1.deadline, b.1.serial, b.0.clone())).collect();
        ended.sort();
        for (_, _, key) in ended {
            let buffer = self.buffers.remove(&key).unwrap();
            self.held -= buffer.size;
            out.front(now, &self.name, b" expired ");
            out.hex(&key[key.len() - 2..]);
            out.word(b" ");
            out.number(self.held as u64);
            out.end_line(stdout);
            if buffer.first {
                out.front(now, &self.name, b" drop a1 00");
                out.end_line(stdout);
            }
        }
    }

    fn give(&mut self, now: u64, frame: &[u8], out: &mut Out, stdout: &mut impl Write) {
        if frame[0] == 0x81 {
            return self.keep(now, frame, out, stdout);
        }
        let key = &frame[11..11 + usize::from(frame[10])];
        out.front(now, &self.name, b" hear es ");
        out.hex(key);
        out.word(b" ");
        self.table.hear(now, key, number_at(frame, 5) as u64, out);
        out.end_line(stdout);
    }
}

fn unhex(digits: &str) -> Vec<u8> {
    let value = |digit: u8| if digit > b'9' { digit - b'a' + 10 } else { digit - b'0' };
    digits.as_bytes().chunks_exact(2).map(|pair| 16 * value(pair[0]) + value(pair[1])).collect()
}

fn main() {
    let mut text = String::new();
    std::io::stdin().read_to_string(&mut text).unwrap();
    let mut stdout = std::io::stdout().lock();
    let mut out = Out::new();
    let (mut systems, mut copies, mut cursor, mut clock): (Vec<System>, Vec<(bool, Vec<u8>)>, usize, u64) = (Vec::new(), Vec::new(), 0, 0);
    for line in text.lines() {
        let words: Vec<&str> = line.split(' ').collect();
        match words[0] {
            "system" => {
                let setting = |name: &str, most: usize| words.iter().find_map(|word| word.strip_prefix(name)).map_or(most, |n| n.parse().unwrap());
                systems.push(System {
                    name: words[1].into(),
                    is_router: words[2] == "router",
                    table: Table { limit: setting("neighbours=", 64), until: BTreeMap::new(), soonest: u64::MAX },
                    budget: setting("budget=", 262_144),
                    held: 0,
                    opened: 0,
                    buffers: HashMap::new(),
                });
            }
            "inject" => {
                copies.push((words[3] == "is", unhex(words[4])));
                out.front(clock, b"- inject ", b"");
                out.number(copies.len() as u64);
                for word in &words[1..4] {
                    out.word(b" ");
                    out.word(word.as_bytes());
                }
                out.end_line(&mut stdout);
            }
            "settle" => {
                for _ in 0..words[1].parse::<usize>().unwrap() {
                    let Some((to_routers, frame)) = copies.get(cursor) else { break };
                    cursor += 1;
                    for system in systems.iter_mut().filter(|system| system.is_router == *to_routers) {
                        system.give(clock, frame, &mut out, &mut stdout);
                    }
                }
            }
            "tick" => {
                for _ in 0..words[1].parse::<usize>().unwrap() {
                    clock += 1;
                    for system in &mut systems {
                        system.table.flush(clock, &system.name, &mut out, &mut stdout);
                        system.expire(clock, &mut out, &mut stdout);
                    }
                }
            }
            _ => {}
        }
    }
    out.word(b"end ");
    out.number(clock);
    out.word(b" ");
    out.number(copies.len() as u64);
    out.end_line(&mut stdout);
    out.flush(&mut stdout);
}
