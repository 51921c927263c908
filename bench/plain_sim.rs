// A plain Rust program that writes the journal of a scenario as `clnp sim` does, without proofs: the measure of its
// speed, and of its reassembly. It reads the lines that the measured scenarios have, and trusts them: hosts with one
// port and sealed headers, and the events send, settle, deliver and tick.
use std::collections::HashMap;
use std::io::{Read, Write};

const MOST_AGE: u64 = 256;
const HOLD: u64 = 60;
const LIFE: u64 = 64;
const BLOCK: usize = 65_536;

struct Out {
    text: Vec<u8>,
    digits: [[u8; 2]; 256],
}

impl Out {
    fn new() -> Out {
        let mut digits = [[0; 2]; 256];
        for (octet, pair) in digits.iter_mut().enumerate() {
            *pair = [b"0123456789abcdef"[octet / 16], b"0123456789abcdef"[octet % 16]];
        }
        Out { text: Vec::with_capacity(4 * BLOCK), digits }
    }

    fn word(&mut self, word: &[u8]) {
        self.text.extend_from_slice(word);
    }

    fn number(&mut self, mut number: u64) {
        let mut room = [0; 20];
        let mut at = 20;
        loop {
            at -= 1;
            room[at] = b'0' + (number % 10) as u8;
            number /= 10;
            if number == 0 {
                break;
            }
        }
        self.text.extend_from_slice(&room[at..]);
    }

    fn hex(&mut self, octets: &[u8]) {
        let start = self.text.len();
        self.text.resize(start + 2 * octets.len(), 0);
        for (pair, octet) in self.text[start..].chunks_exact_mut(2).zip(octets) {
            pair.copy_from_slice(&self.digits[*octet as usize]);
        }
    }

    fn front(&mut self, now: u64, name: &[u8], kind: &[u8]) {
        self.number(now);
        self.word(b" ");
        self.word(name);
        self.word(kind);
    }

    fn end_line(&mut self, stdout: &mut impl Write) {
        self.text.push(b'\n');
        if self.text.len() >= BLOCK {
            self.flush(stdout);
        }
    }

    fn flush(&mut self, stdout: &mut impl Write) {
        stdout.write_all(&self.text).unwrap();
        self.text.clear();
    }
}

struct Buffer {
    octets: Vec<u8>,
    ranges: Vec<(usize, usize)>,
    covered: usize,
    size: usize,
    deadline: u64,
    serial: u64,
    first: bool,
}

struct Host {
    name: Vec<u8>,
    address: Vec<u8>,
    budget: usize,
    sent: u64,
    used: u64,
    held: usize,
    opened: u64,
    buffers: HashMap<(usize, u16), Buffer>,
}

struct Copy {
    sender: usize,
    to: usize,
    birth: u64,
    id: u16,
    offset: usize,
    unit_len: usize,
    head: usize,
    frame: Vec<u8>,
}

struct Network {
    mtu: usize,
    clock: u64,
    hosts: Vec<Host>,
    copies: Vec<Copy>,
    cursor: usize,
}

fn seal(header: &mut [u8]) {
    let length = header.len() as i64;
    let (mut first, mut second) = (0i64, 0i64);
    for octet in header.iter() {
        first += *octet as i64;
        second += first;
    }
    let x = ((length - 8) * first - second).rem_euclid(255);
    let y = (second - (length - 7) * first).rem_euclid(255);
    header[7] = if x == 0 { 255 } else { x as u8 };
    header[8] = if y == 0 { 255 } else { y as u8 };
}

// the octets that aren't covered yet become so; whether there are any
fn cover(ranges: &mut Vec<(usize, usize)>, from: usize, to: usize) -> usize {
    let low = ranges.partition_point(|range| range.1 < from);
    let mut high = low;
    let (mut start, mut end, mut there) = (from, to, 0);
    while high < ranges.len() && ranges[high].0 <= to {
        there += ranges[high].1.min(to) - ranges[high].0.max(from);
        start = start.min(ranges[high].0);
        end = end.max(ranges[high].1);
        high += 1;
    }
    if there < to - from {
        ranges.splice(low..high, [(start, end)]);
    }
    to - from - there
}

impl Network {
    fn send(&mut self, from: usize, to: usize, octets: &[u8], out: &mut Out, stdout: &mut impl Write) {
        let (source, destination) = (self.hosts[from].address.clone(), self.hosts[to].address.clone());
        let host = &mut self.hosts[from];
        let id = (host.used % 65_536) as u16;
        host.used += 1;
        host.sent += 1;
        let head = 9 + 1 + destination.len() + 1 + source.len() + 6;
        let name = host.name.clone();
        out.front(self.clock, &name, b" sent dt ");
        out.number(host.sent);
        out.word(b" ");
        out.hex(&id.to_be_bytes());
        out.word(b" ");
        out.hex(&source);
        out.word(b" ");
        out.hex(&destination);
        out.word(b" ");
        out.number(octets.len() as u64);
        out.end_line(stdout);
        let total = head + octets.len();
        let room = if total <= self.mtu { octets.len().max(1) } else { (self.mtu - head) / 8 * 8 };
        let mut at = 0;
        loop {
            let end = (at + room).min(octets.len());
            let more = if end < octets.len() { 0x40 } else { 0 };
            let mut frame = Vec::with_capacity(head + end - at);
            frame.extend_from_slice(&[0x81, head as u8, 1, LIFE as u8, 0xa0 | more | 28]);
            frame.extend_from_slice(&((head + end - at) as u16).to_be_bytes());
            frame.extend_from_slice(&[0, 0, destination.len() as u8]);
            frame.extend_from_slice(&destination);
            frame.push(source.len() as u8);
            frame.extend_from_slice(&source);
            for value in [id, at as u16, total as u16] {
                frame.extend_from_slice(&value.to_be_bytes());
            }
            seal(&mut frame);
            frame.extend_from_slice(&octets[at..end]);
            out.front(self.clock, &name, b" tx ");
            out.number(self.copies.len() as u64 + 1);
            out.word(b" 0 es ");
            out.hex(&frame);
            out.end_line(stdout);
            self.copies.push(Copy { sender: from, to, birth: self.clock, id, offset: at, unit_len: octets.len(), head, frame });
            at = end;
            if at >= octets.len() {
                break;
            }
        }
    }

    fn give(&mut self, number: usize, place: usize, out: &mut Out, stdout: &mut impl Write) {
        let copy = &self.copies[number - 1];
        let (to, from) = (copy.to, copy.sender);
        let source = self.hosts[from].address.clone();
        let destination = self.hosts[to].address.clone();
        let host = &mut self.hosts[place];
        if self.clock > copy.birth + MOST_AGE {
            out.front(self.clock, &host.name, b" late ");
            out.number(number as u64);
        } else if to != place {
            out.front(self.clock, &host.name, b" notmine ");
            out.hex(&destination);
        } else {
            let octets = &copy.frame[copy.head..];
            if octets.len() == copy.unit_len {
                got(self.clock, host, &source, &destination, octets, out);
            } else {
                keep(self.clock, host, copy, &source, &destination, out);
            }
        }
        out.end_line(stdout);
    }

    fn settle(&mut self, out: &mut Out, stdout: &mut impl Write) {
        if self.cursor < self.copies.len() {
            self.cursor += 1;
            let sender = self.copies[self.cursor - 1].sender;
            for place in 0..self.hosts.len() {
                if place != sender {
                    self.give(self.cursor, place, out, stdout);
                }
            }
        }
    }

    fn deliver(&mut self, number: usize, place: usize, out: &mut Out, stdout: &mut impl Write) {
        if number <= self.copies.len() && self.copies[number - 1].sender != place {
            return self.give(number, place, out, stdout);
        }
        out.front(self.clock, &self.hosts[place].name, b" void ");
        out.number(number as u64);
        out.end_line(stdout);
    }

    fn tick(&mut self, out: &mut Out, stdout: &mut impl Write) {
        self.clock += 1;
        let now = self.clock;
        for host in &mut self.hosts {
            while let Some(key) =
                host.buffers.iter().filter(|b| b.1.deadline <= now).min_by_key(|b| (b.1.deadline, b.1.serial)).map(|b| *b.0)
            {
                let buffer = host.buffers.remove(&key).unwrap();
                host.held -= buffer.size;
                out.front(now, &host.name, b" expired ");
                out.hex(&key.1.to_be_bytes());
                out.word(b" ");
                out.number(host.held as u64);
                out.end_line(stdout);
                if buffer.first {
                    out.front(now, &host.name, b" drop a1 00");
                    out.end_line(stdout);
                }
            }
        }
    }
}

fn got(now: u64, host: &Host, source: &[u8], destination: &[u8], octets: &[u8], out: &mut Out) {
    out.front(now, &host.name, b" got ");
    out.hex(source);
    out.word(b" ");
    out.hex(destination);
    out.word(b" ");
    if octets.is_empty() {
        out.word(b"-");
    }
    out.hex(octets);
}

fn keep(now: u64, host: &mut Host, copy: &Copy, source: &[u8], destination: &[u8], out: &mut Out) {
    let key = (copy.sender, copy.id);
    let size = copy.frame.len();
    let octets = &copy.frame[copy.head..];
    if host.held + size > host.budget {
        panic!("the measured scenarios keep their budgets");
    }
    host.opened += 1;
    let serial = host.opened;
    let buffer = host.buffers.entry(key).or_insert_with(|| Buffer {
        octets: vec![0; copy.unit_len],
        ranges: Vec::new(),
        covered: 0,
        size: 0,
        deadline: now + HOLD.min(LIFE),
        serial,
        first: false,
    });
    let new = cover(&mut buffer.ranges, copy.offset, copy.offset + octets.len());
    if new == 0 {
        out.front(now, &host.name, b" repeat ");
        out.hex(&copy.id.to_be_bytes());
        out.word(b" ");
        out.number(copy.offset as u64);
        return;
    }
    buffer.octets[copy.offset..copy.offset + octets.len()].copy_from_slice(octets);
    buffer.covered += new;
    buffer.size += size;
    buffer.first |= copy.offset == 0;
    host.held += size;
    if buffer.covered == copy.unit_len {
        let buffer = host.buffers.remove(&key).unwrap();
        host.held -= buffer.size;
        got(now, host, source, destination, &buffer.octets, out);
        return;
    }
    out.front(now, &host.name, b" held ");
    out.hex(&copy.id.to_be_bytes());
    out.word(b" ");
    out.number(copy.offset as u64);
    out.word(b" ");
    out.number(host.held as u64);
}

fn unhex(digits: &str) -> Vec<u8> {
    (0..digits.len() / 2).map(|at| u8::from_str_radix(&digits[2 * at..2 * at + 2], 16).unwrap()).collect()
}

fn main() {
    let mut text = String::new();
    std::io::stdin().read_to_string(&mut text).unwrap();
    let mut stdout = std::io::stdout().lock();
    let mut out = Out::new();
    let mut network = Network { mtu: 0, clock: 0, hosts: Vec::new(), copies: Vec::new(), cursor: 0 };
    for line in text.lines() {
        let words: Vec<&str> = line.split(' ').collect();
        let place = |hosts: &[Host], name: &str| hosts.iter().position(|host| host.name == name.as_bytes()).unwrap();
        match words[0] {
            "subnet" => network.mtu = words[2].parse().unwrap(),
            "system" => {
                let budget = words.iter().find_map(|word| word.strip_prefix("budget=")).map_or(262_144, |n| n.parse().unwrap());
                network.hosts.push(Host {
                    name: words[1].into(),
                    address: Vec::new(),
                    budget,
                    sent: 0,
                    used: 0,
                    held: 0,
                    opened: 0,
                    buffers: HashMap::new(),
                });
            }
            "address" => {
                let at = place(&network.hosts, words[1]);
                network.hosts[at].address = unhex(words[2]);
            }
            "send" => {
                let from = place(&network.hosts, words[1]);
                let destination = unhex(words[3]);
                let to = network.hosts.iter().position(|host| host.address == destination).unwrap();
                let fields: Vec<usize> = words[4][4..].split(':').map(|field| field.parse().unwrap()).collect();
                let octets: Vec<u8> = (0..fields[0]).map(|at| ((at + at / 256 + fields[1]) % 256) as u8).collect();
                network.send(from, to, &octets, &mut out, &mut stdout);
            }
            "settle" => {
                for _ in 0..words[1].parse::<usize>().unwrap() {
                    network.settle(&mut out, &mut stdout);
                }
            }
            "tick" => {
                for _ in 0..words[1].parse::<usize>().unwrap() {
                    network.tick(&mut out, &mut stdout);
                }
            }
            "deliver" => {
                let at = place(&network.hosts, words[2]);
                network.deliver(words[1].parse().unwrap(), at, &mut out, &mut stdout);
            }
            _ => {}
        }
    }
    out.word(b"end ");
    out.number(network.clock);
    out.word(b" ");
    out.number(network.copies.len() as u64);
    out.end_line(&mut stdout);
    out.flush(&mut stdout);
}
