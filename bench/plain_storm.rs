// A plain Rust program that runs the scenario of a seed as `clnp storm` does, without proofs: the measure of its speed.
// It has the one network of those scenarios, whose frames are real: headers with checksums are made, changed and read,
// and data are shared. It counts what a journal would tell, and writes none.
// usage: plain_storm SEED
use std::collections::VecDeque;
use std::rc::Rc;

const MOST_AGE: u64 = 40;
const HOLD: u64 = 20;
const REUSE: u64 = 60;
const LIFE: u8 = 32;
const PERIOD: u64 = 120;
const HELD: u16 = 240;
const REDIRECT_HELD: u16 = 120;
const SLOTS: usize = 16;
const SEGMENTS: usize = 1024;
const BUDGET: usize = 262_144;
const MOST_OCTETS: usize = 64_512;
const NEIGHBOURS: usize = 64;
const ROUTERS: usize = 8;
const REDIRECTS: usize = 64;
const MTUS: [usize; 3] = [1500, 512, 1024];

const DT: u8 = 28;
const ER: u8 = 1;
const ERQ: u8 = 30;
const ERP: u8 = 31;

type Address = [u8; 5];

#[derive(Clone, Copy, PartialEq)]
enum Target {
    System(u8),
    EndSystems,
    Routers,
}

// a part of shared octets
#[derive(Clone)]
struct Data {
    all: Rc<[u8]>,
    from: usize,
    len: usize,
}

impl Data {
    fn of(octets: Vec<u8>) -> Data {
        let len = octets.len();
        Data { all: octets.into(), from: 0, len }
    }

    fn bytes(&self) -> &[u8] {
        &self.all[self.from..self.from + self.len]
    }

    fn part(&self, from: usize, len: usize) -> Data {
        Data { all: self.all.clone(), from: self.from + from, len }
    }
}

// a header of at most 64 octets, as those of this network are
#[derive(Clone, Copy)]
struct Head {
    octets: [u8; 64],
    len: usize,
}

impl Head {
    fn new() -> Head {
        Head { octets: [0; 64], len: 0 }
    }

    fn push(&mut self, octets: &[u8]) {
        self.octets[self.len..self.len + octets.len()].copy_from_slice(octets);
        self.len += octets.len();
    }

    fn bytes(&self) -> &[u8] {
        &self.octets[..self.len]
    }

    fn field(&mut self, octets: &[u8]) {
        self.push(&[octets.len() as u8]);
        self.push(octets);
    }

    fn sums(&self) -> (i64, i64) {
        let (mut first, mut second) = (0i64, 0i64);
        for octet in self.bytes() {
            first += *octet as i64;
            second += first;
        }
        (first, second)
    }

    fn seal(&mut self) {
        self.octets[7] = 0;
        self.octets[8] = 0;
        let (first, second) = self.sums();
        let length = self.len as i64;
        self.octets[7] = written((length - 8) * first - second);
        self.octets[8] = written(second - (length - 7) * first);
    }

    fn is_right(&self) -> bool {
        let (first, second) = self.sums();
        first % 255 == 0 && second % 255 == 0
    }

    fn set(&mut self, place: usize, new: u8) {
        let change = new as i64 - self.octets[place - 1] as i64;
        let k = place as i64;
        self.octets[7] = written(self.octets[7] as i64 + (k - 9) * change);
        self.octets[8] = written(self.octets[8] as i64 + (8 - k) * change);
        self.octets[place - 1] = new;
    }

    fn set_pair(&mut self, place: usize, value: usize) {
        self.set(place, (value >> 8) as u8);
        self.set(place + 1, value as u8);
    }

    fn pair(&self, place: usize) -> usize {
        256 * self.octets[place - 1] as usize + self.octets[place] as usize
    }
}

fn written(sum: i64) -> u8 {
    match sum.rem_euclid(255) {
        0 => 255,
        rest => rest as u8,
    }
}

// the place of the segmentation part: behind two addresses of five octets
const PART: usize = 22;

// what a header tells
struct Pdu {
    kind: u8,
    life: u8,
    report: bool,
    to: Address,
    from: Address,
    part: Option<(usize, usize, usize)>,
}

fn read(head: &Head) -> Pdu {
    assert!(head.is_right());
    let octets = head.bytes();
    let flags = octets[4];
    let part = (flags & 0x80 != 0).then(|| (head.pair(PART), head.pair(PART + 2), head.pair(PART + 4)));
    Pdu {
        kind: flags & 31,
        life: octets[3],
        report: flags & 0x20 != 0,
        to: octets[10..15].try_into().unwrap(),
        from: octets[16..21].try_into().unwrap(),
        part,
    }
}

struct Copy {
    subnet: u8,
    sender: u8,
    target: Target,
    birth: u64,
    head: Head,
    data: Data,
}

struct Unit {
    kind: u8,
    to: Address,
    from: Address,
    id: Option<u16>,
    report: bool,
    reason: Option<u8>,
    data: Data,
}

struct Buffer {
    key: (Address, Address, usize),
    shape: (u8, usize, usize),
    deadline: u64,
    octets: Vec<u8>,
    ranges: Vec<(usize, usize)>,
    covered: usize,
    size: usize,
    kept: usize,
    first: Option<(Head, Address, bool)>,
}

struct Entry {
    key: Address,
    port: usize,
    snpa: u8,
    until: u64,
}

struct Request {
    from: Address,
    to: Address,
    data: Data,
}

struct Port {
    subnet: u8,
    snpa: u8,
}

struct System {
    is_router: bool,
    address: Address,
    ports: Vec<Port>,
    route: Option<([u8; 4], usize, u8, Address)>,
    uses: Vec<Option<u64>>,
    next_id: u16,
    quiet: u64,
    due: u64,
    pending: VecDeque<Request>,
    buffers: Vec<Buffer>,
    held: usize,
    kept: usize,
    neighbours: Vec<Entry>,
    routers: Vec<Entry>,
    redirects: Vec<Entry>,
}

#[derive(Default)]
struct Counts {
    got: u64,
    reports: u64,
    echoed: u64,
    drops: u64,
    expired: u64,
}

struct Network {
    clock: u64,
    systems: Vec<System>,
    copies: Vec<Copy>,
    cursor: usize,
    counts: Counts,
}

// whether the key is new; at most so many are known
fn hear(entries: &mut Vec<Entry>, most: usize, entry: Entry) -> bool {
    if let Some(at) = entries.iter().position(|other| other.key == entry.key) {
        entries.remove(at);
        entries.push(entry);
        return false;
    }
    if entries.len() < most {
        entries.push(entry);
        return true;
    }
    false
}

fn find<'a>(entries: &'a [Entry], key: &Address) -> Option<&'a Entry> {
    entries.iter().find(|entry| entry.key == *key)
}

// the octets of a segment that aren't there yet come to stand; how many they are
fn fill(buffer: &mut Buffer, from: usize, octets: &[u8]) -> usize {
    let to = from + octets.len();
    let low = buffer.ranges.partition_point(|range| range.1 < from);
    let mut high = low;
    let (mut start, mut end, mut at, mut new) = (from, to, from, 0);
    while high < buffer.ranges.len() && buffer.ranges[high].0 <= to {
        let (first, last) = buffer.ranges[high];
        if first > at {
            buffer.octets[at..first].copy_from_slice(&octets[at - from..first - from]);
            new += first - at;
        }
        at = at.max(last);
        start = start.min(first);
        end = end.max(last);
        high += 1;
    }
    if at < to {
        buffer.octets[at..to].copy_from_slice(&octets[at - from..]);
        new += to - at;
    }
    if new > 0 {
        buffer.ranges.splice(low..high, [(start, end)]);
    }
    new
}

fn covers(buffer: &Buffer, from: usize, to: usize) -> bool {
    from == to || buffer.ranges.iter().any(|range| range.0 <= from && to <= range.1)
}

impl System {
    fn new(is_router: bool, address: Address, ports: &[(u8, u8)]) -> System {
        System {
            is_router,
            address,
            ports: ports.iter().map(|port| Port { subnet: port.0, snpa: port.1 }).collect(),
            route: None,
            uses: Vec::new(),
            next_id: 0,
            quiet: 0,
            due: 0,
            pending: VecDeque::new(),
            buffers: Vec::new(),
            held: 0,
            kept: 0,
            neighbours: Vec::new(),
            routers: Vec::new(),
            redirects: Vec::new(),
        }
    }

    fn restart(&mut self, now: u64) {
        self.uses.clear();
        self.next_id = 0;
        self.quiet = now + REUSE;
        self.due = now;
        self.pending.clear();
        self.buffers.clear();
        self.held = 0;
        self.kept = 0;
        self.neighbours.clear();
        self.routers.clear();
        self.redirects.clear();
    }

    fn draw(&mut self, now: u64) -> Option<u16> {
        if now < self.quiet {
            return None;
        }
        let id = self.next_id as usize;
        if id < self.uses.len() {
            if self.uses[id].is_some_and(|used| used + REUSE > now) {
                return None;
            }
            self.uses[id] = Some(now);
        } else {
            self.uses.push(Some(now));
        }
        self.next_id = self.next_id.wrapping_add(1);
        Some(id as u16)
    }

    fn forget(&mut self, now: u64) {
        for entries in [&mut self.neighbours, &mut self.routers, &mut self.redirects] {
            entries.retain(|entry| entry.until > now);
        }
    }

    // by which port a copy comes in
    fn entry(&self, copy: &Copy) -> Option<usize> {
        self.ports.iter().position(|port| {
            port.subnet == copy.subnet
                && match copy.target {
                    Target::System(snpa) => snpa == port.snpa,
                    Target::EndSystems => !self.is_router && port.snpa != copy.sender,
                    Target::Routers => self.is_router && port.snpa != copy.sender,
                }
        })
    }

    // a router's next hop: its port, who is there, and the title that a redirect tells
    fn way(&self, to: &Address) -> Option<(usize, u8, Option<Address>)> {
        if let Some(entry) = find(&self.neighbours, to) {
            return Some((entry.port, entry.snpa, None));
        }
        let (prefix, port, snpa, title) = self.route?;
        (prefix == to[..4]).then_some((port, snpa, Some(title)))
    }

    fn next_hop(&self, to: &Address) -> Option<(usize, Target)> {
        if self.is_router {
            return self.way(to).map(|(port, snpa, _)| (port, Target::System(snpa)));
        }
        let found = find(&self.redirects, to).or_else(|| find(&self.neighbours, to)).or(self.routers.last());
        Some(found.map_or((0, Target::EndSystems), |entry| (entry.port, Target::System(entry.snpa))))
    }
}

impl Network {
    fn put(&mut self, place: usize, port: usize, target: Target, birth: u64, head: Head, data: Data) {
        let Port { subnet, snpa } = self.systems[place].ports[port];
        self.copies.push(Copy { subnet, sender: snpa, target, birth, head, data });
    }

    // hellos and redirects

    fn says(&mut self, place: usize, port: usize, target: Target) {
        let system = &self.systems[place];
        let mut head = Head::new();
        let kind = if system.is_router { 4 } else { 2 };
        head.push(&[0x82, 0, 1, 0, kind, 0, HELD as u8 / 2, 0, 0]);
        if !system.is_router {
            head.push(&[1]);
        }
        head.field(&system.address);
        head.octets[1] = head.len as u8;
        head.octets[5..7].copy_from_slice(&(HELD / 2).to_be_bytes());
        head.seal();
        self.put(place, port, target, self.clock, head, Data::of(Vec::new()));
    }

    fn hears(&mut self, place: usize, port: usize, number: usize) {
        let Copy { sender, head, .. } = self.copies[number];
        assert!(head.is_right());
        let octets = head.bytes();
        let until = self.clock + 2 * head.pair(6) as u64;
        let system = &mut self.systems[place];
        let address = |from: usize| -> Address { octets[from..from + 5].try_into().unwrap() };
        match octets[4] {
            2 => {
                let entry = Entry { key: address(11), port, snpa: sender, until };
                if hear(&mut system.neighbours, NEIGHBOURS, entry) && system.is_router {
                    self.says(place, port, Target::System(sender));
                }
            }
            4 if !system.is_router => {
                let entry = Entry { key: address(10), port, snpa: sender, until };
                if hear(&mut system.routers, ROUTERS, entry) {
                    self.says(place, port, Target::System(sender));
                }
            }
            6 if !system.is_router && system.routers.iter().any(|router| router.snpa == sender) => {
                let entry = Entry { key: address(10), port, snpa: octets[16], until };
                hear(&mut system.redirects, REDIRECTS, entry);
            }
            _ => {}
        }
    }

    fn redirect(&mut self, place: usize, port: usize, to: &Address, source: u8, via: u8, title: Option<Address>) {
        let mut head = Head::new();
        head.push(&[0x82, 0, 1, 0, 6, 0, 0, 0, 0]);
        head.octets[5..7].copy_from_slice(&REDIRECT_HELD.to_be_bytes());
        head.field(to);
        head.field(&[via]);
        head.field(title.as_ref().map_or(&[], |title| title.as_slice()));
        head.octets[1] = head.len as u8;
        head.seal();
        self.put(place, port, Target::System(source), self.clock, head, Data::of(Vec::new()));
    }

    // units

    fn make(&mut self, place: usize, unit: Unit) {
        let mut head = Head::new();
        let flags = if unit.id.is_some() { 0x80 } else { 0 } | if unit.report { 0x20 } else { 0 } | unit.kind;
        head.push(&[0x81, 0, 1, LIFE, flags, 0, 0, 0, 0]);
        head.field(&unit.to);
        head.field(&unit.from);
        if let Some(id) = unit.id {
            head.push(&id.to_be_bytes());
            head.push(&[0; 4]);
        }
        if let Some(reason) = unit.reason {
            head.push(&[0xc1, 2, reason, 0]);
        }
        let total = head.len + unit.data.len;
        head.octets[1] = head.len as u8;
        head.octets[5..7].copy_from_slice(&(total as u16).to_be_bytes());
        if unit.id.is_some() {
            head.octets[PART + 3..PART + 5].copy_from_slice(&(total as u16).to_be_bytes());
        }
        head.seal();
        if unit.kind == ERQ {
            let pending = &mut self.systems[place].pending;
            if pending.len() == 8 {
                pending.pop_front();
            }
            pending.push_back(Request { from: unit.from, to: unit.to, data: unit.data.clone() });
        }
        let system = &self.systems[place];
        let hop = if system.is_router && unit.to == system.address { None } else { system.next_hop(&unit.to) };
        match hop {
            Some((port, target)) if self.goes_on(place, port, target, self.clock, head, &unit.data) => {}
            _ => self.counts.drops += 1,
        }
    }

    // what an MTU takes of a PDU goes out piece by piece, if it may be cut where it must
    fn goes_on(&mut self, place: usize, port: usize, target: Target, birth: u64, head: Head, data: &Data) -> bool {
        let mtu = MTUS[self.systems[place].ports[port].subnet as usize];
        if head.len + data.len <= mtu {
            self.put(place, port, target, birth, head, data.clone());
            return true;
        }
        if head.octets[4] & 0x80 == 0 {
            return false;
        }
        let room = (mtu - head.len) / 8 * 8;
        let (offset, flags) = (head.pair(PART + 2), head.octets[4]);
        for at in (0..data.len).step_by(room) {
            let len = room.min(data.len - at);
            let mut piece = head;
            piece.set_pair(6, head.len + len);
            piece.set_pair(PART + 2, offset + at);
            piece.set(5, if at + len < data.len { flags | 0x40 } else { flags });
            self.put(place, port, target, birth, piece, data.part(at, len));
        }
        true
    }

    fn discard(&mut self, place: usize, head: &Head, to: Address, report: bool, reason: u8) {
        self.counts.drops += 1;
        if report {
            let from = self.systems[place].address;
            let data = Data::of(head.bytes().to_vec());
            self.make(place, Unit { kind: ER, to, from, id: None, report: false, reason: Some(reason), data });
        }
    }

    fn ask(&mut self, place: usize, kind: u8, to: Address, data: Data) {
        let system = &mut self.systems[place];
        let from = system.address;
        let needs = kind == DT || 21 + data.len > 512;
        let id = if needs { system.draw(self.clock) } else { None };
        if data.len <= MOST_OCTETS && needs == id.is_some() {
            self.make(place, Unit { kind, to, from, id, report: kind != ERP, reason: None, data });
        }
    }

    fn forward(&mut self, place: usize, port: usize, number: usize, pdu: &Pdu) {
        let Copy { sender, birth, mut head, ref data, .. } = self.copies[number];
        let data = data.clone();
        let report = pdu.report && pdu.kind != ER;
        let Some((out, snpa, title)) = self.systems[place].way(&pdu.to) else {
            return self.discard(place, &head, pdu.from, report, 0x81);
        };
        if pdu.life <= 1 {
            return self.discard(place, &head, pdu.from, report, 0xa0);
        }
        let came = head;
        head.set(4, pdu.life - 1);
        if !self.goes_on(place, out, Target::System(snpa), birth, head, &data) {
            return self.discard(place, &came, pdu.from, report, 0x05);
        }
        let is_first = pdu.part.is_none_or(|part| part.1 == 0);
        let known = find(&self.systems[place].neighbours, &pdu.from);
        if out == port && is_first && known.is_some_and(|entry| entry.port == port && entry.snpa == sender) {
            self.redirect(place, port, &pdu.to, sender, snpa, title);
        }
    }

    fn whole(&mut self, place: usize, pdu: &Pdu, data: Data) {
        match pdu.kind {
            DT => self.counts.got += 1,
            ER => self.counts.reports += 1,
            ERQ => self.ask(place, ERP, pdu.from, data),
            _ => {
                let pending = &mut self.systems[place].pending;
                let answered = pending.iter().position(|request| {
                    request.from == pdu.to && request.to == pdu.from && request.data.bytes() == data.bytes()
                });
                if let Some(at) = answered {
                    pending.remove(at);
                    self.counts.echoed += 1;
                }
            }
        }
    }

    fn offer(&mut self, place: usize, number: usize, pdu: &Pdu, part: (usize, usize, usize)) {
        let Copy { head, ref data, .. } = self.copies[number];
        let data = data.clone();
        let (id, offset, total) = part;
        let (key, shape) = ((pdu.from, pdu.to, id), (pdu.kind, total, head.len));
        let (size, end) = (head.len + data.len, offset + data.len);
        let report = pdu.report && pdu.kind != ER;
        let now = self.clock;
        let system = &mut self.systems[place];
        let found = system.buffers.iter().position(|buffer| buffer.key == key);
        match found {
            Some(at) if system.buffers[at].shape != shape => {
                return self.discard(place, &head, pdu.from, report, 0xc0);
            }
            Some(at) if covers(&system.buffers[at], offset, end) => return,
            None if offset == end => return,
            _ => {}
        }
        let is_full = found.is_none() && system.buffers.len() >= SLOTS;
        if is_full || system.held + size > BUDGET || system.kept >= SEGMENTS {
            return self.discard(place, &head, pdu.from, report, 0x03);
        }
        let at = found.unwrap_or_else(|| {
            system.buffers.push(Buffer {
                key,
                shape,
                deadline: now + HOLD.min(pdu.life as u64),
                octets: vec![0; total - head.len],
                ranges: Vec::new(),
                covered: 0,
                size: 0,
                kept: 0,
                first: None,
            });
            system.buffers.len() - 1
        });
        let buffer = &mut system.buffers[at];
        buffer.covered += fill(buffer, offset, data.bytes());
        buffer.size += size;
        buffer.kept += 1;
        if offset == 0 && buffer.first.is_none() {
            buffer.first = Some((head, pdu.from, report));
        }
        system.held += size;
        system.kept += 1;
        if buffer.covered == buffer.octets.len() {
            let buffer = system.buffers.remove(at);
            system.held -= buffer.size;
            system.kept -= buffer.kept;
            self.whole(place, pdu, Data::of(buffer.octets));
        }
    }

    // moves

    fn give(&mut self, number: usize, place: usize, port: usize) {
        let Copy { sender, target, birth, ref head, ref data, .. } = self.copies[number];
        if self.clock > birth + MOST_AGE {
            return;
        }
        if head.octets[0] == 0x82 {
            return self.hears(place, port, number);
        }
        let pdu = read(head);
        if pdu.to != self.systems[place].address {
            if self.systems[place].is_router {
                self.forward(place, port, number, &pdu);
            }
            return;
        }
        let data = data.clone();
        match pdu.part {
            Some(part) if data.len != part.2 - head.len => self.offer(place, number, &pdu, part),
            _ => self.whole(place, &pdu, data),
        }
        if target == Target::EndSystems {
            self.says(place, port, Target::System(sender));
        }
    }

    fn settle(&mut self, count: u64) {
        for _ in 0..count {
            if self.cursor == self.copies.len() {
                return;
            }
            let number = self.cursor;
            self.cursor += 1;
            for place in 0..self.systems.len() {
                if let Some(port) = self.systems[place].entry(&self.copies[number]) {
                    self.give(number, place, port);
                }
            }
        }
    }

    fn lose(&mut self, count: u64) {
        self.cursor = self.copies.len().min(self.cursor + count as usize);
    }

    fn deliver(&mut self, number: u64, place: usize) {
        let number = number as usize - 1;
        if let Some(port) = self.copies.get(number).and_then(|copy| self.systems[place].entry(copy)) {
            self.give(number, place, port);
        }
    }

    fn tick(&mut self, count: u64) {
        for _ in 0..count {
            self.clock += 1;
            for place in 0..self.systems.len() {
                self.expire(place);
                self.systems[place].forget(self.clock);
                if self.systems[place].due <= self.clock {
                    self.systems[place].due = self.clock + PERIOD;
                    let target = if self.systems[place].is_router { Target::EndSystems } else { Target::Routers };
                    for port in 0..self.systems[place].ports.len() {
                        self.says(place, port, target);
                    }
                }
            }
        }
    }

    fn expire(&mut self, place: usize) {
        let now = self.clock;
        loop {
            let system = &mut self.systems[place];
            let due = system.buffers.iter().enumerate().filter(|(_, buffer)| buffer.deadline <= now);
            let Some((at, _)) = due.min_by_key(|(at, buffer)| (buffer.deadline, *at)) else {
                return;
            };
            let buffer = system.buffers.remove(at);
            system.held -= buffer.size;
            system.kept -= buffer.kept;
            self.counts.expired += 1;
            if let Some((head, from, report)) = buffer.first {
                self.discard(place, &head, from, report, 0xa1);
            }
        }
    }
}

fn network() -> Network {
    let address = |net: u8, system: u8| [0x47, 0, 0x27, net, system];
    let mut systems = vec![
        System::new(false, address(1, 1), &[(0, 0x01)]),
        System::new(false, address(1, 2), &[(0, 0x02)]),
        System::new(true, address(1, 0xff), &[(0, 0x0a), (1, 0x0b)]),
        System::new(true, address(2, 0xff), &[(1, 0x0c), (2, 0x0d)]),
        System::new(false, address(2, 1), &[(2, 0x03)]),
        System::new(false, address(2, 2), &[(2, 0x04)]),
    ];
    systems[2].route = Some(([0x47, 0, 0x27, 2], 1, 0x0c, address(2, 0xff)));
    systems[3].route = Some(([0x47, 0, 0x27, 1], 0, 0x0b, address(1, 0xff)));
    Network { clock: 0, systems, copies: Vec::new(), cursor: 0, counts: Counts::default() }
}

const HOSTS: [usize; 4] = [0, 1, 4, 5];

fn pick(state: &mut u64, below: u64) -> u64 {
    *state = state.wrapping_mul(6_364_136_223_846_793_005).wrapping_add(1_442_695_040_888_963_407);
    (*state >> 33) % below
}

fn main() {
    let seed: u64 = std::env::args().nth(1).and_then(|word| word.parse().ok()).expect("a seed");
    let (mut state, mut events, mut network) = (seed, 605, network());
    network.tick(1);
    network.settle(40);
    for _ in 0..300 {
        let state = &mut state;
        match pick(state, 10) {
            kind @ 0..=5 => {
                let (host, other) = (HOSTS[pick(state, 4) as usize], HOSTS[pick(state, 4) as usize]);
                let most = if kind < 5 { 6000 } else { 600 };
                let (len, start) = (pick(state, most) as usize, pick(state, 256) as usize);
                let octets = (0..len).map(|at| (at + at / 256 + start) as u8).collect();
                let to = network.systems[other].address;
                network.ask(host, if kind < 5 { DT } else { ERQ }, to, Data::of(octets));
            }
            6 => {
                let copy = 1 + pick(state, 2000);
                network.deliver(copy, pick(state, 6) as usize);
            }
            7 => network.lose(1 + pick(state, 5)),
            8 => network.tick(1 + pick(state, 10)),
            _ if pick(state, 8) == 0 => {
                let place = pick(state, 6) as usize;
                let now = network.clock;
                network.systems[place].restart(now);
            }
            _ => events -= 1,
        }
        network.settle(1 + pick(state, 30));
    }
    network.settle(100_000);
    network.tick(200);
    network.settle(100_000);
    let Counts { got, reports, echoed, drops, expired } = network.counts;
    let (copies, clock) = (network.copies.len(), network.clock);
    println!("storm {seed} events {events} copies {copies} got {got} reports {reports} echoed {echoed} drops {drops} expired {expired} end {clock}");
    // as clnp leaves its own to the end of the process
    std::mem::forget(network);
}
