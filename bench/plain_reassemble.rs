// A plain Rust program that joins the units of captured traffic as `clnp reassemble` does, without proofs: the measure of its
// speed. Of a text it takes each line as it should be and ends with status 3 where it isn't. A buffer has the unit's octets and
// the holes that are left in them; a source's table is found by a map.
use std::collections::HashMap;
use std::io::{Read, Write};

const BLOCK: usize = 65_536;

static DIGITS: [[u8; 2]; 256] = {
    let mut digits = [[0; 2]; 256];
    let mut octet = 0;
    while octet < 256 {
        digits[octet] = [b"0123456789abcdef"[octet / 16], b"0123456789abcdef"[octet % 16]];
        octet += 1;
    }
    digits
};

// the value of each digit, and 255 for every other character
static VALUES: [u8; 256] = {
    let mut values = [255; 256];
    let mut value = 0;
    while value < 16 {
        values[b"0123456789abcdef"[value] as usize] = value as u8;
        values[b"0123456789ABCDEF"[value] as usize] = value as u8;
        value += 1;
    }
    values
};

fn pair(b: &[u8], place: usize) -> usize {
    256 * b[place - 1] as usize + b[place] as usize
}

fn push_hex(out: &mut Vec<u8>, octets: &[u8]) {
    let start = out.len();
    out.resize(start + 2 * octets.len(), 0);
    for (pair, octet) in out[start..].chunks_exact_mut(2).zip(octets) {
        pair.copy_from_slice(&DIGITS[*octet as usize]);
    }
}

fn push_number(out: &mut Vec<u8>, mut number: usize) {
    let mut room = [0; 20];
    let mut at = 20;
    loop {
        at -= 1;
        room[at] = b'0' + (number % 10) as u8;
        number /= 10;
        if number == 0 {
            break;
        }
    }
    out.extend_from_slice(&room[at..]);
}

fn bad() -> ! {
    std::process::exit(3)
}

// the octets that digits spell, in one pass
fn read_hex(digits: &[u8]) -> Vec<u8> {
    let mut octets = vec![0; digits.len() / 2];
    let mut seen = 0;
    for (octet, pair) in octets.iter_mut().zip(digits.chunks_exact(2)) {
        let (high, low) = (VALUES[pair[0] as usize], VALUES[pair[1] as usize]);
        seen |= high | low;
        *octet = high << 4 | low;
    }
    if digits.len() % 2 != 0 || seen > 15 {
        bad();
    }
    octets
}

fn read_number(word: &[u8], low: u64, high: u64) -> u64 {
    let mut number: u64 = 0;
    for digit in word {
        if !digit.is_ascii_digit() || number > 1 << 32 {
            bad();
        }
        number = 10 * number + u64::from(digit - b'0');
    }
    if word.is_empty() || number < low || number > high {
        bad();
    }
    number
}

fn bad_address(b: &[u8], l: usize, place: usize) -> bool {
    place > l || b[place - 1] == 0 || b[place - 1] > 20 || place + b[place - 1] as usize > l
}

fn right(head: &[u8]) -> bool {
    match (head[7], head[8]) {
        (0, 0) => true,
        (0, _) | (_, 0) => false,
        _ => {
            let (mut c0, mut c1) = (0u32, 0u32);
            for octet in head {
                c0 += *octet as u32;
                c1 += c0;
            }
            c0 % 255 == 0 && c1 % 255 == 0
        }
    }
}

// the least broken rule with its reason and place, or where the options begin
fn judge(b: &[u8]) -> Result<usize, (u8, u8, usize)> {
    if b.len() < 9 {
        return Err((1, 0x06, 0));
    }
    let l = b[1] as usize;
    if l < 9 || l == 255 {
        return Err((2, 0x04, 2));
    }
    if l > b.len() {
        return Err((3, 0x06, 2));
    }
    if b[2] != 1 {
        return Err((4, 0xb1, 3));
    }
    if !right(&b[..l]) {
        return Err((5, 0x02, 0));
    }
    let kind = b[4] & 0x1f;
    if ![1, 28, 30, 31].contains(&kind) {
        return Err((6, 0x04, 5));
    }
    let (sp, ms) = (b[4] & 0x80 != 0, b[4] & 0x40 != 0);
    if ms && !sp {
        return Err((7, 0x04, 5));
    }
    if bad_address(b, l, 10) {
        return Err((8, 0x04, 10));
    }
    let source = 11 + b[9] as usize;
    if bad_address(b, l, source) {
        return Err((9, 0x04, source));
    }
    let part = source + 1 + b[source - 1] as usize;
    if sp && part + 5 > l {
        return Err((10, 0x04, part));
    }
    let segment = pair(b, 6);
    if segment < l {
        return Err((11, 0x04, 6));
    }
    if segment > b.len() {
        return Err((12, 0x06, 6));
    }
    if sp {
        let (offset, total, data) = (pair(b, part + 2), pair(b, part + 4), segment - l);
        if total < l || offset + data > total - l || (offset + data == total - l) == ms {
            return Err((13, 0x04, part + 4));
        }
    }
    let options = if sp { part + 6 } else { part };
    judge_options(&b[options - 1..l], options, kind == 1)?;
    Ok(options)
}

fn titles(mut b: &[u8]) -> bool {
    while let Some(&n) = b.first() {
        if n == 0 || n > 20 || b.len() <= n as usize {
            return false;
        }
        b = &b[n as usize + 1..];
    }
    true
}

fn after_titles(v: &[u8], pointer: usize) -> bool {
    pointer >= 3 && pointer - 1 <= v.len() && titles(&v[2..pointer - 1])
}

fn judge_options(part: &[u8], first: usize, report: bool) -> Result<(), (u8, u8, usize)> {
    let mut room: [(u8, usize, &[u8]); 128] = [(0, 0, &[]); 128];
    let mut count = 0;
    let mut at = 0;
    while at < part.len() {
        if at + 2 > part.len() || at + 2 + part[at + 1] as usize > part.len() {
            return Err((14, 0x04, first + at));
        }
        let n = part[at + 1] as usize;
        room[count] = (part[at], first + at, &part[at + 2..at + 2 + n]);
        count += 1;
        at += 2 + n;
    }
    if count == 0 {
        return if report { Err((20, 0x04, 5)) } else { Ok(()) };
    }
    let list = &room[..count];
    for (i, o) in list.iter().enumerate() {
        if o.0 != 0xcc && list[..i].iter().any(|p| p.0 == o.0) {
            return Err((15, 0x07, o.1));
        }
    }
    for o in list {
        if ![0xcc, 0xc5, 0xc8, 0xcb, 0xc3, 0xcd, 0xc1].contains(&o.0) {
            return Err((16, 0xb0, o.1));
        }
    }
    let no_format = |v: &[u8]| v.is_empty() || v[0] < 64;
    for o in list {
        if o.0 == 0xc5 && no_format(o.2) {
            return Err((17, 0xb2, o.1));
        }
    }
    let kinded = |v: &[u8]| v.len() >= 2 && v[0] <= 1;
    for o in list {
        let v = o.2;
        if o.0 == 0xc8 && !(kinded(v) && titles(&v[2..]) && (v[1] as usize > v.len() || after_titles(v, v[1] as usize))) {
            return Err((18, 0x91, o.1));
        }
    }
    for o in list {
        let v = o.2;
        let bad = match o.0 {
            0xcb => !(kinded(v) && (v[1] == 255 || (v[1] as usize <= v.len() + 1 && after_titles(v, v[1] as usize)))),
            0xc3 => no_format(v),
            0xcd => v.len() != 1,
            0xc1 => v.len() != 2,
            _ => false,
        };
        if bad {
            return Err((19, 0x04, o.1));
        }
    }
    let reason = list.iter().find(|o| o.0 == 0xc1);
    match (report, reason) {
        (true, None) => Err((20, 0x04, 5)),
        (false, Some(o)) => Err((20, 0x04, o.1)),
        _ => Ok(()),
    }
}

#[derive(Clone, Copy)]
struct Limits {
    slots: usize,
    segments: usize,
    budget: usize,
    hold: u64,
}

#[derive(Default)]
struct Buffer {
    from: Vec<u8>,
    to: Vec<u8>,
    id: [u8; 2],
    shape: (usize, usize, u8),
    deadline: u64,
    octets: Vec<u8>,
    holes: Vec<(usize, usize)>,
    size: usize,
    kept: usize,
}

struct Table {
    limits: Limits,
    buffers: Vec<Buffer>,
    held: usize,
    kept: usize,
}

struct Pdu<'a> {
    from: &'a [u8],
    to: &'a [u8],
    kind: u8,
    life: u64,
    part: Option<([u8; 2], usize, usize)>,
    head: usize,
    more: bool,
    octets: &'a [u8],
}

fn decode(b: &[u8]) -> Option<Pdu<'_>> {
    if b.first() != Some(&0x81) || judge(b).is_err() {
        return None;
    }
    let (l, source) = (b[1] as usize, 11 + b[9] as usize);
    let part = source + 1 + b[source - 1] as usize;
    let has_part = b[4] & 0x80 != 0;
    Some(Pdu {
        from: &b[source..part - 1],
        to: &b[10..source - 1],
        kind: b[4] & 0x1f,
        life: u64::from(b[3]),
        part: has_part.then(|| ([b[part - 1], b[part]], pair(b, part + 2), pair(b, part + 4))),
        head: l,
        more: b[4] & 0x40 != 0,
        octets: &b[l..pair(b, 6)],
    })
}

fn push_start(out: &mut Vec<u8>, moment: u64, label: &[u8], from: &[u8]) {
    push_number(out, moment as usize);
    out.extend_from_slice(label);
    push_hex(out, from);
}

fn push_numbers(out: &mut Vec<u8>, numbers: &[usize]) {
    for number in numbers {
        out.push(b' ');
        push_number(out, *number);
    }
    out.push(b'\n');
}

fn push_unit(out: &mut Vec<u8>, moment: u64, pdu: &Pdu<'_>, octets: &[u8]) {
    push_start(out, moment, b" unit ", pdu.from);
    out.push(b' ');
    push_hex(out, pdu.to);
    out.extend_from_slice(match pdu.kind {
        1 => b" er ".as_slice(),
        28 => b" dt ",
        30 => b" erq ",
        _ => b" erp ",
    });
    push_hex(out, octets);
    if octets.is_empty() {
        out.push(b'-');
    }
    out.push(b'\n');
}

impl Table {
    fn take_out(&mut self, place: usize) -> Buffer {
        let buffer = self.buffers.remove(place);
        self.held -= buffer.size;
        self.kept -= buffer.kept;
        buffer
    }

    fn expire(&mut self, moment: u64, out: &mut Vec<u8>) {
        loop {
            let mut due: Option<usize> = None;
            for (place, buffer) in self.buffers.iter().enumerate() {
                if buffer.deadline <= moment && due.is_none_or(|at| buffer.deadline < self.buffers[at].deadline) {
                    due = Some(place);
                }
            }
            let Some(place) = due else { return };
            let ended = self.take_out(place);
            push_start(out, moment, b" expired ", &ended.from);
            out.push(b' ');
            push_hex(out, &ended.to);
            out.push(b' ');
            push_hex(out, &ended.id);
            push_numbers(out, &[self.held]);
        }
    }

    fn offer(&mut self, moment: u64, size: usize, pdu: &Pdu<'_>, part: ([u8; 2], usize, usize), out: &mut Vec<u8>) {
        let (id, offset, total) = part;
        let end = offset + pdu.octets.len();
        let shape = (total, pdu.head, pdu.kind);
        let place = self.buffers.iter().position(|b| b.id == id && b.from == pdu.from && b.to == pdu.to);
        if place.is_some_and(|at| self.buffers[at].shape != shape) {
            push_start(out, moment, b" interference ", pdu.from);
            out.push(b' ');
            push_hex(out, &id);
            out.push(b'\n');
            return;
        }
        let fills = match place {
            Some(at) => self.buffers[at].holes.iter().any(|hole| hole.0 < end && offset < hole.1),
            None => offset < end,
        };
        if !fills {
            push_start(out, moment, b" repeat ", pdu.from);
            out.push(b' ');
            push_hex(out, &id);
            return push_numbers(out, &[offset]);
        }
        if place.is_none() && self.buffers.len() >= self.limits.slots {
            push_start(out, moment, b" noslot ", pdu.from);
            return push_numbers(out, &[self.buffers.len()]);
        }
        if self.held + size > self.limits.budget {
            push_start(out, moment, b" crowded ", pdu.from);
            return push_numbers(out, &[self.held, size]);
        }
        if self.kept >= self.limits.segments {
            push_start(out, moment, b" many ", pdu.from);
            return push_numbers(out, &[self.kept]);
        }
        let place = place.unwrap_or_else(|| {
            self.buffers.push(Buffer {
                from: pdu.from.to_vec(),
                to: pdu.to.to_vec(),
                id,
                shape,
                deadline: moment + self.limits.hold.min(pdu.life),
                octets: vec![0; total - pdu.head],
                holes: vec![(0, total - pdu.head)],
                ..Buffer::default()
            });
            self.buffers.len() - 1
        });
        let buffer = &mut self.buffers[place];
        buffer.fill(offset, pdu.octets);
        buffer.size += size;
        buffer.kept += 1;
        self.held += size;
        self.kept += 1;
        if buffer.holes.is_empty() {
            let whole = self.take_out(place);
            return push_unit(out, moment, pdu, &whole.octets);
        }
        push_start(out, moment, b" held ", pdu.from);
        out.push(b' ');
        push_hex(out, &id);
        push_numbers(out, &[offset, self.held]);
    }
}

impl Buffer {
    fn fill(&mut self, offset: usize, octets: &[u8]) {
        let end = offset + octets.len();
        let mut left = Vec::with_capacity(self.holes.len() + 1);
        for &(from, to) in &self.holes {
            let (low, high) = (from.max(offset), to.min(end));
            if low >= high {
                left.push((from, to));
                continue;
            }
            self.octets[low..high].copy_from_slice(&octets[low - offset..high - offset]);
            if from < low {
                left.push((from, low));
            }
            if high < to {
                left.push((high, to));
            }
        }
        self.holes = left;
    }
}

fn read_limits(words: &[&[u8]], hold: u64) -> Limits {
    Limits {
        slots: read_number(words[0], 1, 1024) as usize,
        segments: read_number(words[1], 1, 16_384) as usize,
        budget: read_number(words[2], 512, 4_194_304) as usize,
        hold,
    }
}

fn main() {
    let mut input = Vec::new();
    std::io::stdin().read_to_end(&mut input).unwrap();
    let mut lines = input.split(|c| *c == b'\n').filter(|line| !line.is_empty() && line[0] != b'#');
    let mut next = || -> Vec<&[u8]> { lines.next().unwrap_or_else(|| bad()).split(|c| *c == b' ').collect() };
    if next() != [b"clnp-reassemble".as_slice(), b"1"] {
        bad();
    }
    let words = next();
    if words.len() != 5 || words[0] != b"others" {
        bad();
    }
    let hold = read_number(words[4], 1, 255);
    let mut limits = vec![read_limits(&words[1..4], hold)];
    let mut places: HashMap<Vec<u8>, usize> = HashMap::new();
    loop {
        let words = next();
        if words == [b"frames".as_slice()] {
            break;
        }
        if words.len() != 5 || words[0] != b"share" || places.insert(read_hex(words[1]), limits.len()).is_some() {
            bad();
        }
        limits.push(read_limits(&words[2..5], hold));
    }
    let mut frames: Vec<(u64, Vec<u8>)> = Vec::new();
    loop {
        let words = next();
        if words == [b"end".as_slice()] {
            break;
        }
        if words.len() != 2 {
            bad();
        }
        let last = frames.last().map_or(0, |frame| frame.0);
        frames.push((read_number(words[0], last, 4_294_967_295), read_hex(words[1])));
    }
    let mut tables: Vec<Table> = limits.iter().map(|limits| Table { limits: *limits, buffers: Vec::new(), held: 0, kept: 0 }).collect();
    let mut out = Vec::with_capacity(2 * BLOCK);
    let mut stdout = std::io::stdout().lock();
    for (moment, frame) in &frames {
        match decode(frame) {
            None => {
                push_number(&mut out, *moment as usize);
                out.extend_from_slice(b" unread\n");
            }
            Some(pdu) => {
                let table = &mut tables[places.get(pdu.from).copied().unwrap_or(0)];
                table.expire(*moment, &mut out);
                match pdu.part {
                    _ if pdu.life == 0 => {
                        push_start(&mut out, *moment, b" dead ", pdu.from);
                        out.push(b'\n');
                    }
                    Some(part) if part.1 != 0 || pdu.more => table.offer(*moment, frame.len(), &pdu, part, &mut out),
                    _ => push_unit(&mut out, *moment, &pdu, pdu.octets),
                }
            }
        }
        if out.len() >= BLOCK {
            stdout.write_all(&out).unwrap();
            out.clear();
        }
    }
    out.extend_from_slice(b"end");
    push_numbers(&mut out, &[frames.len()]);
    stdout.write_all(&out).unwrap();
}
