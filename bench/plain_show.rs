// A plain Rust program that shows capture lines as `clnp show` does, without proofs: the measure of its speed. Digits
// go by tables, in one pass; one buffer holds the frame and one the output.
use std::io::{Read, Write};

const BLOCK: usize = 65_536;

static DIGITS: [[u8; 2]; 256] = {
    let mut digits = [[0; 2]; 256];
    let mut octet = 0;
    while octet < 256 {
        digits[octet] = [b"0123456789abcdef"[octet / 16], b"0123456789abcdef"[octet % 16]];
        octet += 1;
    }
    digits
};

// the value of each digit, and 255 for every other character
static VALUES: [u8; 256] = {
    let mut values = [255; 256];
    let mut value = 0;
    while value < 16 {
        values[b"0123456789abcdef"[value] as usize] = value as u8;
        values[b"0123456789ABCDEF"[value] as usize] = value as u8;
        value += 1;
    }
    values
};

fn pair(b: &[u8], place: usize) -> usize {
    256 * b[place - 1] as usize + b[place] as usize
}

fn push_hex(out: &mut Vec<u8>, octets: &[u8]) {
    let start = out.len();
    out.resize(start + 2 * octets.len(), 0);
    for (pair, octet) in out[start..].chunks_exact_mut(2).zip(octets) {
        pair.copy_from_slice(&DIGITS[*octet as usize]);
    }
}

fn push_number(out: &mut Vec<u8>, mut number: usize) {
    let mut room = [0; 20];
    let mut at = 20;
    loop {
        at -= 1;
        room[at] = b'0' + (number % 10) as u8;
        number /= 10;
        if number == 0 {
            break;
        }
    }
    out.extend_from_slice(&room[at..]);
}

// the octets that the digits of a line spell, in one pass
fn read_line(line: &[u8], frame: &mut Vec<u8>) {
    frame.clear();
    frame.resize(line.len() / 2, 0);
    let mut seen = 0;
    for (octet, pair) in frame.iter_mut().zip(line.chunks_exact(2)) {
        let (high, low) = (VALUES[pair[0] as usize], VALUES[pair[1] as usize]);
        seen |= high | low;
        *octet = high << 4 | low;
    }
    if line.len() % 2 != 0 || seen > 15 {
        std::process::exit(3);
    }
}

fn reportable(b: &[u8]) -> bool {
    if b.len() < 9 || b[0] != 0x81 {
        return false;
    }
    let l = b[1] as usize;
    if !(9..255).contains(&l) || l > b.len() || b[4] & 0x20 == 0 || b[4] & 0x1f == 1 {
        return false;
    }
    !bad_address(b, l, 10) && !bad_address(b, l, 11 + b[9] as usize)
}

fn bad_address(b: &[u8], l: usize, place: usize) -> bool {
    place > l || b[place - 1] == 0 || b[place - 1] > 20 || place + b[place - 1] as usize > l
}

fn right(head: &[u8]) -> bool {
    match (head[7], head[8]) {
        (0, 0) => true,
        (0, _) | (_, 0) => false,
        _ => {
            let (mut c0, mut c1) = (0u32, 0u32);
            for octet in head {
                c0 += *octet as u32;
                c1 += c0;
            }
            c0 % 255 == 0 && c1 % 255 == 0
        }
    }
}

// the least broken rule with its reason and place, or where the options begin
fn judge(b: &[u8]) -> Result<usize, (u8, u8, usize)> {
    if b.len() < 9 {
        return Err((1, 0x06, 0));
    }
    let l = b[1] as usize;
    if l < 9 || l == 255 {
        return Err((2, 0x04, 2));
    }
    if l > b.len() {
        return Err((3, 0x06, 2));
    }
    if b[2] != 1 {
        return Err((4, 0xb1, 3));
    }
    if !right(&b[..l]) {
        return Err((5, 0x02, 0));
    }
    let kind = b[4] & 0x1f;
    if ![1, 28, 30, 31].contains(&kind) {
        return Err((6, 0x04, 5));
    }
    let (sp, ms) = (b[4] & 0x80 != 0, b[4] & 0x40 != 0);
    if ms && !sp {
        return Err((7, 0x04, 5));
    }
    if bad_address(b, l, 10) {
        return Err((8, 0x04, 10));
    }
    let source = 11 + b[9] as usize;
    if bad_address(b, l, source) {
        return Err((9, 0x04, source));
    }
    let part = source + 1 + b[source - 1] as usize;
    if sp && part + 5 > l {
        return Err((10, 0x04, part));
    }
    let segment = pair(b, 6);
    if segment < l {
        return Err((11, 0x04, 6));
    }
    if segment > b.len() {
        return Err((12, 0x06, 6));
    }
    if sp {
        let (offset, total, data) = (pair(b, part + 2), pair(b, part + 4), segment - l);
        if total < l || offset + data > total - l || (offset + data == total - l) == ms {
            return Err((13, 0x04, part + 4));
        }
    }
    let options = if sp { part + 6 } else { part };
    judge_options(&b[options - 1..l], options, kind == 1)?;
    Ok(options)
}

fn titles(mut b: &[u8]) -> bool {
    while let Some(&n) = b.first() {
        if n == 0 || n > 20 || b.len() <= n as usize {
            return false;
        }
        b = &b[n as usize + 1..];
    }
    true
}

fn after_titles(v: &[u8], pointer: usize) -> bool {
    pointer >= 3 && pointer - 1 <= v.len() && titles(&v[2..pointer - 1])
}

fn judge_options(part: &[u8], first: usize, report: bool) -> Result<(), (u8, u8, usize)> {
    let mut room: [(u8, usize, &[u8]); 128] = [(0, 0, &[]); 128];
    let mut count = 0;
    let mut at = 0;
    while at < part.len() {
        if at + 2 > part.len() || at + 2 + part[at + 1] as usize > part.len() {
            return Err((14, 0x04, first + at));
        }
        let n = part[at + 1] as usize;
        room[count] = (part[at], first + at, &part[at + 2..at + 2 + n]);
        count += 1;
        at += 2 + n;
    }
    if count == 0 {
        return if report { Err((20, 0x04, 5)) } else { Ok(()) };
    }
    let list = &room[..count];
    for (i, o) in list.iter().enumerate() {
        if o.0 != 0xcc && list[..i].iter().any(|p| p.0 == o.0) {
            return Err((15, 0x07, o.1));
        }
    }
    for o in list {
        if ![0xcc, 0xc5, 0xc8, 0xcb, 0xc3, 0xcd, 0xc1].contains(&o.0) {
            return Err((16, 0xb0, o.1));
        }
    }
    let no_format = |v: &[u8]| v.is_empty() || v[0] < 64;
    for o in list {
        if o.0 == 0xc5 && no_format(o.2) {
            return Err((17, 0xb2, o.1));
        }
    }
    let kinded = |v: &[u8]| v.len() >= 2 && v[0] <= 1;
    for o in list {
        let v = o.2;
        if o.0 == 0xc8 && !(kinded(v) && titles(&v[2..]) && (v[1] as usize > v.len() || after_titles(v, v[1] as usize))) {
            return Err((18, 0x91, o.1));
        }
    }
    for o in list {
        let v = o.2;
        let bad = match o.0 {
            0xcb => !(kinded(v) && (v[1] == 255 || (v[1] as usize <= v.len() + 1 && after_titles(v, v[1] as usize)))),
            0xc3 => no_format(v),
            0xcd => v.len() != 1,
            0xc1 => v.len() != 2,
            _ => false,
        };
        if bad {
            return Err((19, 0x04, o.1));
        }
    }
    let reason = list.iter().find(|o| o.0 == 0xc1);
    match (report, reason) {
        (true, None) => Err((20, 0x04, 5)),
        (false, Some(o)) => Err((20, 0x04, o.1)),
        _ => Ok(()),
    }
}

fn show(b: &[u8], out: &mut Vec<u8>) {
    match b.first() {
        Some(0x81) => {}
        Some(0x82) => return show_esis(b, out),
        _ => return out.extend_from_slice(b"alien"),
    }
    let options = match judge(b) {
        Ok(options) => options,
        Err((rule, reason, place)) => {
            out.extend_from_slice(b"refused G");
            push_number(out, rule as usize);
            out.push(b' ');
            push_hex(out, &[reason]);
            out.push(b' ');
            push_hex(out, &[place as u8]);
            out.extend_from_slice(if reportable(b) { b" report" } else { b" silent" });
            return;
        }
    };
    let (l, segment, source) = (b[1] as usize, pair(b, 6), 11 + b[9] as usize);
    let part = source + 1 + b[source - 1] as usize;
    out.extend_from_slice(match b[4] & 0x1f {
        1 => b"clnp er ".as_slice(),
        28 => b"clnp dt ",
        30 => b"clnp erq ",
        _ => b"clnp erp ",
    });
    for (bit, letter) in [(0x80, b's'), (0x40, b'm'), (0x20, b'e')] {
        if b[4] & bit != 0 {
            out.push(letter);
        }
    }
    if b[4] & 0xe0 == 0 {
        out.push(b'-');
    }
    out.extend_from_slice(b" life=");
    push_number(out, b[3] as usize);
    out.extend_from_slice(b" sum=");
    push_hex(out, &b[7..9]);
    out.extend_from_slice(b" to=");
    push_hex(out, &b[10..source - 1]);
    out.extend_from_slice(b" from=");
    push_hex(out, &b[source..part - 1]);
    if b[4] & 0x80 != 0 {
        out.extend_from_slice(b" id=");
        push_hex(out, &b[part - 1..part + 1]);
        out.extend_from_slice(b" off=");
        push_number(out, pair(b, part + 2));
        out.extend_from_slice(b" total=");
        push_number(out, pair(b, part + 4));
    }
    push_options(out, &b[options - 1..l]);
    out.extend_from_slice(b" data=");
    push_hex(out, &b[l..segment]);
    out.extend_from_slice(b" rest=");
    push_hex(out, &b[segment..]);
}

fn push_options(out: &mut Vec<u8>, part: &[u8]) {
    let mut at = 0;
    while at < part.len() {
        let n = part[at + 1] as usize;
        out.extend_from_slice(b" opt=");
        push_hex(out, &part[at..at + 1]);
        out.push(b':');
        push_hex(out, &part[at + 2..at + 2 + n]);
        at += 2 + n;
    }
}

// where the field ends whose length octet has this place, if it lies in the header
fn field_end(head: &[u8], place: usize, least: usize) -> Option<usize> {
    let n = *head.get(place - 1)? as usize;
    ((least..=20).contains(&n) && place + n <= head.len()).then_some(place + n + 1)
}

// the least broken rule of an ES-IS frame with its place, or where the options begin
fn judge_esis(b: &[u8]) -> Result<usize, (u8, usize)> {
    if b.len() < 9 {
        return Err((1, 0));
    }
    let l = b[1] as usize;
    if l < 9 || l == 255 || l > b.len() {
        return Err((if l < 9 || l == 255 { 2 } else { 3 }, 2));
    }
    let head = &b[..l];
    for (rule, broken, place) in [(4, head[2] != 1, 3), (5, head[3] != 0, 4), (6, ![2, 4, 6].contains(&head[4]), 5), (7, !right(head), 8)] {
        if broken {
            return Err((rule, place));
        }
    }
    let (rule, first, fields) = match head[4] {
        2 if l == 9 => return Err((8, 10)),
        2 => (8, 11, head[9] as usize),
        4 => (9, 10, 1),
        _ => (10, 10, 3),
    };
    let mut at = first;
    for field in 0..fields {
        at = field_end(head, at, (head[4] != 6 || field < 2) as usize).ok_or((rule, 10))?;
    }
    let options = at;
    let mut timers = Vec::new();
    while at <= l {
        if at == l || at + 1 + head[at] as usize > l {
            return Err((11, at));
        }
        if head[4] == 4 && head[at - 1] == 0xc6 {
            timers.push((at, head[at]));
        }
        at += 2 + head[at] as usize;
    }
    match timers.iter().enumerate().find(|(n, timer)| *n > 0 || timer.1 != 2) {
        Some((_, timer)) => Err((12, timer.0)),
        None => Ok(options),
    }
}

fn show_esis(b: &[u8], out: &mut Vec<u8>) {
    let options = match judge_esis(b) {
        Ok(options) => options,
        Err((rule, place)) => {
            out.extend_from_slice(b"refused E");
            push_number(out, rule as usize);
            out.push(b' ');
            push_hex(out, &[place as u8]);
            return;
        }
    };
    let (word, labels): (&[u8], &[&[u8]]) = match b[4] {
        2 => (b"esh", &[b" addr="]),
        4 => (b"ish", &[b" title="]),
        _ => (b"rd", &[b" to=", b" via=", b" title="]),
    };
    out.extend_from_slice(word);
    out.extend_from_slice(b" hold=");
    push_number(out, pair(b, 6));
    out.extend_from_slice(b" sum=");
    push_hex(out, &b[7..9]);
    let mut at = if b[4] == 2 { 11 } else { 10 };
    for label in labels.iter().cycle() {
        if at == options {
            break;
        }
        let end = at + b[at - 1] as usize;
        out.extend_from_slice(label);
        push_hex(out, &b[at..end]);
        at = end + 1;
    }
    push_options(out, &b[options - 1..b[1] as usize]);
    out.extend_from_slice(b" rest=");
    push_hex(out, &b[b[1] as usize..]);
}

fn main() {
    let mut input = Vec::new();
    std::io::stdin().read_to_end(&mut input).unwrap();
    let mut frame = Vec::new();
    let mut out = Vec::with_capacity(2 * BLOCK);
    let mut stdout = std::io::stdout().lock();
    for line in input.split(|c| *c == b'\n') {
        if line.is_empty() || line[0] == b'#' {
            continue;
        }
        read_line(line, &mut frame);
        show(&frame, &mut out);
        out.push(b'\n');
        if out.len() >= BLOCK {
            stdout.write_all(&out).unwrap();
            out.clear();
        }
    }
    stdout.write_all(&out).unwrap();
}
