// A plain Rust program that shows the records of a pcap file as `clnp pcap-show` does, without proofs: the measure of its
// speed. It reads in blocks, holds one record, and shows each PDU by the code of plain_show.rs.
use std::io::{BufReader, Read, Write};

#[allow(dead_code, unused_imports)]
mod plain {
    include!("plain_show.rs");

    pub fn show_pdu(pdu: &[u8], out: &mut Vec<u8>) {
        show(pdu, out)
    }

    pub fn put_hex(out: &mut Vec<u8>, octets: &[u8]) {
        push_hex(out, octets)
    }

    pub fn put_number(out: &mut Vec<u8>, number: usize) {
        push_number(out, number)
    }
}

const BLOCK: usize = 65_536;

fn four(octets: &[u8], low_first: bool) -> u32 {
    let four = [octets[0], octets[1], octets[2], octets[3]];
    if low_first { u32::from_le_bytes(four) } else { u32::from_be_bytes(four) }
}

fn show_frame(frame: &[u8], out: &mut Vec<u8>) {
    if frame.len() < 17 || frame[14..17] != [0xfe, 0xfe, 3] {
        return out.extend_from_slice(b" other");
    }
    let length = (frame[12] as usize) << 8 | frame[13] as usize;
    if !(3..=1500).contains(&length) {
        return out.extend_from_slice(b" other");
    }
    if frame.len() < 14 + length {
        return out.extend_from_slice(b" cut");
    }
    out.push(b' ');
    match &frame[..6] {
        [9, 0, 0x2b, 0, 0, 4] => out.extend_from_slice(b"es"),
        [9, 0, 0x2b, 0, 0, 5] => out.extend_from_slice(b"is"),
        to => plain::put_hex(out, to),
    }
    out.push(b' ');
    plain::put_hex(out, &frame[6..12]);
    out.push(b' ');
    plain::show_pdu(&frame[17..14 + length], out);
}

fn main() {
    let mut input = BufReader::with_capacity(BLOCK, std::io::stdin().lock());
    let mut header = [0; 24];
    input.read_exact(&mut header).unwrap();
    let low_first = match header[..4] {
        [0xa1, 0xb2, 0xc3, 0xd4] | [0xa1, 0xb2, 0x3c, 0x4d] => false,
        [0xd4, 0xc3, 0xb2, 0xa1] | [0x4d, 0x3c, 0xb2, 0xa1] => true,
        _ => panic!("another magic number"),
    };
    let mut frame = Vec::with_capacity(262_144);
    let mut out = Vec::with_capacity(2 * BLOCK);
    let mut stdout = std::io::stdout().lock();
    let mut number = 0;
    let mut record = [0; 16];
    loop {
        let mut got = 0;
        while got < 16 {
            match input.read(&mut record[got..]).unwrap() {
                0 if got == 0 => return stdout.write_all(&out).unwrap(),
                0 => panic!("a cut file"),
                more => got += more,
            }
        }
        let length = four(&record[8..], low_first) as usize;
        assert!(length <= 262_144);
        frame.resize(length, 0);
        input.read_exact(&mut frame).unwrap();
        number += 1;
        plain::put_number(&mut out, number);
        show_frame(&frame, &mut out);
        out.push(b'\n');
        if out.len() >= BLOCK {
            stdout.write_all(&out).unwrap();
            out.clear();
        }
    }
}
