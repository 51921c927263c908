// Plain Rust programs beside `clnp run`, without proofs. `forward` sends datagrams on as they come, one after another: the
// measure of its speed. `load` sends datagrams and counts those that come back.
use std::io::ErrorKind;
use std::net::UdpSocket;
use std::process::exit;
use std::sync::Arc;
use std::sync::atomic::{AtomicBool, AtomicI64, AtomicU64, Ordering::Relaxed};
use std::thread;
use std::time::{Duration, Instant};

const MOST: usize = 70_000;

// how many datagrams of a flow are on their way at once, all of which a socket has room for
const WINDOW: i64 = 64;

fn usage() -> ! {
    eprintln!("usage: plain_run forward IN,OUT,TO.. | load SECONDS FROM,TO,AT,HEX..");
    exit(2)
}

fn bound(end: &str) -> UdpSocket {
    UdpSocket::bind(end).unwrap_or_else(|error| {
        eprintln!("plain_run: {end}: {error}");
        exit(1)
    })
}

// the sockets of ends that words name, each made once
fn sockets<'a>(words: impl Iterator<Item = &'a str>) -> Vec<(&'a str, UdpSocket)> {
    let mut found: Vec<(&str, UdpSocket)> = Vec::new();
    for end in words {
        if found.iter().all(|(other, _)| *other != end) {
            found.push((end, bound(end)));
        }
    }
    found
}

fn parts<const N: usize>(word: &str) -> [&str; N] {
    let parts: Vec<&str> = word.split(',').collect();
    parts.try_into().unwrap_or_else(|_| usage())
}

// What comes at one end goes out of another, to an end. With one end to look at it waits there, and else it goes round.
fn forward(words: &[String]) {
    let routes: Vec<[&str; 3]> = words.iter().map(|word| parts(word)).collect();
    let sockets = sockets(routes.iter().flat_map(|route| [route[0], route[1]]));
    let at = |end: &str| &sockets.iter().find(|(other, _)| *other == end).unwrap().1;
    let ways: Vec<(&UdpSocket, &UdpSocket, &str)> = routes.iter().map(|route| (at(route[0]), at(route[1]), route[2])).collect();
    for (_, socket) in &sockets {
        socket.set_nonblocking(ways.len() > 1).unwrap();
    }
    let ways: Vec<_> = ways.iter().map(|(from, by, to)| (from, by, to.parse::<std::net::SocketAddr>().unwrap())).collect();
    let mut room = vec![0; MOST];
    loop {
        for (from, by, to) in &ways {
            match from.recv_from(&mut room) {
                Ok((length, _)) => drop(by.send_to(&room[..length], to)),
                Err(error) if error.kind() == ErrorKind::WouldBlock => {}
                Err(error) => {
                    eprintln!("plain_run: {error}");
                    exit(1)
                }
            }
        }
    }
}

fn octets_of(digits: &str) -> Vec<u8> {
    let pairs = (0..digits.len() / 2).map(|at| u8::from_str_radix(&digits[2 * at..2 * at + 2], 16));
    pairs.map(|octet| octet.unwrap_or_else(|_| usage())).collect()
}

// a flow of datagrams, from an end to another one, which come back at a third
fn flow(from: UdpSocket, to: String, at: UdpSocket, frame: Vec<u8>, ends: Arc<AtomicBool>, count: Arc<AtomicU64>) {
    let sent = Arc::new(AtomicI64::new(0));
    let came = Arc::new(AtomicI64::new(0));
    at.set_read_timeout(Some(Duration::from_millis(200))).unwrap();
    let (ends_too, sent_too, came_too) = (ends.clone(), sent.clone(), came.clone());
    thread::spawn(move || {
        let mut room = vec![0; MOST];
        while !ends_too.load(Relaxed) {
            match at.recv_from(&mut room) {
                Ok(_) => {
                    came_too.fetch_add(1, Relaxed);
                    count.fetch_add(1, Relaxed);
                }
                // what didn't come by now is lost
                Err(_) => came_too.store(sent_too.load(Relaxed), Relaxed),
            }
        }
    });
    while !ends.load(Relaxed) {
        if sent.load(Relaxed) - came.load(Relaxed) < WINDOW {
            drop(from.send_to(&frame, &to));
            sent.fetch_add(1, Relaxed);
        } else {
            thread::yield_now();
        }
    }
}

// how many datagrams come back in a second, behind a short while at the start
fn load(words: &[String]) {
    let [seconds, flows @ ..] = words else { usage() };
    let seconds: f64 = seconds.parse().unwrap_or_else(|_| usage());
    let (ends, count) = (Arc::new(AtomicBool::new(false)), Arc::new(AtomicU64::new(0)));
    let flows: Vec<[&str; 4]> = flows.iter().map(|word| parts(word)).collect();
    let sockets = sockets(flows.iter().flat_map(|flow| [flow[0], flow[2]]));
    let at = |end: &str| sockets.iter().find(|(other, _)| *other == end).unwrap().1.try_clone().unwrap();
    for [from, to, back, digits] in &flows {
        let (from, to, back, frame) = (at(from), to.to_string(), at(back), octets_of(digits));
        let (ends, count) = (ends.clone(), count.clone());
        thread::spawn(move || flow(from, to, back, frame, ends, count));
    }
    thread::sleep(Duration::from_millis(300));
    let (start, before) = (Instant::now(), count.load(Relaxed));
    thread::sleep(Duration::from_secs_f64(seconds));
    let came = count.load(Relaxed) - before;
    println!("{:.0}", came as f64 / start.elapsed().as_secs_f64());
    ends.store(true, Relaxed);
}

fn main() {
    let words: Vec<String> = std::env::args().skip(1).collect();
    match words.split_first() {
        Some((command, words)) if command == "forward" && !words.is_empty() => forward(words),
        Some((command, words)) if command == "load" => load(words),
        _ => usage(),
    }
}
