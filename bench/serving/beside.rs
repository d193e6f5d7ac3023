//! One client that stamps while others ask, on this machine: each request on a connection of its own.
//!
//!     beside PORT CLIENTS POSTS COUNT known|unknown
//!
//! CLIENTS threads ask for commitments, one after the other: for those of the journal of bench/calendar/journal.py with
//! COUNT commitments, each answered with 200, or for ones that it lacks, each answered with 404. Meanwhile one thread
//! sends POSTS digests. It prints how many milliseconds a digest waited, the middle one and the slowest hundredth, and
//! how many questions a second were answered.

use std::env;
use std::io::{Read, Write};
use std::net::TcpStream;
use std::sync::Arc;
use std::sync::atomic::{AtomicBool, AtomicU64, Ordering};
use std::thread;
use std::time::Instant;

/// Sends one request, and answers how many milliseconds its reply took.
fn ask(port: u16, request: &[u8], wanted: &[u8]) -> f64 {
    let begun = Instant::now();
    let mut stream = TcpStream::connect(("127.0.0.1", port)).expect("connect");
    stream.write_all(request).expect("write");
    let mut reply = Vec::new();
    stream.read_to_end(&mut reply).expect("read");
    assert!(reply.starts_with(wanted), "{}", String::from_utf8_lossy(&reply));
    begun.elapsed().as_secs_f64() * 1000.0
}

/// The commitment of this index, as bench/calendar/journal.py makes it.
fn commitment(index: u64) -> String {
    let part = format!("{:08x}{index:016x}", 1_700_000_000u32);
    format!("{part}{part}{part}{:016x}", 0)
}

fn main() {
    let words: Vec<String> = env::args().collect();
    let port: u16 = words[1].parse().unwrap();
    let clients: u64 = words[2].parse().unwrap();
    let posts: u64 = words[3].parse().unwrap();
    let count: u64 = words[4].parse().unwrap();
    let known = words[5] == "known";
    let over = Arc::new(AtomicBool::new(false));
    let asked = Arc::new(AtomicU64::new(0));
    let running: Vec<_> = (0..clients)
        .map(|client| {
            let (over, asked) = (over.clone(), asked.clone());
            thread::spawn(move || {
                let wanted: &[u8] = if known { b"HTTP/1.1 200" } else { b"HTTP/1.1 404" };
                let mut number = client;
                while !over.load(Ordering::SeqCst) {
                    number = number.wrapping_mul(6_364_136_223_846_793_005).wrapping_add(1_442_695_040_888_963_407);
                    let index = (number >> 20) % count + if known { 0 } else { 1 << 40 };
                    let text = format!("GET /timestamp/{} HTTP/1.1\r\nHost: a\r\n\r\n", commitment(index));
                    ask(port, text.as_bytes(), wanted);
                    asked.fetch_add(1, Ordering::SeqCst);
                }
            })
        })
        .collect();
    let begun = Instant::now();
    let mut times: Vec<f64> = (0..posts)
        .map(|number| {
            let mut whole = b"POST /digest HTTP/1.1\r\nHost: a\r\nContent-Length: 32\r\n\r\n".to_vec();
            whole.extend_from_slice(&begun.elapsed().as_nanos().to_be_bytes());
            whole.extend_from_slice(&number.to_be_bytes());
            whole.extend_from_slice(&[9; 8]);
            ask(port, &whole, b"HTTP/1.1 200")
        })
        .collect();
    let whole = begun.elapsed().as_secs_f64();
    over.store(true, Ordering::SeqCst);
    running.into_iter().for_each(|one| one.join().unwrap());
    times.sort_by(f64::total_cmp);
    let slow = times[(times.len() * 99 / 100).min(times.len() - 1)];
    println!("{:.2} {slow:.2} {:.0}", times[times.len() / 2], asked.load(Ordering::SeqCst) as f64 / whole);
}
