//! Clients of a calendar on this machine: so many at a time send requests one after the other, each on a
//! connection of its own, and it is printed how many were answered a second and how long the slowest
//! hundredth took.
//!
//!     load PORT post|get CLIENTS REQUESTS

use std::env;
use std::io::{Read, Write};
use std::net::TcpStream;
use std::thread;
use std::time::Instant;

/// Sends one request, and answers how many seconds its reply took.
fn ask(port: u16, request: &[u8], wanted: &[u8]) -> f64 {
    let begun = Instant::now();
    let mut stream = TcpStream::connect(("127.0.0.1", port)).expect("connect");
    stream.write_all(request).expect("write");
    let mut reply = Vec::new();
    stream.read_to_end(&mut reply).expect("read");
    assert!(reply.starts_with(wanted), "{}", String::from_utf8_lossy(&reply));
    begun.elapsed().as_secs_f64()
}

/// The request of this number of a client.
fn request(kind: &str, client: u64, number: u64) -> Vec<u8> {
    if kind == "get" {
        return format!("GET /timestamp/{client:016x}{number:016x} HTTP/1.1\r\nHost: a\r\n\r\n").into_bytes();
    }
    let mut whole = b"POST /digest HTTP/1.1\r\nHost: a\r\nContent-Length: 32\r\n\r\n".to_vec();
    whole.extend_from_slice(&client.to_be_bytes());
    whole.extend_from_slice(&number.to_be_bytes());
    whole.extend_from_slice(&[7; 16]);
    whole
}

fn main() {
    let words: Vec<String> = env::args().collect();
    let port: u16 = words[1].parse().unwrap();
    let kind = words[2].clone();
    let clients: u64 = words[3].parse().unwrap();
    let each = words[4].parse::<u64>().unwrap() / clients;
    let wanted: &[u8] = if kind == "get" { b"HTTP/1.1 404" } else { b"HTTP/1.1 200" };
    let begun = Instant::now();
    let running: Vec<_> = (0..clients)
        .map(|client| {
            let kind = kind.clone();
            thread::spawn(move || {
                (0..each)
                    .map(|number| ask(port, &request(&kind, client, number), wanted))
                    .collect::<Vec<f64>>()
            })
        })
        .collect();
    let mut times: Vec<f64> = running.into_iter().flat_map(|one| one.join().unwrap()).collect();
    let whole = begun.elapsed().as_secs_f64();
    times.sort_by(f64::total_cmp);
    let slow = times[(times.len() * 99 / 100).min(times.len() - 1)];
    println!("{:.0} {:.2}", times.len() as f64 / whole, slow * 1000.0);
}
