//! A plain threaded server beside which `otsd serve` is measured: it appends 56 bytes and syncs once a
//! POST, and answers each GET from a map.
//!
//!     plain FILE PORT WORKERS [careful]
//!
//! A careful one keeps to what `otsd` keeps to in the network: one worker at a time waits for a connection, each
//! connection has a time limit for each way, and before it is closed its writing half is shut and what still
//! comes is read.

use std::collections::HashMap;
use std::env;
use std::fs::File;
use std::io::{self, Read, Write};
use std::net::{Shutdown, TcpListener, TcpStream};
use std::sync::{Arc, Mutex};
use std::thread;
use std::time::Duration;

/// How long a careful server waits in one call.
const LIMIT: Duration = Duration::from_secs(1);

struct Calendar {
    file: File,
    known: HashMap<Vec<u8>, u64>,
}

/// The head of a request, and what was read of its body.
fn read_head(stream: &mut TcpStream) -> io::Result<(Vec<u8>, Vec<u8>)> {
    let mut read = Vec::new();
    let mut piece = [0; 1024];
    loop {
        let count = stream.read(&mut piece)?;
        if count == 0 {
            return Err(io::ErrorKind::UnexpectedEof.into());
        }
        read.extend_from_slice(&piece[..count]);
        if let Some(end) = read.windows(4).position(|four| four == b"\r\n\r\n") {
            let body = read.split_off(end + 4);
            return Ok((read, body));
        }
    }
}

fn reply(stream: &mut TcpStream, line: &str, kind: &str, body: &[u8]) -> io::Result<()> {
    let mut whole = format!(
        "HTTP/1.1 {line}\r\nContent-Type: {kind}\r\nContent-Length: {}\r\nConnection: close\r\n\r\n",
        body.len()
    )
    .into_bytes();
    whole.extend_from_slice(body);
    stream.write_all(&whole)
}

fn serve(stream: &mut TcpStream, calendar: &Mutex<Calendar>) -> io::Result<()> {
    let (head, mut body) = read_head(stream)?;
    if !head.starts_with(b"POST ") {
        let path = head.split(|byte| *byte == b' ').nth(1).unwrap_or(&[]).to_vec();
        let is_known = calendar.lock().unwrap().known.contains_key(&path);
        let word: &[u8] = if is_known { b"pending\n" } else { b"not found\n" };
        return reply(stream, "404 Not Found", "text/plain", word);
    }
    while body.len() < 32 {
        let mut piece = [0; 32];
        let count = stream.read(&mut piece)?;
        if count == 0 {
            return Err(io::ErrorKind::UnexpectedEof.into());
        }
        body.extend_from_slice(&piece[..count]);
    }
    let mut record = [0; 56];
    record[..32].copy_from_slice(&body[..32]);
    {
        let mut calendar = calendar.lock().unwrap();
        calendar.file.write_all(&record)?;
        calendar.file.sync_all()?;
        let index = calendar.known.len() as u64;
        calendar.known.insert(record[..44].to_vec(), index);
    }
    reply(stream, "200 OK", "application/octet-stream", &[7; 68])
}

/// The next connection of a careful server.
fn accept_carefully(listener: &Mutex<TcpListener>) -> io::Result<TcpStream> {
    let (stream, _) = listener.lock().unwrap().accept()?;
    stream.set_read_timeout(Some(LIMIT))?;
    stream.set_write_timeout(Some(LIMIT))?;
    Ok(stream)
}

/// Reads what still comes until the client closes.
fn finish(mut stream: TcpStream) {
    let mut piece = [0; 512];
    if stream.shutdown(Shutdown::Write).is_ok() {
        while matches!(stream.read(&mut piece), Ok(count) if count > 0) {}
    }
}

fn main() -> io::Result<()> {
    let words: Vec<String> = env::args().collect();
    let file = File::options().create(true).append(true).open(&words[1])?;
    let listener = Arc::new(TcpListener::bind(("127.0.0.1", words[2].parse().unwrap()))?);
    let one_by_one = Arc::new(Mutex::new(listener.try_clone()?));
    let is_careful = words.get(4).is_some_and(|word| word == "careful");
    let calendar = Arc::new(Mutex::new(Calendar {
        file,
        known: HashMap::new(),
    }));
    println!("listening {}", words[2]);
    let workers: Vec<_> = (0..words[3].parse().unwrap())
        .map(|_| {
            let (listener, one_by_one, calendar) = (listener.clone(), one_by_one.clone(), calendar.clone());
            thread::spawn(move || loop {
                if is_careful {
                    if let Ok(mut stream) = accept_carefully(&one_by_one) {
                        let _ = serve(&mut stream, &calendar);
                        finish(stream);
                    }
                } else if let Ok((mut stream, _)) = listener.accept() {
                    let _ = serve(&mut stream, &calendar);
                }
            })
        })
        .collect();
    for worker in workers {
        worker.join().unwrap();
    }
    Ok(())
}
