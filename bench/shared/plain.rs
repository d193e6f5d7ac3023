// `CALLERS HOLDS`: so many threads lock one book in memory so many times each, by a Mutex of std, and keep the row of
// each hold. It prints the microseconds that all of it took.
use std::hint::black_box;
use std::sync::Mutex;
use std::thread;
use std::time::Instant;

struct Book {
    records: Vec<[u8; 44]>,
    gate: u64,
    faults: u64,
    waiting: Vec<[u8; 88]>,
}

#[derive(Clone, Copy, Default)]
struct Numbers {
    records: u64,
    gate: u64,
    faults: u64,
    waiting: u64,
}

impl Book {
    fn numbers(&self) -> Numbers {
        Numbers {
            records: self.records.len() as u64,
            gate: self.gate,
            faults: self.faults,
            waiting: self.waiting.len() as u64,
        }
    }
}

fn work(book: &Mutex<Book>, holds: u32) {
    let mut rows = [(Numbers::default(), Numbers::default()); 3];
    for _ in 0..holds {
        let held = book.lock().unwrap();
        let found = held.numbers();
        let left = black_box(&*held).numbers();
        drop(held);
        rows = black_box([rows[1], rows[2], (found, left)]);
    }
    let last = rows[2].0;
    black_box(last.records + last.gate + last.faults + last.waiting);
}

fn main() {
    let mut words = std::env::args().skip(1).map(|word| word.parse::<u32>().unwrap());
    let (callers, holds) = (words.next().unwrap(), words.next().unwrap());
    let book = Mutex::new(Book {
        records: Vec::new(),
        gate: 8,
        faults: 0,
        waiting: Vec::new(),
    });
    let began = Instant::now();
    thread::scope(|scope| {
        for _ in 1..callers {
            scope.spawn(|| work(&book, holds));
        }
        work(&book, holds);
    });
    println!("{}", began.elapsed().as_micros());
}
