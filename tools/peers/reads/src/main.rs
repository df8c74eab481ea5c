//! The peers of reads of a published target: a table of 4,608 entities with four values each, behind arc-swap, where each publication copies the
//! table, behind the RwLock of std, and behind that of parking_lot. The words, and what is printed behind the name of the peer, are those of
//! tools/bench/reads.rt.txt: `paused-3 1000000` lets three threads read so often each, one entity after another, beside a writer that publishes one
//! row, rests 200 microseconds, and does so again until all have read; `busy-3 1000000` beside one that does not rest.

use std::sync::atomic::{AtomicBool, Ordering};
use std::sync::Arc;
use std::time::{Duration, Instant};

const ENTITIES: usize = 4608;
const ROUNDS: usize = 5;

type Table = Vec<[u32; 4]>;

/// What a peer does: one read, and one publication.
trait Peer: Sync {
    fn read(&self, entity: usize) -> u32;
    fn publish(&self);
}

struct Swapped(arc_swap::ArcSwap<Table>);

impl Peer for Swapped {
    fn read(&self, entity: usize) -> u32 {
        self.0.load()[entity][1]
    }

    fn publish(&self) {
        let mut next = Table::clone(&self.0.load());
        next[0][1] = 2;
        self.0.store(Arc::new(next));
    }
}

impl Peer for std::sync::RwLock<Table> {
    fn read(&self, entity: usize) -> u32 {
        std::sync::RwLock::read(self).unwrap()[entity][1]
    }

    fn publish(&self) {
        self.write().unwrap()[0][1] = 2;
    }
}

impl Peer for parking_lot::RwLock<Table> {
    fn read(&self, entity: usize) -> u32 {
        parking_lot::RwLock::read(self)[entity][1]
    }

    fn publish(&self) {
        self.write()[0][1] = 2;
    }
}

/// Lets so many threads read so often each beside the writer, and says how long that took and how often was published.
fn read_beside<P: Peer>(peer: &P, threads: usize, times: usize, rests: bool) -> (Duration, u64) {
    let done = AtomicBool::new(false);
    let start = Instant::now();
    std::thread::scope(|scope| {
        let writer = scope.spawn(|| {
            let mut published = 0;
            while !done.load(Ordering::SeqCst) {
                peer.publish();
                published += 1;
                if rests {
                    std::thread::sleep(Duration::from_micros(200));
                }
            }
            published
        });
        let read = || {
            for place in 0..times {
                std::hint::black_box(peer.read(place % ENTITIES));
            }
        };
        let readers: Vec<_> = (0..threads).map(|_| scope.spawn(read)).collect();
        readers.into_iter().for_each(|reader| reader.join().unwrap());
        done.store(true, Ordering::SeqCst);
        let spent = start.elapsed();
        (spent, writer.join().unwrap())
    })
}

/// Prints what a work comes to, by the best run and the worst.
fn time<P: Peer>(name: &str, peer: P, work: &str, times: usize) {
    let (pace, threads) = work.rsplit_once('-').expect("a work as paused-1");
    let threads: usize = threads.parse().expect("a number of threads");
    let mut runs: Vec<_> = (0..ROUNDS).map(|_| read_beside(&peer, threads, times, pace == "paused")).collect();
    runs.sort();
    let millions = |spent: Duration| (threads * times) as f64 / spent.as_secs_f64() / 1e6;
    let (best, published) = runs[0];
    println!(
        "{name}, {work}: millions of reads a second {:.0} to {:.0} thousands of publications {:.0}",
        millions(best),
        millions(runs[ROUNDS - 1].0),
        published as f64 / best.as_secs_f64() / 1e3
    );
}

fn main() {
    let words: Vec<String> = std::env::args().skip(1).collect();
    let table = || vec![[1; 4]; ENTITIES];
    for pair in words.chunks(2) {
        let times = pair[1].parse().expect("a number of reads");
        time("arc-swap", Swapped(arc_swap::ArcSwap::from_pointee(table())), &pair[0], times);
        time("std's RwLock", std::sync::RwLock::new(table()), &pair[0], times);
        time("parking_lot's RwLock", parking_lot::RwLock::new(table()), &pair[0], times);
    }
}
