//! Threads that park by `std::thread::park`, on a lock and on a queue of two counters.

#[path = "../parklot.rs"]
mod parklot;

use parklot::{Entered, Polled, Posted, Refused, Retried, Seat, Table, Tried, Woke, WokeSome, list_seats};
use std::sync::atomic::{AtomicBool, AtomicU64, Ordering::SeqCst};
use std::sync::{Arc, OnceLock};
use std::thread::{self, Thread};

const THREADS: usize = 4;
const ROUNDS: usize = 10_000;

/// Where a thread parks: `named` says that it was woken, whatever else wakes it.
#[derive(Default)]
struct Park {
    thread: OnceLock<Thread>,
    named: AtomicBool,
}

/// A seat, and where each seat's thread parks.
struct Worker {
    seat: Seat,
    number: usize,
    parks: Arc<Vec<Park>>,
}

impl Worker {
    fn park(&self) {
        while !self.parks[self.number].named.swap(false, SeqCst) {
            thread::park();
        }
    }

    fn unpark(&self, number: u32) {
        let park = &self.parks[number as usize];
        park.named.store(true, SeqCst);
        park.thread.get().expect("a thread is there before it sleeps").unpark();
    }

    fn acquire(&mut self, counter: u32) -> Result<(), Refused> {
        loop {
            match self.seat.try_acquire(counter)? {
                Tried::Taken => return Ok(()),
                Tried::Zero => break,
                Tried::Lost => {}
            }
        }
        loop {
            match self.seat.enter(counter, false)? {
                Entered::Taken => return Ok(()),
                Entered::Busy => thread::yield_now(),
                Entered::Asleep => {
                    self.park();
                    let taken = match self.seat.poll()? {
                        Polled::Handed => true,
                        Polled::Woken => self.seat.retry()? == Retried::Taken,
                        Polled::Asleep => panic!("a seat was named, and isn't woken"),
                    };
                    if taken {
                        return Ok(());
                    }
                }
            }
        }
    }

    fn release(&mut self, counter: u32, handoff: bool) -> Result<(), Refused> {
        if self.seat.post(counter)? == Posted::Done {
            return Ok(());
        }
        loop {
            match self.seat.wake(handoff)? {
                Woke::Nobody => return Ok(()),
                Woke::One(number) | Woke::Handed(number) => {
                    self.unpark(number);
                    return Ok(());
                }
                Woke::Busy => thread::yield_now(),
            }
        }
    }
}

fn workers(table: &Table) -> Result<Vec<Worker>, Refused> {
    let parks = Arc::new((0..THREADS).map(|_| Park::default()).collect::<Vec<Park>>());
    let mut workers = Vec::new();
    for mut seat in table.seats(THREADS)? {
        let number = seat.number()? as usize;
        workers.push(Worker { seat, number, parks: parks.clone() });
    }
    Ok(workers)
}

/// Runs `work` in a thread for each worker, and gives the workers back.
fn run<F>(workers: Vec<Worker>, work: F) -> Result<Vec<Worker>, Refused>
where
    F: Fn(&mut Worker) -> Result<(), Refused> + Send + Sync,
{
    thread::scope(|scope| {
        let work = &work;
        let begun: Vec<_> = workers
            .into_iter()
            .map(|mut worker| {
                scope.spawn(move || {
                    worker.parks[worker.number].thread.set(thread::current()).expect("once");
                    work(&mut worker).map(|()| worker)
                })
            })
            .collect();
        begun.into_iter().map(|thread| thread.join().expect("a thread came back")).collect()
    })
}

fn lock() -> Result<(), Refused> {
    let sum = AtomicU64::new(0);
    let back = run(workers(&Table::new(&[1]))?, |worker| {
        for round in 0..ROUNDS {
            worker.acquire(0)?;
            // Two steps, so that the sum tells whether one alone holds the lock.
            let seen = sum.load(SeqCst);
            if round % 32 == 0 {
                thread::yield_now();
            }
            sum.store(seen + 1, SeqCst);
            worker.release(0, round % 5 == 0)?;
        }
        Ok(())
    })?;
    println!("lock: sum {} of {}, seats back {}", sum.load(SeqCst), THREADS * ROUNDS, back.len());
    Ok(())
}

/// Two threads take from counter 0 and give to counter 1, and two the other way round: none has a unit by itself.
fn ping_pong() -> Result<(), Refused> {
    let mut back = run(workers(&Table::new(&[1, 0]))?, |worker| {
        let takes = (worker.number % 2) as u32;
        for _ in 0..ROUNDS {
            worker.acquire(takes)?;
            worker.release(1 - takes, true)?;
        }
        Ok(())
    })?;
    let seat = &mut back[0].seat;
    println!("ping pong: counters {} and {}", seat.value(0)?, seat.value(1)?);
    Ok(())
}

fn answers() -> Result<(), Refused> {
    let mut seats = Table { starts: &[0, 0], roots: 1, seed: 1, release_limit: 4 }.seats(3)?;
    let (one, rest) = seats.split_at_mut(1);
    let (two, three) = rest.split_at_mut(1);
    let (one, two, three) = (&mut one[0], &mut two[0], &mut three[0]);
    println!("numbers: {:?} {:?} {:?}", one.number(), two.number(), three.number());
    println!("nothing there: {:?}", one.try_acquire(0));
    println!("enter: {:?}, then {:?}", one.enter(0, false), one.poll());
    println!("in the middle of a call: {:?} {:?} {:?}", one.number(), one.post(0), one.retry());
    println!("waits: {:?}", two.waiters_of_root(0));
    println!("post: {:?}, wake with the unit: {:?}, poll: {:?}", two.post(0), two.wake(true), one.poll());
    println!("enter: {:?} {:?}", one.enter(1, false), three.enter(1, true));
    println!("post two: {:?}", two.post_many(1, 2));
    println!("not the call: {:?}", two.wake(false));
    let mut woken = [0; 256];
    println!("too little room: {:?}", two.wake_some(&mut woken[..255]));
    let WokeSome::Done(count) = two.wake_some(&mut woken)? else { panic!("nobody holds the lock") };
    println!("wake some: {:?}", &woken[..count]);
    println!("poll: {:?} {:?}", one.poll(), three.poll());
    println!("retry: {:?} {:?}", one.retry(), three.retry());
    println!("units: {:?} {:?}", two.post_many(0, 0), two.post_many(0, 257));
    println!("limit: {:?} {:?}", two.post(0), two.post(0));
    println!("no counter: {:?}", two.try_acquire(2));
    println!("value: {:?}", two.value(0));
    println!("no table: {:?} {:?}", Table::new(&[]).seats(1).err(), Table::new(&[0]).seats(65_537).err());
    let none = |roots, release_limit| Table { starts: &[0], roots, seed: 1, release_limit }.seats(1).err();
    println!("no table: {:?} {:?} {:?}", none(0, 1), none(1, 0), Table::new(&[0]).seats(0).err());
    Ok(())
}

/// Tickets of a list, from its first one on.
fn list_answers() -> Result<(), Refused> {
    let mut seats = list_seats(7, 3)?;
    let [one, two, three] = &mut seats[..] else { panic!("three seats") };
    println!("list: tickets {:?} {:?}, quiet {:?}", one.add(), two.add(), three.quiet());
    println!("wait: {:?}, then {:?}", one.try_wait(), one.poll());
    println!("one: {:?}, poll: {:?}", three.one(), one.poll());
    println!("one: {:?}, wait: {:?}", three.one(), two.try_wait());
    println!("one: {:?}, quiet {:?}", three.one(), three.quiet());
    println!("not the call: {:?} {:?}", one.poll(), one.try_wait());
    println!("tickets {:?} {:?}", one.add(), two.add());
    println!("wait: {:?} {:?}", two.try_wait(), one.try_wait());
    let mut woken = [0; 3];
    println!("too little room: {:?}", three.all(&mut woken[..2]));
    let WokeSome::Done(count) = three.all(&mut woken)? else { panic!("nobody holds the lock") };
    println!("all: {:?}, poll: {:?} {:?}", &woken[..count], one.poll(), two.poll());
    println!("numbers: {:?} {:?} {:?}", one.number(), two.number(), three.number());
    println!("no list: {:?} {:?}", list_seats(0, 0).err(), list_seats(0, 65_537).err());
    Ok(())
}

fn main() -> Result<(), Refused> {
    answers()?;
    list_answers()?;
    lock()?;
    ping_pong()
}
