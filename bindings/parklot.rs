//! The table of counters, and the notify list, for Rust programs: `parklot.h` and `parklot_list.h` with types. One file; take it in by `#[path = ".."] mod parklot;`, and
//! link libparklot_c.a and heap.c.
//!
//! A seat in the middle of a call is the same `Seat`, and a call that it isn't in is refused while the program runs:
//! `Err(Refused::OtherCall)`, with nothing done. It has no type of its own, for three reasons: Rust lets any value go, so no
//! type could force the call to its end; who wakes a seat knows its number and not its type, so a scheduler would take a
//! value apart and put it together at each step; and the library tests it anyway.
//!
//! What Rust's types don't keep, and without which somebody may sleep beside a unit for good (nothing worse): after
//! `Posted::Owes` the seat calls `wake` (or `wake_some`) until that isn't `Busy`, and whom it names is made ready to run. And
//! a seat that is dropped in the middle of a call can't be given back: its memory, and its table's, then stays taken.

#![allow(dead_code)]

use core::ffi::c_void;
use core::ptr;

/// `struct parklot_seat`.
#[repr(C)]
struct Raw {
    full: bool,
    cell: *mut c_void,
}

impl Raw {
    const EMPTY: Raw = Raw { full: false, cell: ptr::null_mut() };
}

unsafe extern "C" {
    fn parklot_new(
        starts: *const u32,
        counters: usize,
        roots: u32,
        seed: u64,
        release_limit: u64,
        seats: *mut Raw,
        count: usize,
    ) -> u32;
    fn parklot_number(seat: *mut Raw, number: *mut u32) -> u32;
    fn parklot_try_acquire(seat: *mut Raw, counter: u32) -> u32;
    fn parklot_enter(seat: *mut Raw, counter: u32, lifo: bool) -> u32;
    fn parklot_poll(seat: *mut Raw) -> u32;
    fn parklot_leave(seat: *mut Raw) -> u32;
    fn parklot_retry(seat: *mut Raw) -> u32;
    fn parklot_post(seat: *mut Raw, counter: u32) -> u32;
    fn parklot_post_many(seat: *mut Raw, counter: u32, units: u32) -> u32;
    fn parklot_wake(seat: *mut Raw, handoff: bool, woken: *mut u32) -> u32;
    fn parklot_wake_some(seat: *mut Raw, woken: *mut u32, room: usize, count: *mut u32) -> u32;
    fn parklot_value(seat: *mut Raw, counter: u32, value: *mut u64) -> u32;
    fn parklot_waiters_of_root(seat: *mut Raw, counter: u32, waits: *mut u64) -> u32;
    fn parklot_free(seat: *mut Raw) -> u32;
    fn parklot_list_new(first: u64, seats: *mut Raw, count: usize) -> u32;
    fn parklot_list_number(seat: *mut Raw, number: *mut u32) -> u32;
    fn parklot_list_add(seat: *mut Raw, ticket: *mut u64) -> u32;
    fn parklot_list_try_wait(seat: *mut Raw) -> u32;
    fn parklot_list_poll(seat: *mut Raw) -> u32;
    fn parklot_list_leave(seat: *mut Raw) -> u32;
    fn parklot_list_one(seat: *mut Raw, woken: *mut u32) -> u32;
    fn parklot_list_all(seat: *mut Raw, woken: *mut u32, room: usize, count: *mut u32) -> u32;
    fn parklot_list_quiet(seat: *mut Raw, quiet: *mut bool) -> u32;
    fn parklot_list_free(seat: *mut Raw) -> u32;
}

/// Why nothing was done.
#[derive(Clone, Copy, Debug, PartialEq, Eq)]
pub enum Refused {
    /// The seat stands in the middle of another call, or of none.
    OtherCall,
    /// The table has no such counter.
    NoCounter,
    /// The seat has added as many units as it may.
    Limit,
    /// Not 1 to 256 units.
    Units,
    /// Room for too few numbers.
    Room,
    /// Not 1 to 65,536 counters.
    Counters,
    /// Not 1 to 65,536 seats.
    Seats,
    /// Not 1 to 251 roots.
    Roots,
    /// Not 1 to 2^54 units that a seat may add, or more than 2^62 for all seats together.
    ReleaseLimit,
    NoMemory,
}

/// What `try_acquire` found.
#[derive(Clone, Copy, Debug, PartialEq, Eq)]
pub enum Tried {
    Taken,
    Zero,
    /// Another changed the counter meanwhile: try again.
    Lost,
}

/// What `enter` did.
#[derive(Clone, Copy, Debug, PartialEq, Eq)]
pub enum Entered {
    Taken,
    /// The seat is queued: its task sleeps until it is named, and then polls.
    Asleep,
    /// Nothing was done: again, a little later.
    Busy,
}

/// What `poll` saw.
#[derive(Clone, Copy, Debug, PartialEq, Eq)]
pub enum Polled {
    Asleep,
    /// Woken without a unit: `retry`.
    Woken,
    /// Woken with a unit.
    Handed,
}

/// What `leave` did.
#[derive(Clone, Copy, Debug, PartialEq, Eq)]
pub enum GaveUp {
    /// The seat is queued no more, and rests.
    Left,
    /// A release has taken the seat out, and will name it: its task sleeps on, without a time, and then polls.
    Coming,
    /// Woken before, of a table without a unit: `retry`.
    Woken,
    /// Woken before, with a unit.
    Handed,
    /// Nothing was done: again, a little later.
    Busy,
}

/// What `retry` found.
#[derive(Clone, Copy, Debug, PartialEq, Eq)]
pub enum Retried {
    Taken,
    /// Another took the unit: `enter` again.
    Zero,
}

/// What `post` and `post_many` did.
#[derive(Clone, Copy, Debug, PartialEq, Eq)]
#[must_use = "a seat that owes a wake-up leaves somebody asleep"]
pub enum Posted {
    Done,
    /// Somebody may wait: `wake`, or `wake_some` after `post_many`.
    Owes,
}

/// What `wake` did.
#[derive(Clone, Copy, Debug, PartialEq, Eq)]
#[must_use = "whom it names has to be made ready to run"]
pub enum Woke {
    Nobody,
    One(u32),
    /// One, who was given the unit too.
    Handed(u32),
    /// Nothing was done: again, a little later.
    Busy,
}

/// What `wake_some` did.
#[derive(Clone, Copy, Debug, PartialEq, Eq)]
#[must_use = "whom it names has to be made ready to run"]
pub enum WokeSome {
    /// So many numbers were written.
    Done(usize),
    /// Nothing was done: again, a little later.
    Busy,
}

/// How a table is made.
#[derive(Clone, Debug)]
pub struct Table<'a> {
    /// How many units each counter begins with.
    pub starts: &'a [u32],
    /// Counter `c` is at root `c` modulo these; counters of one root wait for one another's lock.
    pub roots: u32,
    pub seed: u64,
    /// How many units a seat may add in its life.
    pub release_limit: u64,
}

impl<'a> Table<'a> {
    /// A table with one root, for a few counters, whose seats may add as many units as is possible.
    pub fn new(starts: &'a [u32]) -> Table<'a> {
        Table { starts, roots: 1, seed: 1, release_limit: 1 << 40 }
    }

    /// All its seats, in the order of their numbers. The table lives in them, and ends with the last.
    pub fn seats(&self, count: usize) -> Result<Vec<Seat>, Refused> {
        // The library tells so too; here no room is taken for what it would refuse.
        if count > 65_536 {
            return Err(Refused::Seats);
        }
        let mut seats: Vec<Seat> = (0..count).map(|_| Seat { raw: Raw::EMPTY }).collect();
        // SAFETY: `Seat` is transparent, so a Vec of them is an array of `count` structs that are zeros; `starts` is a slice
        // that is read. Both may be used for as long as the call takes, and they don't overlap, since `seats` is new.
        let answer = unsafe {
            parklot_new(
                self.starts.as_ptr(),
                self.starts.len(),
                self.roots,
                self.seed,
                self.release_limit,
                seats.as_mut_ptr().cast::<Raw>(),
                count,
            )
        };
        if answer == 0 { Ok(seats) } else { Err(refusal(answer)) }
    }
}

/// One task's place at a table.
#[repr(transparent)]
pub struct Seat {
    raw: Raw,
}

// SAFETY: what lies in the cell may go from thread to thread: the library's proof has it so, and whatever moves a Rust value to
// another thread orders the calls before and after. It isn't `Sync`, as the pointer in it says: no call takes it by `&`.
unsafe impl Send for Seat {}

/// The codes that mean that nothing was done. Any other is none of this call's, by the library's contract.
fn refusal(answer: u32) -> Refused {
    match answer {
        101 => Refused::OtherCall,
        102 => Refused::NoCounter,
        104 => Refused::Limit,
        106 => Refused::Units,
        107 => Refused::Room,
        110 => Refused::Counters,
        111 => Refused::Seats,
        112 => Refused::Roots,
        113 => Refused::ReleaseLimit,
        114 => Refused::NoMemory,
        other => panic!("parklot answered {other}"),
    }
}

// SAFETY of all calls below: `&mut self` is one full seat of `parklot_new`, which nobody else uses meanwhile, since it can't be
// copied, and calls by two threads are ordered by what brought it from one to the other. Numbers are written to locals, which
// aren't null and don't overlap with it. No call keeps a pointer.
impl Seat {
    /// Its number, by which others name it: in the middle of any call too.
    pub fn number(&mut self) -> Result<u32, Refused> {
        let mut number = 0;
        // SAFETY: see above.
        match unsafe { parklot_number(&mut self.raw, &mut number) } {
            0 => Ok(number),
            other => Err(refusal(other)),
        }
    }

    pub fn try_acquire(&mut self, counter: u32) -> Result<Tried, Refused> {
        // SAFETY: see above.
        match unsafe { parklot_try_acquire(&mut self.raw, counter) } {
            1 => Ok(Tried::Taken),
            2 => Ok(Tried::Zero),
            3 => Ok(Tried::Lost),
            other => Err(refusal(other)),
        }
    }

    /// The slow half of an acquire. Another thread may name the seat before this has returned.
    pub fn enter(&mut self, counter: u32, lifo: bool) -> Result<Entered, Refused> {
        // SAFETY: see above.
        match unsafe { parklot_enter(&mut self.raw, counter, lifo) } {
            1 => Ok(Entered::Taken),
            6 => Ok(Entered::Asleep),
            103 => Ok(Entered::Busy),
            other => Err(refusal(other)),
        }
    }

    pub fn poll(&mut self) -> Result<Polled, Refused> {
        // SAFETY: see above.
        match unsafe { parklot_poll(&mut self.raw) } {
            6 => Ok(Polled::Asleep),
            7 => Ok(Polled::Woken),
            10 => Ok(Polled::Handed),
            other => Err(refusal(other)),
        }
    }

    /// Gives up the wait of a seat that is asleep.
    pub fn leave(&mut self) -> Result<GaveUp, Refused> {
        // SAFETY: see above.
        match unsafe { parklot_leave(&mut self.raw) } {
            14 => Ok(GaveUp::Left),
            15 => Ok(GaveUp::Coming),
            7 => Ok(GaveUp::Woken),
            10 => Ok(GaveUp::Handed),
            103 => Ok(GaveUp::Busy),
            other => Err(refusal(other)),
        }
    }

    pub fn retry(&mut self) -> Result<Retried, Refused> {
        // SAFETY: see above.
        match unsafe { parklot_retry(&mut self.raw) } {
            1 => Ok(Retried::Taken),
            2 => Ok(Retried::Zero),
            other => Err(refusal(other)),
        }
    }

    pub fn post(&mut self, counter: u32) -> Result<Posted, Refused> {
        // SAFETY: see above.
        posted(unsafe { parklot_post(&mut self.raw, counter) })
    }

    pub fn post_many(&mut self, counter: u32, units: u32) -> Result<Posted, Refused> {
        // SAFETY: see above.
        posted(unsafe { parklot_post_many(&mut self.raw, counter, units) })
    }

    pub fn wake(&mut self, handoff: bool) -> Result<Woke, Refused> {
        let mut woken = 0;
        // SAFETY: see above.
        match unsafe { parklot_wake(&mut self.raw, handoff, &mut woken) } {
            8 => Ok(Woke::Nobody),
            9 => Ok(Woke::One(woken)),
            10 => Ok(Woke::Handed(woken)),
            103 => Ok(Woke::Busy),
            other => Err(refusal(other)),
        }
    }

    /// Writes whom it woke to the beginning of `woken`, which has room for 256.
    pub fn wake_some(&mut self, woken: &mut [u32]) -> Result<WokeSome, Refused> {
        let mut count = 0;
        // SAFETY: see above; `woken` is a slice with room for as many numbers as it is told, and nothing else is in it.
        match unsafe { parklot_wake_some(&mut self.raw, woken.as_mut_ptr(), woken.len(), &mut count) } {
            4 => Ok(WokeSome::Done(count as usize)),
            103 => Ok(WokeSome::Busy),
            other => Err(refusal(other)),
        }
    }

    /// How many units the counter has: one look, old as soon as it is told.
    pub fn value(&mut self, counter: u32) -> Result<u64, Refused> {
        let mut value = 0;
        // SAFETY: see above.
        match unsafe { parklot_value(&mut self.raw, counter, &mut value) } {
            0 => Ok(value),
            other => Err(refusal(other)),
        }
    }

    /// How many wait, or are about to, at the root of this counter: one look.
    pub fn waiters_of_root(&mut self, counter: u32) -> Result<u64, Refused> {
        let mut waits = 0;
        // SAFETY: see above.
        match unsafe { parklot_waiters_of_root(&mut self.raw, counter, &mut waits) } {
            0 => Ok(waits),
            other => Err(refusal(other)),
        }
    }
}

fn posted(answer: u32) -> Result<Posted, Refused> {
    match answer {
        4 => Ok(Posted::Done),
        5 => Ok(Posted::Owes),
        other => Err(refusal(other)),
    }
}

impl Drop for Seat {
    fn drop(&mut self) {
        // SAFETY: `&mut self` as above. A seat that parklot_new refused to fill, or one that is in the middle of a call, is
        // refused here with nothing done: then nothing is freed that anybody may still reach.
        unsafe { parklot_free(&mut self.raw) };
    }
}

/// What `try_wait` did.
#[derive(Clone, Copy, Debug, PartialEq, Eq)]
pub enum Waited {
    /// The ticket was granted before.
    AtOnce,
    /// The seat is queued: its task sleeps until it is named, and then polls.
    Parked,
    /// Nothing was done, and the seat holds its ticket still: again, a little later.
    Busy,
}

/// What `poll` of a list saw.
#[derive(Clone, Copy, Debug, PartialEq, Eq)]
pub enum Granted {
    NotYet,
    /// The ticket is granted.
    Now,
}

/// What `one` did.
#[derive(Clone, Copy, Debug, PartialEq, Eq)]
#[must_use = "whom it names has to be made ready to run"]
pub enum Notified {
    /// All tickets are granted.
    Nobody,
    /// The least ticket was granted, whose owner isn't parked yet.
    Early,
    /// It was granted, and this seat is parked with it.
    One(u32),
    /// Nothing was done: again, a little later.
    Busy,
}

/// All seats of a new list whose first ticket is this one, in the order of their numbers. The list lives in them, and ends with
/// the last.
pub fn list_seats(first: u64, count: usize) -> Result<Vec<ListSeat>, Refused> {
    if count > 65_536 {
        return Err(Refused::Seats);
    }
    let mut seats: Vec<ListSeat> = (0..count).map(|_| ListSeat { raw: Raw::EMPTY }).collect();
    // SAFETY: `ListSeat` is transparent, so a Vec of them is an array of `count` structs that are zeros, and it is new.
    match unsafe { parklot_list_new(first, seats.as_mut_ptr().cast::<Raw>(), count) } {
        0 => Ok(seats),
        other => Err(refusal(other)),
    }
}

/// One task's place at a notify list.
#[repr(transparent)]
pub struct ListSeat {
    raw: Raw,
}

// SAFETY: as of `Seat`.
unsafe impl Send for ListSeat {}

// SAFETY of all calls below: as of `Seat`'s, for a full seat of `parklot_list_new`.
impl ListSeat {
    /// Its number, by which others name it.
    pub fn number(&mut self) -> Result<u32, Refused> {
        let mut number = 0;
        // SAFETY: see above.
        match unsafe { parklot_list_number(&mut self.raw, &mut number) } {
            0 => Ok(number),
            other => Err(refusal(other)),
        }
    }

    /// Takes the next ticket; `try_wait` is the seat's next call.
    pub fn add(&mut self) -> Result<u64, Refused> {
        let mut ticket = 0;
        // SAFETY: see above.
        match unsafe { parklot_list_add(&mut self.raw, &mut ticket) } {
            0 => Ok(ticket),
            other => Err(refusal(other)),
        }
    }

    /// Waits with the ticket. Another thread may name the seat before this has returned.
    pub fn try_wait(&mut self) -> Result<Waited, Refused> {
        // SAFETY: see above.
        match unsafe { parklot_list_try_wait(&mut self.raw) } {
            11 => Ok(Waited::AtOnce),
            12 => Ok(Waited::Parked),
            103 => Ok(Waited::Busy),
            other => Err(refusal(other)),
        }
    }

    pub fn poll(&mut self) -> Result<Granted, Refused> {
        // SAFETY: see above.
        match unsafe { parklot_list_poll(&mut self.raw) } {
            6 => Ok(Granted::NotYet),
            7 => Ok(Granted::Now),
            other => Err(refusal(other)),
        }
    }

    /// Gives up the wait of a seat that is parked.
    pub fn leave(&mut self) -> Result<GaveUp, Refused> {
        // SAFETY: see above.
        match unsafe { parklot_list_leave(&mut self.raw) } {
            14 => Ok(GaveUp::Left),
            15 => Ok(GaveUp::Coming),
            7 => Ok(GaveUp::Woken),
            103 => Ok(GaveUp::Busy),
            other => Err(refusal(other)),
        }
    }

    /// Grants the least ticket that isn't granted.
    pub fn one(&mut self) -> Result<Notified, Refused> {
        let mut woken = 0;
        // SAFETY: see above.
        match unsafe { parklot_list_one(&mut self.raw, &mut woken) } {
            8 => Ok(Notified::Nobody),
            13 => Ok(Notified::Early),
            9 => Ok(Notified::One(woken)),
            103 => Ok(Notified::Busy),
            other => Err(refusal(other)),
        }
    }

    /// Grants all tickets, and writes who was parked to the beginning of `woken`, which has room for all seats of the list. A
    /// seat that was busy calls this again, and goes on.
    pub fn all(&mut self, woken: &mut [u32]) -> Result<WokeSome, Refused> {
        let mut count = 0;
        // SAFETY: see above; `woken` is a slice with room for as many numbers as it is told, and nothing else is in it.
        match unsafe { parklot_list_all(&mut self.raw, woken.as_mut_ptr(), woken.len(), &mut count) } {
            4 => Ok(WokeSome::Done(count as usize)),
            103 => Ok(WokeSome::Busy),
            other => Err(refusal(other)),
        }
    }

    /// Whether all tickets are granted: one look.
    pub fn quiet(&mut self) -> Result<bool, Refused> {
        let mut quiet = false;
        // SAFETY: see above.
        match unsafe { parklot_list_quiet(&mut self.raw, &mut quiet) } {
            0 => Ok(quiet),
            other => Err(refusal(other)),
        }
    }
}

impl Drop for ListSeat {
    fn drop(&mut self) {
        // SAFETY: as of `Seat`.
        unsafe { parklot_list_free(&mut self.raw) };
    }
}
