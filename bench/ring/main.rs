//! The ring with the same calls over plain atomics: the same word, steps, waiting, hand-over of items, answers and
//! counters, with nothing proved.
//!
//! With `--cfg reserves_at_once` it waits as FreeBSD's ring does in the kernel, where nothing can put a thread aside that
//! has reserved: it doesn't look first, and only pauses until its turn.
use std::cell::UnsafeCell;
use std::collections::VecDeque;
use std::sync::atomic::{AtomicU64, Ordering::SeqCst};
use std::thread;

const SIZE: u32 = 2048;
const BUDGET: u32 = 2048;
const LOOKS: u32 = if cfg!(reserves_at_once) { 0 } else { 64 };
const PAUSES: u32 = if cfg!(reserves_at_once) { u32::MAX } else { 16 };
const DRAIN_BATCH: usize = 32;
const UPDATE: u32 = 64;

#[derive(Clone, Copy, PartialEq, Eq)]
enum Flag {
    Idle,
    Busy,
    Stalled,
    Abdicated,
}

#[derive(Clone, Copy)]
struct RingWord {
    head: u16,
    tail: u16,
    cidx: u16,
    flag: Flag,
}

impl RingWord {
    fn unpack(word: u64) -> RingWord {
        let flag = match word >> 48 {
            0 => Flag::Idle,
            1 => Flag::Busy,
            2 => Flag::Stalled,
            _ => Flag::Abdicated,
        };
        RingWord { head: word as u16, tail: (word >> 16) as u16, cidx: (word >> 32) as u16, flag }
    }

    fn pack(self) -> u64 {
        self.head as u64 | (self.tail as u64) << 16 | (self.cidx as u64) << 32 | (self.flag as u64) << 48
    }
}

fn advance(size: u32, place: u16, n: u32) -> u16 {
    let next = place as u32 + n;
    (if next >= size { next - size } else { next }) as u16
}

fn distance(size: u32, from: u16, to: u16) -> u32 {
    if to >= from { (to - from) as u32 } else { size - from as u32 + to as u32 }
}

fn space(size: u32, w: RingWord) -> u32 {
    size - 1 - distance(size, w.cidx, w.head)
}

#[derive(Clone, Copy, Default)]
struct Counters {
    starts: u64,
    stalls: u64,
    restarts: u64,
    abdications: u64,
    enqueues: u64,
    drops: u64,
}

impl Counters {
    fn drained(&mut self, from: Flag, left: Flag, total: u64) {
        let restarted = from == Flag::Stalled && total != 0;
        self.restarts = self.restarts.saturating_add(restarted as u64);
        let stalled = left == Flag::Stalled && (from != Flag::Stalled || total != 0);
        self.stalls = self.stalls.saturating_add(stalled as u64);
        self.abdications = self.abdications.saturating_add((left == Flag::Abdicated) as u64);
    }
}

#[allow(dead_code)]
enum Enqueued {
    Behind,
    Abdicated,
    Drained { left: Flag, total: u64 },
    NoBuffers { seen: RingWord },
}

trait Drainer {
    type Item;

    fn drain(&mut self, batch: &mut VecDeque<Self::Item>) -> u32;
}

#[derive(Default)]
struct Seat {
    tally: Counters,
}

struct Post<D: Drainer> {
    drainer: D,
    batch: VecDeque<D::Item>,
}

struct Ring<D: Drainer> {
    word: AtomicU64,
    size: u32,
    slots: Vec<UnsafeCell<Option<D::Item>>>,
    post: UnsafeCell<Post<D>>,
}

// Each slot has one owner between two steps on the word.
unsafe impl<D: Drainer> Sync for Ring<D> {}

impl<D: Drainer> Ring<D> {
    fn new(size: u32, drainer: D) -> Ring<D> {
        let post = Post { drainer, batch: VecDeque::with_capacity(size as usize) };
        Ring {
            word: AtomicU64::new(0),
            size,
            slots: (0..size).map(|_| UnsafeCell::new(None)).collect(),
            post: UnsafeCell::new(post),
        }
    }

    fn look(&self) -> RingWord {
        RingWord::unpack(self.word.load(SeqCst))
    }

    fn exchange(&self, old: RingWord, new: RingWord) -> Result<(), RingWord> {
        self.word.compare_exchange(old.pack(), new.pack(), SeqCst, SeqCst).map(|_| ()).map_err(RingWord::unpack)
    }

    fn look_for_quiet(&self, mut seen: RingWord) -> RingWord {
        for _ in 0..LOOKS {
            if seen.head == seen.tail {
                break;
            }
            thread::yield_now();
            seen = self.look();
        }
        seen
    }

    fn claim(&self, n: u32) -> Result<u16, RingWord> {
        let mut seen = self.look();
        loop {
            let quiet = self.look_for_quiet(seen);
            if space(self.size, quiet) <= n {
                return Err(quiet);
            }
            match self.exchange(quiet, RingWord { head: advance(self.size, quiet.head, n), ..quiet }) {
                Ok(()) => return Ok(quiet.head),
                Err(found) => seen = found,
            }
        }
    }

    fn fill(&self, items: &mut VecDeque<D::Item>, place: u16) {
        let mut at = place;
        while let Some(item) = items.pop_front() {
            unsafe { *self.slots[at as usize].get() = Some(item) };
            at = advance(self.size, at, 1);
        }
    }

    /// The word before, and the one that was set.
    fn publish(&self, place: u16, n: u32, abdicate: bool) -> (RingWord, RingWord) {
        let mut waits = 0u32;
        let mut w = self.look();
        loop {
            if w.tail == place {
                let flag = match (abdicate, w.flag) {
                    (false, _) => Flag::Busy,
                    (true, Flag::Idle) => Flag::Abdicated,
                    (true, other) => other,
                };
                let next = RingWord { tail: advance(self.size, w.tail, n), flag, ..w };
                match self.exchange(w, next) {
                    Ok(()) => return (w, next),
                    Err(found) => w = found,
                }
            } else {
                waits += 1;
                if waits % PAUSES == 0 {
                    thread::yield_now();
                } else {
                    std::hint::spin_loop();
                }
                w = self.look();
            }
        }
    }

    fn enqueue(&self, seat: &mut Seat, items: &mut VecDeque<D::Item>, budget: u32, abdicate: bool) -> Enqueued {
        let n = items.len() as u32;
        let place = match self.claim(n) {
            Ok(place) => place,
            Err(seen) => {
                seat.tally.drops = seat.tally.drops.saturating_add(n as u64);
                if seen.flag == Flag::Stalled {
                    self.check_drainage(seat, 0);
                }
                return Enqueued::NoBuffers { seen };
            }
        };
        self.fill(items, place);
        let (found, set) = self.publish(place, n, abdicate);
        seat.tally.enqueues = seat.tally.enqueues.saturating_add(n as u64);
        if abdicate {
            return Enqueued::Abdicated;
        }
        if found.flag == Flag::Busy {
            return Enqueued::Behind;
        }
        seat.tally.starts = seat.tally.starts.saturating_add((found.flag == Flag::Idle) as u64);
        let (left, total) = self.drain(set, budget);
        seat.tally.drained(found.flag, left, total);
        Enqueued::Drained { left, total }
    }

    fn check_drainage(&self, seat: &mut Seat, budget: u32) {
        let seen = self.look();
        let left = seen.flag == Flag::Stalled || seen.flag == Flag::Abdicated;
        if left && seen.head == seen.tail && self.exchange(seen, RingWord { flag: Flag::Busy, ..seen }).is_ok() {
            let (left, total) = self.drain(seen, budget);
            seat.tally.drained(seen.flag, left, total);
        }
    }

    /// How many items were consumed, and whether the drainer would take no more.
    fn consume(&self, post: &mut Post<D>, from: RingWord, total: u64, budget: u32) -> (u32, bool) {
        let mut at = from.cidx;
        let mut left = distance(self.size, from.cidx, from.tail);
        let mut count = 0;
        loop {
            while left > 0 && post.batch.len() < DRAIN_BATCH {
                if let Some(item) = unsafe { (*self.slots[at as usize].get()).take() } {
                    post.batch.push_back(item);
                }
                at = advance(self.size, at, 1);
                left -= 1;
            }
            let k = post.drainer.drain(&mut post.batch);
            count += k;
            if k == 0 {
                return (count, true);
            }
            let more = left > 0 || !post.batch.is_empty();
            if !more || count >= UPDATE || total.saturating_add(count as u64) >= budget as u64 {
                return (count, false);
            }
        }
    }

    fn drain(&self, from: RingWord, budget: u32) -> (Flag, u64) {
        let post = unsafe { &mut *self.post.get() };
        let mut from = from;
        let mut total = 0u64;
        loop {
            let (count, stalled) = self.consume(post, from, total, budget);
            total = total.saturating_add(count as u64);
            self.fill(&mut post.batch, advance(self.size, from.cidx, count));
            loop {
                let w = self.look();
                let cidx = advance(self.size, w.cidx, count);
                let flag = if stalled {
                    Flag::Stalled
                } else if cidx == w.tail {
                    Flag::Idle
                } else if total >= budget as u64 && w.tail != w.head {
                    Flag::Abdicated
                } else {
                    Flag::Busy
                };
                let next = RingWord { cidx, flag, ..w };
                if self.exchange(w, next).is_ok() {
                    if flag != Flag::Busy {
                        return (flag, total);
                    }
                    from = next;
                    break;
                }
            }
        }
    }
}

struct Number {
    tag: u64,
}

/// A drainer that takes all, counts and adds up.
#[derive(Default)]
struct Counter {
    count: u64,
    sum: u64,
}

impl Drainer for Counter {
    type Item = Number;

    fn drain(&mut self, batch: &mut VecDeque<Number>) -> u32 {
        let count = batch.len();
        while let Some(item) = batch.pop_front() {
            self.count = self.count.wrapping_add(1);
            self.sum = self.sum.wrapping_add(item.tag);
        }
        count as u32
    }
}

fn send(ring: &Ring<Counter>, count: u64) -> Seat {
    let mut seat = Seat::default();
    let mut items = VecDeque::with_capacity(1);
    for tag in 0..count {
        items.push_back(Number { tag });
        while let Enqueued::NoBuffers { .. } = ring.enqueue(&mut seat, &mut items, BUDGET, false) {
            thread::yield_now();
        }
    }
    seat
}

fn main() {
    let producers: u64 = std::env::args().nth(1).and_then(|w| w.parse().ok()).unwrap_or(1);
    let items: u64 = std::env::args().nth(2).and_then(|w| w.parse().ok()).unwrap_or(1000);
    let ring = Ring::new(SIZE, Counter::default());
    let enqueued: u64 = thread::scope(|scope| {
        let senders: Vec<_> = (0..producers).map(|_| scope.spawn(|| send(&ring, items / producers))).collect();
        senders.into_iter().map(|sender| sender.join().map_or(0, |seat| seat.tally.enqueues)).sum()
    });
    println!("{enqueued}");
}
