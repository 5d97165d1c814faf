//! The least of the ring's machine over plain atomics: the word, the steps and the waiting, with nothing proved.
use std::cell::UnsafeCell;
use std::sync::atomic::{AtomicU64, Ordering::SeqCst};
use std::thread;

const SIZE: u32 = 2048;
const BUDGET: u64 = 2048;
const LOOKS: u32 = 64;
const IDLE: u64 = 0;
const BUSY: u64 = 1;
const STALLED: u64 = 2;
const ABDICATED: u64 = 3;

#[derive(Clone, Copy)]
struct Word {
    head: u32,
    tail: u32,
    cidx: u32,
    flag: u64,
}

impl Word {
    fn of(word: u64) -> Word {
        Word { head: (word & 0xffff) as u32, tail: (word >> 16 & 0xffff) as u32, cidx: (word >> 32 & 0xffff) as u32, flag: word >> 48 }
    }

    fn pack(self) -> u64 {
        self.head as u64 | (self.tail as u64) << 16 | (self.cidx as u64) << 32 | self.flag << 48
    }
}

fn advance(place: u32, n: u32) -> u32 {
    let next = place + n;
    if next >= SIZE { next - SIZE } else { next }
}

fn distance(from: u32, to: u32) -> u32 {
    if to >= from { to - from } else { SIZE - from + to }
}

fn space(w: Word) -> u32 {
    SIZE - 1 - distance(w.cidx, w.head)
}

/// What the consumer keeps: a count and a sum.
#[derive(Default)]
struct Drainer {
    count: u64,
    sum: u64,
    batch: Vec<u64>,
}

impl Drainer {
    fn drain(&mut self) -> u32 {
        let n = self.batch.len() as u32;
        for item in self.batch.drain(..) {
            self.count += 1;
            self.sum = self.sum.wrapping_add(item);
        }
        n
    }
}

struct Ring {
    word: AtomicU64,
    slots: Vec<UnsafeCell<Option<u64>>>,
    drainer: UnsafeCell<Drainer>,
}

// Each slot has one owner between two steps on the word.
unsafe impl Sync for Ring {}

impl Ring {
    fn look(&self) -> Word {
        Word::of(self.word.load(SeqCst))
    }

    fn exchange(&self, old: Word, new: Word) -> Result<(), Word> {
        self.word.compare_exchange(old.pack(), new.pack(), SeqCst, SeqCst).map(|_| ()).map_err(Word::of)
    }

    fn look_for_quiet(&self, mut seen: Word) -> Word {
        for _ in 0..LOOKS {
            if seen.head == seen.tail {
                break;
            }
            thread::yield_now();
            seen = self.look();
        }
        seen
    }

    fn claim(&self) -> Option<u32> {
        let mut seen = self.look();
        loop {
            let quiet = self.look_for_quiet(seen);
            if space(quiet) <= 1 {
                return None;
            }
            match self.exchange(quiet, Word { head: advance(quiet.head, 1), ..quiet }) {
                Ok(()) => return Some(quiet.head),
                Err(found) => seen = found,
            }
        }
    }

    fn await_turn(&self, place: u32) -> Word {
        let mut turns = 0u32;
        loop {
            let w = self.look();
            if w.tail == place {
                return w;
            }
            turns += 1;
            if turns % 16 == 0 {
                thread::yield_now();
            } else {
                std::hint::spin_loop();
            }
        }
    }

    /// Whether the item was taken.
    fn enqueue(&self, item: u64) -> bool {
        let Some(place) = self.claim() else { return false };
        unsafe { *self.slots[place as usize].get() = Some(item) };
        loop {
            let w = self.await_turn(place);
            let tail = advance(w.tail, 1);
            if self.exchange(w, Word { tail, flag: BUSY, ..w }).is_ok() {
                if w.flag != BUSY {
                    self.drain(w.cidx, tail);
                }
                return true;
            }
        }
    }

    fn drain(&self, mut cidx: u32, mut tail: u32) {
        let drainer = unsafe { &mut *self.drainer.get() };
        let mut total = 0u64;
        loop {
            let mut at = cidx;
            let mut pending = 0u32;
            let mut stalled = false;
            while at != tail && pending < 64 && (pending == 0 || total < BUDGET) {
                let n = distance(at, tail).min(32);
                for i in 0..n {
                    if let Some(item) = unsafe { (*self.slots[advance(at, i) as usize].get()).take() } {
                        drainer.batch.push(item);
                    }
                }
                let k = drainer.drain();
                at = advance(at, k);
                pending += k;
                total += k as u64;
                if k == 0 {
                    stalled = true;
                    break;
                }
            }
            loop {
                let w = self.look();
                let flag = if stalled {
                    STALLED
                } else if at == w.tail {
                    IDLE
                } else if total >= BUDGET && w.tail != w.head {
                    ABDICATED
                } else {
                    BUSY
                };
                if self.exchange(w, Word { cidx: at, flag, ..w }).is_ok() {
                    if flag != BUSY {
                        return;
                    }
                    cidx = at;
                    tail = w.tail;
                    break;
                }
            }
        }
    }
}

fn produce(ring: &Ring, first: u64, items: u64) {
    for i in 0..items {
        while !ring.enqueue(first + i) {
            thread::yield_now();
        }
    }
}

fn main() {
    let producers: u64 = std::env::args().nth(1).and_then(|w| w.parse().ok()).unwrap_or(1);
    let items: u64 = std::env::args().nth(2).and_then(|w| w.parse().ok()).unwrap_or(1000);
    let ring = Ring { word: AtomicU64::new(0), slots: (0..SIZE).map(|_| UnsafeCell::new(None)).collect(), drainer: UnsafeCell::new(Drainer::default()) };
    thread::scope(|scope| {
        for p in 0..producers {
            let ring = &ring;
            scope.spawn(move || produce(ring, p * items, items / producers));
        }
    });
    println!("{}", ring.drainer.into_inner().count);
}
