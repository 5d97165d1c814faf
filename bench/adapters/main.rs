//! The same frames round the same words and slots in plain Rust, with nothing proved.
use std::cell::UnsafeCell;
use std::sync::atomic::{AtomicU64, Ordering::SeqCst};

struct Cluster {
    number: u32,
    off: u32,
    len: u32,
    bytes: [u8; 2048],
}

#[derive(Clone, Copy, PartialEq, Eq)]
enum Status {
    Posted,
    Emitted,
}

struct Desc {
    seg: Box<Cluster>,
    ticket: (u32, u32),
    stamp: (u32, u32, u32),
    last: bool,
    status: Status,
}

fn after(size: u32, at: u32) -> u32 {
    if at + 1 == size { 0 } else { at + 1 }
}

fn further(size: u32, at: u32, n: u32) -> u32 {
    if at + n >= size { at + n - size } else { at + n }
}

fn distance(size: u32, from: u32, to: u32) -> u32 {
    if to >= from { to - from } else { size - from + to }
}

/// Where an end stands in its laps of the completion entries.
#[derive(Clone, Copy)]
struct Lap {
    entry: u32,
    generation: u64,
}

impl Lap {
    fn next(self, size: u32) -> Lap {
        if self.entry + 1 == size {
            Lap { entry: 0, generation: 1 - self.generation }
        } else {
            Lap { entry: self.entry + 1, generation: self.generation }
        }
    }
}

/// The slots of the next entry to be posted and reclaimed, and of the first that isn't known to be returned.
struct Driver {
    posted: u32,
    back: u32,
    known: u32,
    bare: u32,
    left: u32,
    lap: Lap,
}

/// The slots of the next entry to be fetched and completed, of the first that isn't known to be rung, and of a frame's
/// first.
struct Device {
    fetched: u32,
    completed: u32,
    known: u32,
    first: u32,
    left: u32,
    lap: Lap,
}

/// How an adapter's words say what is returned.
trait Words {
    fn count(size: u32) -> u32;

    /// A frame is returned, which ends before the slot `device.completed`.
    fn tell(words: &[AtomicU64], size: u32, device: &mut Device);

    /// How many more are returned.
    fn learn(words: &[AtomicU64], size: u32, driver: &mut Driver) -> u32;
}

struct Writeback;

impl Words for Writeback {
    fn count(_size: u32) -> u32 {
        2
    }

    fn tell(words: &[AtomicU64], _size: u32, device: &mut Device) {
        words[1].store(device.completed as u64, SeqCst);
    }

    fn learn(words: &[AtomicU64], size: u32, driver: &mut Driver) -> u32 {
        distance(size, driver.known, words[1].load(SeqCst) as u32)
    }
}

struct Legacy;

impl Words for Legacy {
    fn count(size: u32) -> u32 {
        1 + size
    }

    fn tell(words: &[AtomicU64], size: u32, device: &mut Device) {
        let count = distance(size, device.first, device.completed);
        words[1 + device.first as usize].store(count as u64, SeqCst);
    }

    fn learn(words: &[AtomicU64], size: u32, driver: &mut Driver) -> u32 {
        let mut all = 0;
        loop {
            let status = &words[1 + further(size, driver.known, all) as usize];
            let found = status.load(SeqCst) as u32;
            if found == 0 {
                return all;
            }
            status.store(0, SeqCst);
            all += found;
        }
    }
}

struct Generation;

impl Words for Generation {
    fn count(size: u32) -> u32 {
        1 + size
    }

    fn tell(words: &[AtomicU64], size: u32, device: &mut Device) {
        let slot = if device.completed == 0 { size - 1 } else { device.completed - 1 };
        words[1 + device.lap.entry as usize].store(device.lap.generation + 65536 * slot as u64, SeqCst);
        device.lap = device.lap.next(size);
    }

    fn learn(words: &[AtomicU64], size: u32, driver: &mut Driver) -> u32 {
        let mut behind = driver.known;
        loop {
            let found = words[1 + driver.lap.entry as usize].load(SeqCst);
            if found % 2 != driver.lap.generation {
                return distance(size, driver.known, behind);
            }
            behind = after(size, (found / 65536) as u32);
            driver.lap = driver.lap.next(size);
        }
    }
}

struct Ring<W> {
    words: Vec<AtomicU64>,
    slots: Vec<UnsafeCell<Option<Desc>>>,
    size: u32,
    kind: std::marker::PhantomData<W>,
}

// Each slot has one owner between two steps on the words.
unsafe impl<W> Sync for Ring<W> {}

impl<W: Words> Ring<W> {
    fn make(size: u32) -> (Ring<W>, Driver, Device) {
        let ring = Ring {
            words: (0..W::count(size)).map(|_| AtomicU64::new(0)).collect(),
            slots: (0..size).map(|_| UnsafeCell::new(None)).collect(),
            size,
            kind: std::marker::PhantomData,
        };
        let lap = Lap { entry: 0, generation: 1 };
        let driver = Driver { posted: 0, back: 0, known: 0, bare: size, left: 0, lap };
        (ring, driver, Device { fetched: 0, completed: 0, known: 0, first: 0, left: 0, lap })
    }

    fn exchange(&self, slot: u32, new: Option<Desc>) -> Option<Desc> {
        unsafe { std::mem::replace(&mut *self.slots[slot as usize].get(), new) }
    }

    fn avail(&self, driver: &Driver) -> u32 {
        driver.bare - 1
    }

    fn post(&self, driver: &mut Driver, d: Desc) {
        self.exchange(driver.posted, Some(d));
        driver.posted = after(self.size, driver.posted);
        driver.bare -= 1;
    }

    fn flush(&self, driver: &mut Driver) {
        self.words[0].store(driver.posted as u64, SeqCst);
    }

    fn credits(&self, driver: &mut Driver) -> u32 {
        let more = W::learn(&self.words, self.size, driver);
        driver.known = further(self.size, driver.known, more);
        driver.left += more;
        more
    }

    fn take(&self, at: &mut u32, left: &mut u32) -> Option<Desc> {
        if *left == 0 {
            return None;
        }
        let d = self.exchange(*at, None);
        *at = after(self.size, *at);
        *left -= 1;
        d
    }

    fn reclaim(&self, driver: &mut Driver) -> Option<Desc> {
        let d = self.take(&mut driver.back, &mut driver.left)?;
        driver.bare += 1;
        Some(d)
    }

    fn fetch(&self, device: &mut Device) -> u32 {
        let found = self.words[0].load(SeqCst) as u32;
        let more = distance(self.size, device.known, found);
        device.known = found;
        device.left += more;
        more
    }

    fn next(&self, device: &mut Device) -> Option<Desc> {
        self.take(&mut device.fetched, &mut device.left)
    }

    fn complete(&self, device: &mut Device, d: Desc) {
        let last = d.last;
        self.exchange(device.completed, Some(d));
        device.completed = after(self.size, device.completed);
        if last {
            W::tell(&self.words, self.size, device);
            device.first = device.completed;
        }
    }
}

fn post_frame<W: Words>(ring: &Ring<W>, driver: &mut Driver, hand: &mut Vec<Desc>, count: u32) {
    if ring.avail(driver) < count || hand.len() < count as usize {
        return;
    }
    for part in 0..count {
        if let Some(d) = hand.pop() {
            ring.post(driver, Desc { last: part + 1 == count, status: Status::Posted, ..d });
        }
    }
    ring.flush(driver);
}

fn emit_all<W: Words>(ring: &Ring<W>, device: &mut Device) {
    for _ in 0..ring.fetch(device) {
        if let Some(d) = ring.next(device) {
            ring.complete(device, Desc { status: Status::Emitted, ..d });
        }
    }
}

fn reclaim_all<W: Words>(ring: &Ring<W>, driver: &mut Driver, hand: &mut Vec<Desc>) -> u32 {
    let more = ring.credits(driver);
    for _ in 0..more {
        if let Some(d) = ring.reclaim(driver) {
            hand.push(d);
        }
    }
    more
}

fn measured<W: Words>(size: u32, count: u32, frames: u32) -> u64 {
    let mut hand = Vec::with_capacity(4);
    for number in 0..4 {
        let seg = Box::new(Cluster { number, off: 0, len: 1, bytes: [7; 2048] });
        hand.push(Desc { seg, ticket: (0, 0), stamp: (1, 2, 3), last: false, status: Status::Posted });
    }
    let (ring, mut driver, mut device) = Ring::<W>::make(size);
    let mut back = 0u64;
    for _ in 0..frames {
        post_frame(&ring, &mut driver, &mut hand, count);
        emit_all(&ring, &mut device);
        back = back.wrapping_add(reclaim_all(&ring, &mut driver, &mut hand) as u64);
    }
    back
}

fn main() {
    let words: Vec<String> = std::env::args().skip(1).collect();
    let number = |at: usize| words.get(at).and_then(|word| word.parse().ok()).unwrap_or(0);
    let (size, count, frames) = (number(1), number(2), number(3));
    let back = match words.first().map(String::as_str) {
        Some("legacy") => measured::<Legacy>(size, count, frames),
        Some("generation") => measured::<Generation>(size, count, frames),
        _ => measured::<Writeback>(size, count, frames),
    };
    println!("{back}");
}
