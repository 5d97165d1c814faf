//! The same packets through the same steps in plain Rust, with nothing proved: the descriptor ring in shared words and
//! slots, the pool as a counted queue of clusters, chains of linked clusters, the port's word, and the order record.
//!
//! With `--cfg least` a word is stored and loaded with the weakest orderings that the steps allow.
use std::cell::UnsafeCell;
use std::collections::VecDeque;
use std::hint::black_box;
use std::ptr;
use std::sync::atomic::{AtomicU64, AtomicUsize, Ordering, Ordering::SeqCst, fence};

const LOAD: Ordering = if cfg!(least) { Ordering::Acquire } else { SeqCst };
const STORE: Ordering = if cfg!(least) { Ordering::Release } else { SeqCst };

const MOST: u32 = 32;
const TICKETS: u32 = 100_000;

// Clusters and chains.

struct Cluster {
    next: *mut Cluster,
    number: u32,
    off: u32,
    len: u32,
    bytes: [u8; 2048],
}

type Seg = Box<Cluster>;

impl Cluster {
    fn bytes(&self) -> &[u8] {
        &self.bytes[self.off as usize..][..self.len as usize]
    }

    fn room(&self) -> u32 {
        2048 - (self.off + self.len)
    }

    fn append(&mut self, more: &[u8]) {
        let from = (self.off + self.len) as usize;
        self.bytes[from..from + more.len()].copy_from_slice(more);
        self.len += more.len() as u32;
    }
}

fn fill(mut cluster: Seg, bytes: &[u8]) -> Seg {
    cluster.off = 0;
    cluster.len = bytes.len() as u32;
    cluster.bytes[..bytes.len()].copy_from_slice(bytes);
    cluster
}

/// Clusters in a linked list, with their number and their bytes.
struct Chain {
    first: *mut Cluster,
    last: *mut Cluster,
    count: u32,
    len: u32,
}

impl Chain {
    fn new() -> Chain {
        Chain { first: ptr::null_mut(), last: ptr::null_mut(), count: 0, len: 0 }
    }

    fn push(&mut self, seg: Seg) {
        self.len += seg.len;
        self.count += 1;
        let place = Box::into_raw(seg);
        if self.first.is_null() {
            self.first = place;
        } else {
            unsafe { (*self.last).next = place };
        }
        self.last = place;
    }

    fn pop(&mut self) -> Option<Seg> {
        if self.count == 0 {
            return None;
        }
        let seg = unsafe { Box::from_raw(self.first) };
        self.count -= 1;
        self.first = if self.count == 0 { ptr::null_mut() } else { seg.next };
        self.len -= seg.len;
        Some(seg)
    }

    fn cat(&mut self, mut other: Chain) {
        while let Some(seg) = other.pop() {
            self.push(seg);
        }
    }

    fn collapse(&mut self, max: u32) -> Chain {
        let mut freed = Chain::new();
        if self.count <= max {
            return freed;
        }
        let mut done = Chain::new();
        let mut surplus = self.count - max;
        let Some(mut cursor) = self.pop() else {
            return freed;
        };
        while surplus > 0 {
            let Some(next) = self.pop() else { break };
            if next.len <= cursor.room() {
                cursor.append(next.bytes());
                freed.push(next);
                surplus -= 1;
            } else {
                done.push(std::mem::replace(&mut cursor, next));
            }
        }
        done.push(cursor);
        done.cat(std::mem::replace(self, Chain::new()));
        *self = done;
        freed
    }
}

impl Drop for Chain {
    fn drop(&mut self) {
        while self.pop().is_some() {}
    }
}

#[derive(Clone, Copy, PartialEq, Eq)]
struct Ticket {
    sender: u16,
    index: u32,
}

#[derive(Clone, Copy)]
struct Stamp {
    sec: u32,
    usec: u32,
    orig: u32,
}

struct Packet {
    ticket: Ticket,
    stamp: Stamp,
    chain: Chain,
}

enum Item {
    Packet(Packet),
    Kick,
}

// The pool.

struct Slot {
    stamp: AtomicUsize,
    value: UnsafeCell<Option<Seg>>,
}

/// A bounded queue for many threads, as `crossbeam`'s.
struct Queue {
    head: AtomicUsize,
    tail: AtomicUsize,
    slots: Vec<Slot>,
    lap: usize,
}

impl Queue {
    fn new(size: usize) -> Queue {
        let slots = (0..size).map(|at| Slot { stamp: AtomicUsize::new(at), value: UnsafeCell::new(None) }).collect();
        Queue { head: AtomicUsize::new(0), tail: AtomicUsize::new(0), slots, lap: (size + 1).next_power_of_two() }
    }

    fn after(&self, place: usize) -> usize {
        let index = place & (self.lap - 1);
        if index + 1 < self.slots.len() { place + 1 } else { (place & !(self.lap - 1)).wrapping_add(self.lap) }
    }

    fn push(&self, seg: Seg) -> Result<(), Seg> {
        let mut tail = self.tail.load(LOAD);
        loop {
            let slot = &self.slots[tail & (self.lap - 1)];
            let stamp = slot.stamp.load(LOAD);
            if stamp == tail {
                match self.tail.compare_exchange_weak(tail, self.after(tail), SeqCst, LOAD) {
                    Ok(_) => {
                        unsafe { *slot.value.get() = Some(seg) };
                        slot.stamp.store(tail + 1, STORE);
                        return Ok(());
                    }
                    Err(found) => tail = found,
                }
            } else {
                if stamp.wrapping_add(self.lap) == tail + 1 {
                    fence(SeqCst);
                    if self.head.load(LOAD).wrapping_add(self.lap) == tail {
                        return Err(seg);
                    }
                }
                tail = self.tail.load(LOAD);
            }
        }
    }

    fn pop(&self) -> Option<Seg> {
        let mut head = self.head.load(LOAD);
        loop {
            let slot = &self.slots[head & (self.lap - 1)];
            let stamp = slot.stamp.load(LOAD);
            if stamp == head + 1 {
                match self.head.compare_exchange_weak(head, self.after(head), SeqCst, LOAD) {
                    Ok(_) => {
                        let seg = unsafe { (*slot.value.get()).take() };
                        slot.stamp.store(head.wrapping_add(self.lap), STORE);
                        return seg;
                    }
                    Err(found) => head = found,
                }
            } else {
                if stamp == head {
                    fence(SeqCst);
                    if self.tail.load(LOAD) == head {
                        return None;
                    }
                }
                head = self.head.load(LOAD);
            }
        }
    }
}

/// How many clusters are there, and a queue with them.
struct Pool {
    count: AtomicU64,
    size: u64,
    queue: Queue,
}

// A slot of the queue has one owner between two steps on its stamp.
unsafe impl Sync for Pool {}

impl Pool {
    fn new(size: u32) -> Pool {
        let pool = Pool { count: AtomicU64::new(0), size: size as u64, queue: Queue::new(size as usize) };
        for number in 0..size {
            pool.give(Box::new(Cluster { next: ptr::null_mut(), number, off: 0, len: 0, bytes: [0; 2048] }));
        }
        pool
    }

    fn take(&self) -> Option<Seg> {
        let mut found = self.count.load(LOAD);
        loop {
            if found == 0 {
                return None;
            }
            match self.count.compare_exchange(found, found - 1, SeqCst, LOAD) {
                Ok(_) => break,
                Err(other) => found = other,
            }
        }
        loop {
            if let Some(seg) = self.queue.pop() {
                return Some(seg);
            }
        }
    }

    fn give(&self, seg: Seg) {
        let mut seg = seg;
        while let Err(back) = self.queue.push(seg) {
            seg = back;
        }
        loop {
            let found = self.count.load(LOAD);
            if found < self.size && self.count.compare_exchange(found, found + 1, SeqCst, LOAD).is_ok() {
                return;
            }
        }
    }

    fn give_all(&self, mut freed: Chain) {
        while let Some(seg) = freed.pop() {
            self.give(seg);
        }
    }
}

// The descriptor ring.

#[derive(Clone, Copy, PartialEq, Eq)]
enum Status {
    Posted,
    Emitted,
    Flushed,
}

struct Desc {
    seg: Seg,
    ticket: Ticket,
    stamp: Stamp,
    last: bool,
    status: Status,
}

/// The slots of the next entry to be posted and reclaimed, and of the first that isn't known to be returned; how many
/// are free, and how many are known to be returned.
struct Driver {
    posted: u32,
    back: u32,
    known: u32,
    bare: u32,
    left: u32,
}

struct Device {
    fetched: u32,
    completed: u32,
    known: u32,
    left: u32,
}

struct Ring {
    words: [AtomicU64; 2],
    slots: Vec<UnsafeCell<Option<Desc>>>,
    size: u32,
}

// Each slot has one owner between two steps on the words.
unsafe impl Sync for Ring {}

impl Ring {
    fn make(size: u32) -> (Ring, Driver, Device) {
        let words = [AtomicU64::new(0), AtomicU64::new(0)];
        let ring = Ring { words, slots: (0..size).map(|_| UnsafeCell::new(None)).collect(), size };
        let driver = Driver { posted: 0, back: 0, known: 0, bare: size, left: 0 };
        (ring, driver, Device { fetched: 0, completed: 0, known: 0, left: 0 })
    }

    fn after(&self, at: u32) -> u32 {
        if at + 1 == self.size { 0 } else { at + 1 }
    }

    fn distance(&self, from: u32, to: u32) -> u32 {
        if to >= from { to - from } else { self.size - from + to }
    }

    fn exchange(&self, slot: u32, new: Option<Desc>) -> Option<Desc> {
        unsafe { std::mem::replace(&mut *self.slots[slot as usize].get(), new) }
    }

    fn avail(&self, driver: &Driver) -> u32 {
        driver.bare - 1
    }

    fn post(&self, driver: &mut Driver, d: Desc) {
        self.exchange(driver.posted, Some(d));
        driver.posted = self.after(driver.posted);
        driver.bare -= 1;
    }

    fn flush(&self, driver: &mut Driver) {
        self.words[0].store(driver.posted as u64, STORE);
    }

    fn credits(&self, driver: &mut Driver) -> u32 {
        let found = self.words[1].load(LOAD) as u32;
        let more = self.distance(driver.known, found);
        driver.known = found;
        driver.left += more;
        more
    }

    fn reclaim(&self, driver: &mut Driver) -> Option<Desc> {
        if driver.left == 0 {
            return None;
        }
        let d = self.exchange(driver.back, None);
        driver.back = self.after(driver.back);
        driver.left -= 1;
        driver.bare += 1;
        d
    }

    fn fetch(&self, device: &mut Device) -> u32 {
        let found = self.words[0].load(LOAD) as u32;
        let more = self.distance(device.known, found);
        device.known = found;
        device.left += more;
        more
    }

    fn next(&self, device: &mut Device) -> Option<Desc> {
        if device.left == 0 {
            return None;
        }
        let d = self.exchange(device.fetched, None);
        device.fetched = self.after(device.fetched);
        device.left -= 1;
        d
    }

    fn complete(&self, device: &mut Device, d: Desc) {
        let last = d.last;
        self.exchange(device.completed, Some(d));
        device.completed = self.after(device.completed);
        if last {
            self.words[1].store(device.completed as u64, STORE);
        }
    }
}

// The order record.

#[derive(Clone, Copy, PartialEq, Eq)]
enum Fate {
    Wire,
    TooManySegments,
    Reset,
    Flush,
}

#[derive(Clone, Copy)]
struct Line {
    ticket: Ticket,
    fate: Option<Fate>,
}

struct Log {
    counts: Vec<u32>,
    places: Vec<u32>,
    lines: Vec<Line>,
    room: Vec<(Ticket, Fate)>,
}

impl Log {
    fn new(counts: &[u32]) -> Log {
        let total = counts.iter().sum::<u32>() as usize;
        Log {
            counts: counts.to_vec(),
            places: vec![0; total],
            lines: Vec::with_capacity(total),
            room: Vec::with_capacity(total),
        }
    }

    fn place(&self, t: Ticket) -> Option<usize> {
        let sender = t.sender as usize;
        if self.counts.len() <= sender || self.counts[sender] <= t.index {
            return None;
        }
        Some((self.counts[..sender].iter().sum::<u32>() + t.index) as usize)
    }

    fn note(&mut self, ticket: Ticket) {
        let Some(place) = self.place(ticket) else { return };
        if self.places[place] == 0 {
            self.lines.push(Line { ticket, fate: None });
            self.places[place] = self.lines.len() as u32;
        }
    }

    fn settle(&mut self, ticket: Ticket, fate: Fate) {
        let Some(place) = self.place(ticket) else { return };
        let number = self.places[place] as usize;
        if number > 0 {
            self.lines[number - 1].fate.get_or_insert(fate);
        }
    }

    fn wire(&self) -> u64 {
        self.lines.iter().filter(|line| line.fate == Some(Fate::Wire)).count() as u64
    }
}

// The queue.

struct Txq<'a> {
    ring: &'a Ring,
    port: &'a AtomicU64,
    pool: &'a Pool,
    driver: Driver,
    log: Log,
    max_segs: u32,
    doorbell_every: u32,
}

enum Encap {
    Posted { freed: Chain },
    NoRoom { packet: Packet },
    Dropped(Chain),
}

enum Sent {
    Posted,
    Gone,
    Full(Item),
}

impl Txq<'_> {
    fn encap(&mut self, packet: Packet) -> Encap {
        if self.ring.avail(&self.driver) <= self.max_segs + 2 {
            return Encap::NoRoom { packet };
        }
        let Packet { ticket, stamp, mut chain } = packet;
        let freed = chain.collapse(self.max_segs);
        if chain.count > self.max_segs {
            return Encap::Dropped(chain);
        }
        while let Some(seg) = chain.pop() {
            let last = chain.count == 0;
            self.ring.post(&mut self.driver, Desc { seg, ticket, stamp, last, status: Status::Posted });
        }
        Encap::Posted { freed }
    }

    fn write_off(&mut self, ticket: Ticket, fate: Fate, freed: Chain) {
        self.log.note(ticket);
        self.log.settle(ticket, fate);
        self.pool.give_all(freed);
    }

    fn send(&mut self, item: Item) -> Sent {
        let Item::Packet(packet) = item else { return Sent::Gone };
        let ticket = packet.ticket;
        match self.encap(packet) {
            Encap::NoRoom { packet } => Sent::Full(Item::Packet(packet)),
            Encap::Dropped(freed) => {
                self.write_off(ticket, Fate::TooManySegments, freed);
                Sent::Gone
            }
            Encap::Posted { freed } => {
                self.log.note(ticket);
                self.pool.give_all(freed);
                Sent::Posted
            }
        }
    }

    fn send_all(&mut self, batch: &mut VecDeque<Item>) -> u32 {
        let (mut count, mut unrung) = (0, 0);
        while let Some(item) = batch.pop_front() {
            match self.send(item) {
                Sent::Posted => unrung += 1,
                Sent::Gone => {}
                Sent::Full(item) => {
                    batch.push_front(item);
                    break;
                }
            }
            count += 1;
            if unrung == self.doorbell_every {
                self.ring.flush(&mut self.driver);
                unrung = 0;
            }
        }
        if unrung > 0 {
            self.ring.flush(&mut self.driver);
        }
        count
    }

    fn flush_all(&mut self, batch: &mut VecDeque<Item>) -> u32 {
        let mut count = 0;
        while let Some(item) = batch.pop_front() {
            if let Item::Packet(packet) = item {
                self.write_off(packet.ticket, Fate::Flush, packet.chain);
            }
            count += 1;
        }
        count
    }

    fn reclaim(&mut self) -> u32 {
        self.ring.credits(&mut self.driver);
        let mut frames = 0;
        while let Some(Desc { seg, ticket, stamp: _, last, status }) = self.ring.reclaim(&mut self.driver) {
            if last {
                let fate = match status {
                    Status::Emitted => Fate::Wire,
                    Status::Flushed => Fate::Flush,
                    Status::Posted => Fate::Reset,
                };
                self.log.settle(ticket, fate);
                frames += 1;
            }
            self.pool.give(seg);
        }
        frames
    }

    fn drain(&mut self, batch: &mut VecDeque<Item>) -> u32 {
        self.reclaim();
        match self.port.load(LOAD) {
            0 => self.send_all(batch),
            1 => 0,
            _ => self.flush_all(batch),
        }
    }
}

fn turn(ring: &Ring, device: &mut Device) {
    for _ in 0..ring.fetch(device) {
        if let Some(d) = ring.next(device) {
            ring.complete(device, Desc { status: Status::Emitted, ..d });
        }
    }
}

fn load_one(pool: &Pool, batch: &mut VecDeque<Item>, bytes: &[u8], index: u32) {
    if batch.len() >= MOST as usize {
        return;
    }
    let Some(cluster) = pool.take() else { return };
    let mut chain = Chain::new();
    chain.push(fill(cluster, bytes));
    let ticket = Ticket { sender: 0, index };
    batch.push_back(Item::Packet(Packet { ticket, stamp: Stamp { sec: 1, usec: 2, orig: 60 }, chain }));
}

fn measured(size: u32, count: u32) -> u64 {
    let (ring, driver, mut device) = Ring::make(size);
    let (port, pool) = (AtomicU64::new(0), Pool::new(MOST));
    let log = Log::new(&[TICKETS]);
    let (ring, port, pool) = (black_box(&ring), black_box(&port), black_box(&pool));
    let mut queue = Txq { ring, port, pool, driver, log, max_segs: 8, doorbell_every: 4 };
    let mut batch = VecDeque::with_capacity(MOST as usize);
    let bytes = [7; 60];
    for index in 0..TICKETS {
        load_one(pool, &mut batch, &bytes, index);
        if index % count == count - 1 {
            queue.drain(&mut batch);
            turn(ring, &mut device);
            queue.reclaim();
        }
    }
    queue.log.wire()
}

fn main() {
    let words: Vec<String> = std::env::args().skip(1).collect();
    let number = |at: usize| words.get(at).and_then(|word| word.parse().ok()).unwrap_or(1);
    let (size, count, times): (u32, u32, u32) = (number(0), number(1), number(2));
    let mut sum = 0u64;
    for _ in 0..times {
        sum = sum.wrapping_add(measured(size.clamp(64, 32_768), count.clamp(1, MOST)));
    }
    println!("{sum}");
}
