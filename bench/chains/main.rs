//! The same moves with boxed nodes in plain Rust.
use std::collections::VecDeque;
use std::hint::black_box;

struct Node {
    next: Option<Box<Node>>,
    number: u32,
    off: u32,
    len: u32,
    bytes: [u8; 2048],
}

struct Packet {
    ticket: (u32, u32),
    stamp: (u32, u32),
    first: Option<Box<Node>>,
    count: u32,
    len: u32,
}

fn made(mut node: Box<Node>, index: u32, bytes: &[u8]) -> Packet {
    node.off = 0;
    node.len = bytes.len() as u32;
    node.bytes[..bytes.len()].copy_from_slice(bytes);
    let len = node.len;
    Packet { ticket: (0, index), stamp: (0, 0), first: Some(node), count: 1, len }
}

fn unmade(packet: Packet) -> Option<(Box<Node>, u32)> {
    let Packet { ticket: _, stamp: _, first, count: _, len: _ } = packet;
    let mut node = first?;
    let _ = node.next.take();
    let len = node.bytes[node.off as usize..][..node.len as usize].len() as u32;
    Some((node, len))
}

fn packets(n: u32) -> u64 {
    let mut hand = Some(Box::new(Node { next: None, number: 0, off: 0, len: 0, bytes: [0; 2048] }));
    let mut deque = VecDeque::with_capacity(32);
    let mut slot;
    let mut sum = 0u64;
    let bytes = black_box([7u8; 60]);
    for index in 0..n {
        if let Some(node) = hand.take() {
            deque.push_back(made(node, index, &bytes));
        }
        slot = deque.pop_front();
        if let Some(packet) = slot.take() {
            if let Some((node, len)) = unmade(packet) {
                hand = Some(node);
                sum = sum.wrapping_add(len as u64);
            }
        }
    }
    sum
}

fn main() {
    let n = std::env::args().nth(1).and_then(|w| w.parse().ok()).unwrap_or(0);
    println!("{}", packets(n));
}
