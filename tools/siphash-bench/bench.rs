// Compares the proved SipHash-2-4 with Rust's own: first the values, then the time on texts of 14 bytes.
// Ours is a function of the static library and is called; Rust's is timed called as well, and where the compiler may inline it.
#![allow(deprecated)]
use std::hash::{Hasher, SipHasher};
use std::hint::black_box;
use std::time::Instant;

unsafe extern "C" {
    fn dagbirin_siphash(low: u64, high: u64, message: *const u8, length: usize) -> u64;
}

const LOW: u64 = 0x0706050403020100;
const HIGH: u64 = 0x0f0e0d0c0b0a0908;
const TEXT: usize = 14;
const TEXTS: usize = 1000;
const ROUNDS: usize = 20;
const RUNS: usize = 4000;

fn ours(low: u64, high: u64, message: &[u8]) -> u64 {
    unsafe { dagbirin_siphash(low, high, message.as_ptr(), message.len()) }
}

fn rusts(low: u64, high: u64, message: &[u8]) -> u64 {
    let mut hasher = SipHasher::new_with_keys(low, high);
    hasher.write(message);
    hasher.finish()
}

#[inline(never)]
fn rusts_called(low: u64, high: u64, message: &[u8]) -> u64 {
    rusts(low, high, message)
}

// Numbers that look random, the same at each start (splitmix64).
struct Random(u64);

impl Random {
    fn next(&mut self) -> u64 {
        self.0 = self.0.wrapping_add(0x9e3779b97f4a7c15);
        let x = (self.0 ^ (self.0 >> 30)).wrapping_mul(0xbf58476d1ce4e5b9);
        let x = (x ^ (x >> 27)).wrapping_mul(0x94d049bb133111eb);
        x ^ (x >> 31)
    }

    fn bytes(&mut self, length: usize) -> Vec<u8> {
        (0..length).map(|_| self.next() as u8).collect()
    }
}

fn same(low: u64, high: u64, message: &[u8]) {
    assert_eq!(ours(low, high, message), rusts(low, high, message), "{low:x} {high:x} {message:x?}");
}

fn compare(random: &mut Random) -> usize {
    let counted: Vec<u8> = (0..64).collect();
    assert_eq!(ours(LOW, HIGH, &counted[..15]), 0xa129ca6149be45e5);
    for length in 0..=63 {
        same(LOW, HIGH, &counted[..length]);
    }
    for length in (0..200_000).map(|i| i % 600).chain([65_535, 65_536, 1_000_003]) {
        let message = random.bytes(length);
        same(random.next(), random.next(), &message);
    }
    64 + 200_000 + 3
}

// The time of one call in ns: all texts, many rounds.
fn time(texts: &[[u8; TEXT]], hash: impl Fn(u64, u64, &[u8]) -> u64) -> f64 {
    let start = Instant::now();
    let mut all = 0;
    for round in 0..ROUNDS as u64 {
        for text in texts {
            all ^= hash(black_box(LOW ^ round), HIGH, black_box(&text[..]));
        }
    }
    black_box(all);
    start.elapsed().as_nanos() as f64 / (ROUNDS * texts.len()) as f64
}

fn main() {
    let mut random = Random(1);
    println!("equal on {} messages", compare(&mut random));
    let texts: Vec<[u8; TEXT]> = (0..TEXTS).map(|_| random.bytes(TEXT).try_into().unwrap()).collect();
    let (mut own, mut called, mut inlined) = (f64::MAX, f64::MAX, f64::MAX);
    for _ in 0..RUNS {
        own = own.min(time(&texts, ours));
        called = called.min(time(&texts, rusts_called));
        inlined = inlined.min(time(&texts, rusts));
    }
    println!("proved {own:.2} ns a call on {TEXT} bytes");
    println!("Rust   {called:.2} ns called, ratio {:.3}", own / called);
    println!("Rust   {inlined:.2} ns where it may be inlined, ratio {:.3}", own / inlined);
}
