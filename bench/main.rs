//! Holds the proved frame reader to a plain Rust one, and measures both.

mod frames;
mod plain;

use frames::{Kind, Random};
use std::hint::black_box;
use std::time::Instant;

unsafe extern "C" {
    fn dolfrims_key(in_port: u16, frame: *const u8, len: usize, key: *mut u8, key_len: usize) -> u8;
}

/// Both readers go by this call: 0 and the key, or the refusal's number.
type Read = unsafe extern "C" fn(u16, *const u8, usize, *mut u8, usize) -> u8;

const COMPARED: usize = 1_000_000;
const BATCH: usize = 10_000;
const PASSES: usize = 4;
const ROUNDS: usize = 151;

fn call(read: Read, in_port: u16, frame: &[u8], key: &mut [u8]) -> u8 {
    unsafe { read(in_port, frame.as_ptr(), frame.len(), key.as_mut_ptr(), key.len()) }
}

fn any_port(r: &mut Random) -> u16 {
    match r.below(32) {
        0 => r.below(65536) as u16,
        1 => r.below(3) as u16,
        2 => 62 + r.below(4) as u16,
        _ => 1 + r.below(63) as u16,
    }
}

/// Every answer and every key of the two, on frames of all kinds.
fn compare() -> bool {
    let mut r = Random::new(0x5EED);
    let mut answers = [0u64; 256];
    let mut differ = 0;
    for n in 0..COMPARED {
        let frame = frames::any(&mut r);
        let port = any_port(&mut r);
        let room = if r.one_in(200) { r.below(80) as usize } else { plain::KEY };
        let mut one = vec![0xA5; room];
        let mut two = vec![0xA5; room];
        let a = call(dolfrims_key, port, &frame, &mut one);
        let b = call(plain::plain_key, port, &frame, &mut two);
        answers[usize::from(a)] += 1;
        if a != b || one != two {
            differ += 1;
            if differ <= 10 {
                println!("frame {n}, in-port {port}: {a} and {b}\n  frame {frame:02x?}\n  key   {one:02x?}\n  plain {two:02x?}");
            }
        }
    }
    let counts: Vec<String> = (0..256).filter(|a| answers[*a] > 0).map(|a| format!("{a}: {}", answers[a])).collect();
    println!("compared {COMPARED} frames, {differ} differ (answers {})", counts.join(", "));
    differ == 0
}

/// Frames one behind another in one buffer, as a port's ring has them.
struct Batch {
    bytes: Vec<u8>,
    places: Vec<(u16, usize, usize)>,
}

impl Batch {
    fn new(seed: u64, kind: Option<Kind>) -> Batch {
        let mut r = Random::new(seed);
        let mut batch = Batch { bytes: Vec::new(), places: Vec::new() };
        for _ in 0..BATCH {
            let kind = kind.unwrap_or_else(|| Kind::mixed(&mut r));
            let frame = frames::frame(&mut r, kind);
            batch.places.push((1 + r.below(63) as u16, batch.bytes.len(), frame.len()));
            batch.bytes.extend(frame);
        }
        batch
    }
}

/// A key at the start of a cache line: across two lines, a load of what was just stored takes three times as long.
#[repr(align(64))]
struct Line([u8; plain::KEY]);

/// A hash of the key's nine words, as a lookup begins.
fn hash(key: &[u8; plain::KEY]) -> u64 {
    const FACTORS: [u64; 9] = [
        0x9E37_79B1, 0x85EB_CA77, 0xC2B2_AE3D, 0x27D4_EB2F, 0x1656_67B1, 0xCC9E_2D51, 0x1B87_3593, 0xE654_6B65, 0x85EB_CA6B,
    ];
    let mut sum = 0u64;
    for (word, factor) in key.chunks_exact(4).zip(FACTORS) {
        let word = u32::from_ne_bytes([word[0], word[1], word[2], word[3]]);
        sum = sum.wrapping_add(u64::from(word).wrapping_mul(factor));
    }
    sum
}

/// Nanoseconds for each frame of a batch, read and hashed; and the sum of the hashes.
#[inline(never)]
fn measure(read: Read, batch: &Batch) -> (f64, u64) {
    let mut line = Line([0; plain::KEY]);
    let mut sum = 0u64;
    let start = Instant::now();
    for _ in 0..PASSES {
        for (port, at, len) in &batch.places {
            let answer = call(read, *port, &batch.bytes[*at..*at + *len], &mut line.0);
            if answer == 0 {
                sum = sum.wrapping_add(hash(black_box(&line.0)));
            }
        }
    }
    let spent = start.elapsed().as_nanos() as f64;
    (spent / (PASSES * BATCH) as f64, sum)
}

/// The median and the least of some times.
fn middle_and_least(mut xs: Vec<f64>) -> (f64, f64) {
    xs.sort_by(f64::total_cmp);
    (xs[xs.len() / 2], xs[0])
}

fn race(name: &str, batch: &Batch) -> bool {
    let mut proved = Vec::new();
    let mut rust = Vec::new();
    let mut same = true;
    for _ in 0..ROUNDS {
        let (t, a) = measure(black_box(dolfrims_key), batch);
        let (u, b) = measure(black_box(plain::plain_key), batch);
        proved.push(t);
        rust.push(u);
        same = same && a == b;
    }
    let (p, p_least) = middle_and_least(proved);
    let (q, q_least) = middle_and_least(rust);
    println!(
        "{name:<10} proved {p:6.2}, plain Rust {q:6.2}, ratio {:.2}   (least {p_least:6.2}, {q_least:6.2}, ratio {:.2})",
        p / q,
        p_least / q_least
    );
    same
}

fn main() {
    let mut good = compare();
    println!("nanoseconds a frame, median of {ROUNDS} rounds over {BATCH} frames:");
    good = race("mixed", &Batch::new(1, None)) && good;
    for kind in [Kind::Udp, Kind::Tcp, Kind::TaggedTcp, Kind::Later, Kind::Arp, Kind::Broken] {
        good = race(&format!("{kind:?}"), &Batch::new(2, Some(kind))) && good;
    }
    if !good {
        println!("the readers differ");
        std::process::exit(1);
    }
}
