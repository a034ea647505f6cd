//! A plain tuple-space search: one `HashMap` for each mask, keyed by the masked bytes. It measures itself, and
//! holds the answers of the proved classifiers to its own.

use std::collections::HashMap;
use std::collections::hash_map::RandomState;
use std::hash::{BuildHasher, BuildHasherDefault, Hasher};
use std::hint::black_box;
use std::io::Read;
use std::time::Instant;

type Row = [u8; 36];

/// A hasher that takes eight bytes at once and is not made against floods.
#[derive(Default)]
struct Fast(u64);

impl Fast {
    fn word(&mut self, word: u64) {
        self.0 = (self.0.rotate_left(5) ^ word).wrapping_mul(0x517c_c1b7_2722_0a95);
    }
}

impl Hasher for Fast {
    fn finish(&self) -> u64 {
        self.0.rotate_left(26)
    }

    fn write(&mut self, bytes: &[u8]) {
        let (words, rest) = bytes.as_chunks::<8>();
        for word in words {
            self.word(u64::from_le_bytes(*word));
        }
        let mut last = [0; 8];
        last[..rest.len()].copy_from_slice(rest);
        self.word(u64::from_le_bytes(last));
    }

    // the length of a row is always the same
    fn write_usize(&mut self, _n: usize) {}
}

struct Rule {
    priority: u16,
    mask: Row,
    value: Row,
}

#[derive(Clone, Copy)]
struct Entry {
    id: u32,
    priority: u16,
}

struct Tuple<S> {
    mask: Row,
    rank: u16,
    rules: HashMap<Row, Entry, S>,
}

struct Space<S> {
    tuples: Vec<Tuple<S>>,
}

fn masked(mask: &Row, key: &Row) -> Row {
    std::array::from_fn(|i| mask[i] & key[i])
}

impl<S: BuildHasher + Default> Space<S> {
    /// The rules' ids count from 1. No two rules of these have one mask and one value.
    fn new(rules: &[Rule]) -> Self {
        let mut tuples: Vec<Tuple<S>> = Vec::new();
        for (i, rule) in rules.iter().enumerate() {
            let place = tuples.iter().position(|tuple| tuple.mask == rule.mask).unwrap_or_else(|| {
                tuples.push(Tuple { mask: rule.mask, rank: 0, rules: HashMap::default() });
                tuples.len() - 1
            });
            let tuple = &mut tuples[place];
            tuple.rank = tuple.rank.max(rule.priority);
            let before = tuple.rules.insert(rule.value, Entry { id: i as u32 + 1, priority: rule.priority });
            assert!(before.is_none());
        }
        tuples.sort_by_key(|tuple| std::cmp::Reverse(tuple.rank));
        Space { tuples }
    }

    #[inline(never)]
    fn find(&self, key: &Row) -> (u32, Row) {
        let mut mask = [0; 36];
        let mut top: Option<Entry> = None;
        for tuple in &self.tuples {
            if top.is_some_and(|top| tuple.rank <= top.priority) {
                break;
            }
            for i in 0..36 {
                mask[i] |= tuple.mask[i];
            }
            if let Some(entry) = tuple.rules.get(&masked(&tuple.mask, key))
                && top.is_none_or(|top| entry.priority > top.priority)
            {
                top = Some(*entry);
            }
        }
        (top.map_or(0, |top| top.id), mask)
    }

    /// The least time of a round over the keys, in nanoseconds.
    fn least(&self, keys: &[Row]) -> u128 {
        (0..21)
            .map(|_| {
                let start = Instant::now();
                for key in keys {
                    black_box(self.find(key));
                }
                start.elapsed().as_nanos()
            })
            .min()
            .unwrap()
    }

    /// How many of the answers on standard input are other than these.
    fn differing(&self, keys: &[Row]) -> usize {
        let mut answers = Vec::new();
        std::io::stdin().read_to_end(&mut answers).unwrap();
        let (answers, rest) = answers.as_chunks::<40>();
        assert!(answers.len() == keys.len() && rest.is_empty());
        let differs = |(key, answer): &(&Row, &[u8; 40])| {
            let (id, mask) = self.find(key);
            answer[..4] != id.to_le_bytes() || answer[4..] != mask
        };
        keys.iter().zip(answers).filter(differs).count()
    }
}

// Samples: crates/find_times/src/samples.rt makes the same --------------------------------------------------

struct Random(u64);

impl Random {
    fn byte(&mut self) -> u8 {
        self.0 = self.0.wrapping_mul(6364136223846793005).wrapping_add(1442695040888963407);
        (self.0 >> 56) as u8
    }

    fn key(&mut self) -> Row {
        let mut key = [0; 36];
        for byte in &mut key {
            *byte = self.byte();
        }
        key[14] = 8;
        key[15] = 0;
        key[19] = 17;
        key
    }
}

fn mask_of(tuple: u8) -> Row {
    let mut mask = [0; 36];
    for i in [14, 15, 19, 24, 25] {
        mask[i] = 0xff;
    }
    mask[26..28].copy_from_slice(&(0xffffu16 << (tuple % 16)).to_be_bytes());
    if tuple & 16 != 0 {
        mask[32..34].fill(0xff);
    }
    if tuple & 32 != 0 {
        mask[34..36].fill(0xff);
    }
    mask
}

fn rules(random: &mut Random, tuples: u8) -> Vec<Rule> {
    let rule = |i: u8| {
        let mask = mask_of(i % tuples);
        Rule { priority: u16::from(i % tuples) + 1, mask, value: masked(&mask, &random.key()) }
    };
    (0..64).map(rule).collect()
}

fn keys(random: &mut Random, rules: &[Rule], aim: &str, count: usize) -> Vec<Row> {
    let key = |_| {
        let draw = random.byte();
        let key = random.key();
        if aim == "hit" || (aim == "both" && draw >= 128) {
            let rule = &rules[usize::from(draw % 64)];
            std::array::from_fn(|i| (key[i] & !rule.mask[i]) | rule.value[i])
        } else {
            key
        }
    };
    (0..count).map(key).collect()
}

fn run<S: BuildHasher + Default>(tuples: u8, aim: &str, count: usize) {
    let mut random = Random(1);
    let rules = rules(&mut random, tuples);
    let keys = keys(&mut random, &rules, aim, count);
    let space = Space::<S>::new(&rules);
    if aim == "both" {
        println!("{}", space.differing(&keys));
    } else {
        println!("{}", space.least(&keys));
    }
}

fn main() {
    let args: Vec<String> = std::env::args().collect();
    let [_, hasher, tuples, aim, count] = &args[..] else { panic!("HASHER TUPLES AIM KEYS") };
    let (tuples, count) = (tuples.parse().unwrap(), count.parse().unwrap());
    match hasher.as_str() {
        "std" => run::<RandomState>(tuples, aim, count),
        _ => run::<BuildHasherDefault<Fast>>(tuples, aim, count),
    }
}
