//! Times the ordered and the loose table beside std's BTreeMap and HashMap, all in one run and on the same keys.
use std::collections::{BTreeMap, HashMap};
use std::time::Instant;

unsafe extern "C" {
    fn exercise_ordered(keys: *const u64, len: usize, places: usize, load: usize, rounds: usize) -> u64;
    fn exercise_loose(keys: *const u64, len: usize, places: usize, load: usize, rounds: usize) -> u64;
}

fn ordered(keys: &[u64], places: usize, load: usize, rounds: usize) -> u64 {
    unsafe { exercise_ordered(keys.as_ptr(), keys.len(), places, load, rounds) }
}

fn loose(keys: &[u64], places: usize, load: usize, rounds: usize) -> u64 {
    unsafe { exercise_loose(keys.as_ptr(), keys.len(), places, load, rounds) }
}

macro_rules! std_map {
    ($name:ident, $map:ty) => {
        #[inline(never)]
        fn $name(keys: &[u64], places: usize, load: usize, rounds: usize) -> u64 {
            let mut map = <$map>::new();
            for key in &keys[..load] {
                map.insert(*key, 1u64);
            }
            let (mut sum, mut oldest, mut next) = (0u64, 0, load);
            for round in 0..rounds {
                let (old, new) = (keys[oldest], keys[next % keys.len()]);
                sum = sum.wrapping_add(map.get(&old).copied().unwrap_or(0));
                if let Some(value) = map.get_mut(&old) {
                    *value = round as u64;
                }
                map.remove(&old);
                if map.len() < places && !map.contains_key(&new) {
                    map.insert(new, 1);
                }
                oldest = if oldest + 1 < keys.len() { oldest + 1 } else { 0 };
                next = if next + 1 < keys.len() { next + 1 } else { 0 };
            }
            sum
        }
    };
}

std_map!(btree, BTreeMap<u64, u64>);
std_map!(hash, HashMap<u64, u64>);

/// Nanoseconds for one of the four operations of a round: the best of three, less what filling costs.
fn time(f: fn(&[u64], usize, usize, usize) -> u64, keys: &[u64], places: usize, load: usize, rounds: usize) -> f64 {
    let run = |n: usize| {
        (0..3)
            .map(|_| {
                let start = Instant::now();
                std::hint::black_box(f(keys, places, load, n));
                start.elapsed().as_nanos() as f64
            })
            .fold(f64::MAX, f64::min)
    };
    (run(rounds) - run(0)).max(0.0) / (4 * rounds) as f64
}

fn random_keys(n: usize) -> Vec<u64> {
    let mut state = 0x9E37_79B9_7F4A_7C15u64;
    (0..n)
        .map(|_| {
            state ^= state << 13;
            state ^= state >> 7;
            state ^= state << 17;
            state
        })
        .collect()
}

fn main() {
    println!("| places | load | keys | ordered | loose | BTreeMap | HashMap |");
    println!("|---|---|---|---|---|---|---|");
    for places in [512usize, 65_536] {
        for percent in [50usize, 80, 95, 100] {
            let load = places * percent / 100;
            let keys: usize = 2 * places;
            let rising: Vec<u64> = (1..=keys as u64).collect();
            for (name, keys) in [("rising", rising), ("random", random_keys(keys))] {
                let rounds = if places == 512 { 200_000 } else { 20_000 };
                let figures: Vec<String> = [ordered as fn(&[u64], usize, usize, usize) -> u64, loose, btree, hash]
                    .iter()
                    .map(|f| format!("{:.0}", time(*f, &keys, places, load, rounds)))
                    .collect();
                println!("| {places} | {percent} % | {name} | {} |", figures.join(" | "));
            }
        }
    }
}
