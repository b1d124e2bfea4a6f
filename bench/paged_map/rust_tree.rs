//! The same runs over the `BTreeMap` of Rust's own library: `rust_tree KEY COUNT`.
use std::collections::BTreeMap;
use std::fs;
use std::time::Instant;

const PAIRS: u64 = 1_000_000;

fn scattered(i: u64) -> u64 {
    let mut x = i.wrapping_mul(0x9e37_79b9_7f4a_7c15);
    x = (x ^ (x >> 30)).wrapping_mul(0xbf58_476d_1ce4_e5b9);
    x = (x ^ (x >> 27)).wrapping_mul(0x94d0_49bb_1331_11eb);
    x ^ (x >> 31)
}

fn resident() -> u64 {
    let text = fs::read_to_string("/proc/self/statm").unwrap();
    text.split(' ').nth(1).unwrap().parse::<u64>().unwrap() * 4096
}

fn measure<K: Ord + Clone>(name: &str, keys: &[K]) {
    let count = keys.len() as u64;
    let rounds = PAIRS / count;
    let pairs = rounds * count;
    let before = resident();
    let start = Instant::now();
    let mut maps = Vec::new();
    for _ in 0..rounds {
        let mut map = BTreeMap::new();
        for key in keys {
            map.insert(key.clone(), 1u64);
        }
        maps.push(map);
    }
    let insertion = start.elapsed().as_nanos() / u128::from(pairs);
    let bytes = (resident() - before) / pairs;
    let start = Instant::now();
    let mut found = 0;
    for map in &maps {
        for i in 0..count {
            if map.contains_key(&keys[(i * 7_919 % count) as usize]) {
                found += 1;
            }
        }
    }
    let lookup = start.elapsed().as_nanos() / u128::from(pairs);
    assert_eq!(found, pairs);
    println!("rust {name} {count} {insertion} {lookup} {bytes}");
}

fn main() {
    let args: Vec<String> = std::env::args().collect();
    let count: u64 = args[2].parse().unwrap();
    if args[1] == "u64" {
        let keys: Vec<u64> = (0..count).map(scattered).collect();
        measure("u64", &keys);
    } else {
        let keys: Vec<String> = (0..count).map(|i| format!("{:020}", scattered(i))).collect();
        measure("text", &keys);
    }
}
