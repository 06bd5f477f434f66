//! A map of texts: COUNT numbers of a linear congruence are spelled and counted by their last digits in a
//! `BTreeMap`, and the sum over the map is compared with the one that is counted without it.
use std::collections::BTreeMap;

const COUNT: u32 = 20_000;
const KINDS: u32 = 5_000;

fn numbers() -> impl Iterator<Item = u32> {
    let mut seed = 1u32;
    (0..COUNT).map(move |_| {
        seed = seed.wrapping_mul(1_664_525).wrapping_add(1_013_904_223);
        seed >> 8
    })
}

#[export_name = "canister_update run"]
pub extern "C" fn run() {
    let mut map: BTreeMap<String, u32> = BTreeMap::new();
    for number in numbers() {
        *map.entry(format!("kind {}", number % KINDS)).or_insert(0) += number % 7;
    }
    let mut counted = [0u32; KINDS as usize];
    for number in numbers() {
        counted[(number % KINDS) as usize] += number % 7;
    }
    let mut sum = 0u64;
    for (text, count) in &map {
        let kind: u32 = text[5..].parse().unwrap();
        assert_eq!(counted[kind as usize], *count);
        sum += u64::from(*count);
    }
    assert_eq!(sum, counted.iter().map(|count| u64::from(*count)).sum::<u64>());
}
