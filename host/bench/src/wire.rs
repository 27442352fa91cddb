//! Numbers and hash lists, read and written.

use crate::measure::{line, Line};
use bisquetower::raw;
use crate_under_test::facade::{self, ChangeHash, State};
use std::hint::black_box;

const NUMBERS: usize = 256;
const HASHES: usize = 1_024;

pub fn measure_all() {
    for (size, bytes) in [("1 byte", 1), ("2 bytes", 2), ("10 bytes", 10)] {
        let numbers = numbers_of(bytes);
        read_numbers(size, &numbers);
        write_numbers(size, &numbers);
    }
    read_hashes();
    write_hashes();
}

/// Numbers whose shortest form has `bytes` bytes.
fn numbers_of(bytes: u32) -> Vec<u64> {
    let least = if bytes == 1 {
        0
    } else {
        1 << (7 * (bytes - 1))
    };
    let step = if bytes == 10 { 1 << 50 } else { 1 };
    // One byte has 128 of them.
    (0..NUMBERS as u64)
        .map(|k| least + k % 128 * step)
        .collect()
}

/// Both sides walk the numbers in one string, from each one to the next.
fn read_numbers(size: &str, numbers: &[u64]) {
    let string: Vec<u8> = numbers.iter().flat_map(|&n| facade::write_u64(n)).collect();
    let library = || {
        let s = black_box(&string[..]);
        let (mut sum, mut at) = (0u64, 0);
        for _ in 0..NUMBERS {
            let [_, value, next, _] = raw::read_number(s, at, s.len());
            sum = sum.wrapping_add(value);
            at = next as usize;
        }
        sum
    };
    let published = || {
        let s = black_box(&string[..]);
        let (mut sum, mut at) = (0u64, 0);
        for _ in 0..NUMBERS {
            let (value, next) = facade::read_u64(s, at).expect("a good number");
            sum = sum.wrapping_add(value);
            at = next;
        }
        sum
    };
    let what = Line {
        name: "read number",
        size,
        calls: NUMBERS,
        note: "",
    };
    line(what, library, published);
}

fn write_numbers(size: &str, numbers: &[u64]) {
    let mut lent = [0; 10];
    let library = || {
        let mut length = 0;
        for &n in black_box(numbers) {
            length += raw::write_number(n, &mut lent)[1];
            black_box(&lent);
        }
        length
    };
    let mut room = Vec::with_capacity(10);
    let published = || {
        let mut length = 0;
        for &n in black_box(numbers) {
            room.clear();
            leb128::write::unsigned(&mut room, n).expect("a Vec takes every byte");
            length += black_box(&room).len() as u64;
        }
        length
    };
    let what = Line {
        name: "write number",
        size,
        calls: NUMBERS,
        note: "crate: the stand-in for its crate leb128, inlined, into a Vec with room",
    };
    line(what, library, published);
}

fn hashes() -> Vec<[u8; 32]> {
    let hash = |k: usize| std::array::from_fn(|i| (k * 31 + i * 7 + k / 256) as u8);
    (0..HASHES).map(hash).collect()
}

fn read_hashes() {
    let string = facade::write_hashes(&hashes());
    let library = || {
        let s = black_box(&string[..]);
        let [_, _, count, next] = raw::read_hashes(s, 0, s.len());
        count + next
    };
    let published = || {
        let s = black_box(&string[..]);
        let (hashes, next) = facade::read_hashes(s, 0).expect("a good list");
        black_box(&hashes).len() as u64 + next as u64
    };
    let what = Line {
        name: "read hash list",
        size: "1,024 hashes",
        calls: 1,
        note: "library: says where they stand; crate: copies them into a Vec",
    };
    line(what, library, published);
}

fn write_hashes() {
    let lent_hashes = hashes().concat();
    let mut lent = vec![0; lent_hashes.len() + 2];
    let library = || {
        let length = raw::write_hashes(black_box(&lent_hashes), &mut lent)[1];
        black_box(&lent);
        length
    };
    let state = State {
        shared_heads: hashes().into_iter().map(ChangeHash).collect(),
        ..State::new()
    };
    // The state's first byte isn't the list's.
    let published = || black_box(black_box(&state).encode()).len() as u64 - 1;
    let what = Line {
        name: "write hash list",
        size: "1,024 hashes",
        calls: 1,
        note: "crate: State::encode, one byte and the list, into a Vec of its own",
    };
    line(what, library, published);
}
