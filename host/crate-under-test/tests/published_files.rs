//! The six files are the published ones: their SHA-256 is that of SHA256SUMS,
//! and these are the very paths that the library compiles.

const FILES: [(&str, &[u8]); 6] = [
    (
        "src/sync.rs",
        include_bytes!("../automerge-0.11.0/src/sync.rs"),
    ),
    (
        "src/sync/bloom.rs",
        include_bytes!("../automerge-0.11.0/src/sync/bloom.rs"),
    ),
    (
        "src/sync/state.rs",
        include_bytes!("../automerge-0.11.0/src/sync/state.rs"),
    ),
    (
        "src/sync/message_builder.rs",
        include_bytes!("../automerge-0.11.0/src/sync/message_builder.rs"),
    ),
    (
        "src/storage/parse.rs",
        include_bytes!("../automerge-0.11.0/src/storage/parse.rs"),
    ),
    (
        "src/storage/parse/leb128.rs",
        include_bytes!("../automerge-0.11.0/src/storage/parse/leb128.rs"),
    ),
];

#[test]
fn files_are_as_published() {
    let sums = include_str!("../automerge-0.11.0/SHA256SUMS");
    let found: Vec<String> = FILES
        .iter()
        .map(|(path, bytes)| format!("{}  {path}", sha256(bytes)))
        .collect();
    assert_eq!(found, sums.lines().collect::<Vec<_>>());
}

#[test]
fn sha256_of_abc() {
    let known = "ba7816bf8f01cfea414140de5dae2223b00361a396177a9cb410ff61f20015ad";
    assert_eq!(sha256(b"abc"), known);
}

/// SHA-256 as FIPS 180-4 has it, in hexadecimal.
fn sha256(bytes: &[u8]) -> String {
    let mut padded = bytes.to_vec();
    padded.push(0x80);
    while padded.len() % 64 != 56 {
        padded.push(0);
    }
    padded.extend((8 * bytes.len() as u64).to_be_bytes());

    let keys = root_fractions(64, f64::cbrt);
    let mut state = root_fractions(8, f64::sqrt);
    for block in padded.chunks(64) {
        add_block(&mut state, block, &keys);
    }
    state.iter().map(|word| format!("{word:08x}")).collect()
}

/// The first 32 bits behind the point of the roots of the first primes. An f64
/// holds them: at most 3 bits stand before the point of a cube root, 5 of a
/// square root.
fn root_fractions(count: usize, root: fn(f64) -> f64) -> Vec<u32> {
    let prime = |n: &u32| (2..*n).all(|d| !n.is_multiple_of(d));
    let fraction = |n: u32| (root(f64::from(n)).fract() * 4_294_967_296.0) as u32;
    (2..).filter(prime).take(count).map(fraction).collect()
}

fn add_block(state: &mut [u32], block: &[u8], keys: &[u32]) {
    let mut w: Vec<u32> = block
        .chunks(4)
        .map(|part| u32::from_be_bytes(part.try_into().unwrap()))
        .collect();
    for t in 16..64 {
        let (a, b) = (w[t - 15], w[t - 2]);
        let s0 = a.rotate_right(7) ^ a.rotate_right(18) ^ (a >> 3);
        let s1 = b.rotate_right(17) ^ b.rotate_right(19) ^ (b >> 10);
        let sum = w[t - 16].wrapping_add(s0).wrapping_add(w[t - 7]);
        w.push(sum.wrapping_add(s1));
    }
    let mut v = state.to_vec();
    for t in 0..64 {
        let s1 = v[4].rotate_right(6) ^ v[4].rotate_right(11) ^ v[4].rotate_right(25);
        let choice = (v[4] & v[5]) ^ (!v[4] & v[6]);
        let t1 = [s1, choice, keys[t], w[t]]
            .iter()
            .fold(v[7], |sum, x| sum.wrapping_add(*x));
        let s0 = v[0].rotate_right(2) ^ v[0].rotate_right(13) ^ v[0].rotate_right(22);
        let majority = (v[0] & v[1]) ^ (v[0] & v[2]) ^ (v[1] & v[2]);
        v.rotate_right(1);
        v[4] = v[4].wrapping_add(t1);
        v[0] = t1.wrapping_add(s0).wrapping_add(majority);
    }
    for (word, add) in state.iter_mut().zip(v) {
        *word = word.wrapping_add(add);
    }
}
