//! Whole messages, read and written: one that says hello, one as sessions send
//! them, and one of nearly 4 MiB.

use crate::measure::{line, line_of, Line};
use bisquetower::limits::{CHUNKS, HAVES, HAVES_WORDS, LIST_SIZE, MESSAGE_SIZE};
use bisquetower::message::{View, CHUNK_WORDS};
use bisquetower::raw;
use compare::inputs::message::Draft;
use compare::inputs::table::Likeness;
use compare::inputs::Random;
use compare::messages::parts::{parts, write, Chunks};
use compare::model::filter::built;
use compare::model::number_bytes;
use crate_under_test::facade::Message;
use std::hint::black_box;

/// Entries of the filter that a message has as sessions send them.
const ENTRIES: usize = 1_024;

pub fn measure_all() {
    let messages = messages();
    for (size, s) in &messages {
        decode(size, s);
    }
    let (size, large) = &messages[messages.len() - 1];
    decode_beside_a_sum(size, large);
    for (size, s) in &messages {
        peek_beside_decode(size, s);
    }
    for (size, s) in &messages {
        encode(size, s);
    }
}

fn messages() -> [(&'static str, Vec<u8>); 3] {
    let mut random = Random(1);
    let small = Draft {
        heads: random.hashes(1, Likeness::Spread),
        haves: vec![(Vec::new(), Vec::new())],
        flags: Some(vec![0x02, 0x84]),
        ..Draft::new()
    };
    let entries = random.hashes(ENTRIES, Likeness::Spread).concat();
    let numbers = [ENTRIES as u64, 10, 7].map(number_bytes).concat();
    let field = built(10, 7, &entries).expect("a good filter");
    let typical = Draft {
        heads: random.hashes(32, Likeness::Ascending),
        haves: vec![(
            random.hashes(1, Likeness::Spread),
            [numbers, field].concat(),
        )],
        chunks: (0..64).map(|_| random.bytes(120)).collect(),
        ..small.clone()
    };
    // Four bytes less for each chunk than its part of the largest message, for its length
    // and for what stands before all of them.
    let chunk = MESSAGE_SIZE / CHUNKS - 4;
    let large = Draft {
        chunks: (0..CHUNKS).map(|_| random.bytes(chunk)).collect(),
        ..small.clone()
    };
    [
        ("small", small.bytes()),
        ("typical", typical.bytes()),
        ("4 MiB", large.bytes()),
    ]
}

/// Room for as many haves and chunks as a message may have.
fn room() -> (Vec<u64>, Vec<u64>) {
    (vec![0; HAVES_WORDS], vec![0; CHUNK_WORDS * CHUNKS])
}

/// A run's number is how many heads, haves and chunks there are.
fn decode(size: &str, s: &[u8]) {
    let ((mut haves, mut chunks), mut ignored) = (room(), [0; HAVES]);
    let library = || {
        let words = raw::read_message(black_box(s), &mut haves, &mut chunks, &mut ignored);
        black_box((&haves, &chunks, &ignored));
        words[3] + words[7] + words[9]
    };
    let published = || {
        let message = Message::decode(black_box(s)).expect("a good message");
        let message = black_box(&message);
        (message.heads.len() + message.have.len() + message.changes.len()) as u64
    };
    let what = Line {
        name: "decode message",
        size,
        calls: 1,
        note: "library: says where the parts stand; crate: copies them into Vecs",
    };
    line(what, library, published);
}

/// A run's number is the message's length.
fn decode_beside_a_sum(size: &str, s: &[u8]) {
    let ((mut haves, mut chunks), mut ignored) = (room(), [0; HAVES]);
    let library = || {
        let words = raw::read_message(black_box(s), &mut haves, &mut chunks, &mut ignored);
        black_box((&haves, &chunks, &ignored));
        words[11]
    };
    let sum = || {
        let bytes = black_box(s);
        black_box(bytes.iter().map(|&byte| u64::from(byte)).sum::<u64>());
        bytes.len() as u64
    };
    let what = Line {
        name: "decode, beside a sum",
        size,
        calls: 1,
        note: "crate: no call of it, but the sum of the message's bytes, each read once",
    };
    line(what, library, sum);
}

/// A run's number is how many heads there are.
fn peek_beside_decode(size: &str, s: &[u8]) {
    let ((mut haves, mut chunks), mut ignored) = (room(), [0; HAVES]);
    let mut heads = vec![0; LIST_SIZE];
    let peeked = || {
        let words = raw::peek_heads(black_box(s), &mut heads);
        black_box(&heads);
        words[2]
    };
    let decoded = || {
        let words = raw::read_message(black_box(s), &mut haves, &mut chunks, &mut ignored);
        black_box((&haves, &chunks, &ignored));
        words[3]
    };
    let what = Line {
        name: "peek, beside decode",
        size,
        calls: 1,
        note: "crate: no call of it, but the library's own full read",
    };
    line(what, peeked, decoded);
}

/// A run's number is the message's length. The crate's call takes the message away,
/// so it gets copies that are made beforehand.
fn encode(size: &str, s: &[u8]) {
    let (mut haves, mut chunks) = room();
    let view = View::read(s, &mut haves, &mut chunks).expect("a good message");
    let chunks = Chunks::of(&view);
    let parts = parts(&view, &chunks);
    let message = Message::decode(s).expect("a good message");
    let mut out = vec![0; s.len()];
    assert_eq!(write(&parts, &mut out)[0], 0);
    assert_eq!(out, message.clone().encode());
    let library = || {
        let written = write(black_box(&parts), &mut out)[1];
        black_box(&out);
        written
    };
    let published = |message: &mut Option<Message>| {
        let message = message.take().expect("a message of its own");
        black_box(message.encode()).len() as u64
    };
    let at_a_time = if s.len() < 1 << 20 { 32 } else { 2 };
    let what = Line {
        name: "encode message",
        size,
        calls: 1,
        note: "library: into a lent buffer; crate: into a Vec that grows, each filter made twice; its message's end counts",
    };
    line_of(
        what,
        library,
        at_a_time,
        || Some(message.clone()),
        published,
    );
}
