//! Saved states written, and refused.

use crate::{compare_writes, hashes, REFUSED};
use bisquetower::limits::{HASHES, LIST_SIZE};
use bisquetower::raw;

/// States written into buffers of every size and around the wanted one.
#[test]
fn states_written() {
    let buffer = hashes(HASHES + 6);
    for count in [0, 1, 2, 3] {
        let wanted = 2 + 32 * count;
        let written = compare_writes(&buffer, count, 0..wanted + 4);
        assert_eq!(written, 4, "{count}");
    }
    let most = LIST_SIZE + 3;
    for (count, wanted) in [
        (127, 4_066),
        (128, 4_099),
        (HASHES - 1, most - 32),
        (HASHES, most),
    ] {
        let written = compare_writes(&buffer, count, wanted - 2..wanted + 3);
        assert_eq!(written, 3, "{count}");
    }
}

/// 10 before 7: counts past the limit and past the lent buffer.
#[test]
fn states_not_written() {
    let buffer = hashes(HASHES + 6);
    let bad = |shared: &[u8], count: usize| {
        for room in [0, 1, LIST_SIZE + 300] {
            let mut out = vec![0x5a; room];
            assert_eq!(raw::write_state(shared, count, &mut out), REFUSED);
        }
        assert_eq!(compare_writes(shared, count, [0, 1, 100]), 0);
    };
    for count in [
        HASHES + 1,
        HASHES + 6,
        usize::MAX / 32 + 1,
        usize::MAX / 32 + 2,
        usize::MAX,
    ] {
        bad(&buffer, count);
    }
    for count in [1, 2, 3, HASHES] {
        bad(&buffer[..32 * count - 1], count);
        assert_eq!(
            compare_writes(&buffer[..32 * count], count, [LIST_SIZE + 300]),
            1
        );
    }
    bad(&[], 1);
    // No hash of no buffer.
    assert_eq!(compare_writes(&[], 0, [1, 2, 3]), 2);
}
