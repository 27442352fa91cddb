//! Saved states with a hash more than once.

use crate::{count, stored, Out};
use bisquetower::raw;
use compare::inputs::table::table_bytes;
use compare::model::session::Value;
use compare::model::state::WORDS;
use compare::model::table::Hash;
use compare::samples::repeats::Record;
use compare::sessions::lent::Lent;
use compare::sessions::library::{plan, receive, Planning, Receiving};

/// The shared heads of a saved state, by the library.
fn read(state: &[u8]) -> Vec<Hash> {
    let mut shared = vec![0; state.len()];
    let mut session = [0; WORDS];
    let [first, many, ..] = raw::read_state(state, &mut shared, &mut session);
    assert_eq!(first, 0);
    let hash = |bytes: &[u8]| bytes.try_into().expect("32 bytes");
    shared.chunks(32).take(many as usize).map(hash).collect()
}

/// A saved state with these shared heads, by the library.
fn written(shared: &[Hash]) -> Vec<u8> {
    let mut out = Out::of(3 + 32 * shared.len());
    out.answer = raw::write_state(&shared.concat(), shared.len(), &mut out.bytes);
    out.written().expect("there is room").to_vec()
}

/// Whether some hash stands there more than once.
fn repeats(shared: &[Hash]) -> bool {
    let twice = |(k, hash)| shared[..k].contains(hash);
    shared.iter().enumerate().any(twice)
}

/// A repeat is read and written as it stands, a plan leaves it, and it goes with the
/// next join.
#[test]
fn the_library_keeps_repeats_up_to_a_join() {
    for record in stored::<Record>() {
        let shared = read(&record.input);
        assert_eq!(written(&shared), record.written, "{record:?}");
        let table = table_bytes(&record.rows);
        let restored = Value {
            shared: shared.clone(),
            their_have: Some(Vec::new()),
            ..Value::default()
        };
        let planned = plan(&Planning::new(
            Lent::laid(&restored),
            table.clone(),
            Vec::new(),
        ));
        assert_eq!(planned.answer[0], 0, "{record:?}");
        let session = planned.session.value().expect("a good session");
        assert_eq!(session.shared, shared, "{record:?}");
        let heard = receive(&Receiving::new(
            Lent::laid(&session),
            table,
            record.rows.len(),
            record.message.clone(),
            1,
        ));
        assert_eq!(heard.answer, [0; 4], "{record:?}");
        let after = heard.session.value().expect("a good session").shared;
        assert_eq!(written(&after), record.after, "{record:?}");
    }
}

/// Repeats that are lost, and that come from heads which are all held.
#[test]
fn repeats_are_varied() {
    let records = stored::<Record>();
    let both = |record: &Record| (repeats(&read(&record.input)), repeats(&read(&record.after)));
    for (kind, seen) in [
        ((true, true), 3),
        ((true, false), 15),
        ((false, true), 1),
        ((false, false), 5),
    ] {
        assert_eq!(count(&records, |record| both(record) == kind), seen);
    }
}
