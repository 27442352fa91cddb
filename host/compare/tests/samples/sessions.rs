//! Steps of a session.

use crate::{count, stored};
use compare::inputs::index::index_of;
use compare::inputs::table::waiting_bytes;
use compare::model::plan::By;
use compare::samples::sessions::{lists_of, Record, Step, KINDS, OF_EACH};
use compare::sessions::lent::Lent;
use compare::sessions::library::{plan, receive, Planning, Receiving};

/// Bytes or words enough for every list.
const ROOM: usize = 2_048;

/// What the library plans and makes of messages in the stored steps.
#[test]
fn the_library_takes_the_steps() {
    for record in stored::<Record>() {
        let (table, session) = (record.table(), record.before.clone());
        let index = index_of(&table);
        let after = match &record.step {
            Step::Plan {
                waiting,
                answer,
                lists,
            } => {
                let left = plan(&Planning {
                    by: By::Crate,
                    picking: None,
                    session,
                    table,
                    index,
                    waiting: waiting_bytes(waiting),
                    rooms: [ROOM; 6],
                });
                assert_eq!(left.answer[..], answer[..], "{record:?}");
                let said = left.plan.as_ref().map(lists_of);
                assert_eq!(said.unwrap_or_default(), *lists, "{record:?}");
                left.session
            }
            Step::Receive {
                rows_before,
                loaded,
                message,
                answer,
            } => {
                let left = receive(&Receiving {
                    session,
                    table,
                    index,
                    before: *rows_before,
                    message: message.clone(),
                    loaded: u64::from(*loaded),
                    rooms: [ROOM; 7],
                });
                assert_eq!(left.answer, [*answer, 0, 0, 0], "{record:?}");
                left.session
            }
        };
        let value = after.value().expect("a good session");
        assert_eq!(Lent::laid(&value), record.after, "{record:?}");
    }
}

/// Each thing that can be said or happen to a message; and every session is as calls
/// leave it.
#[test]
fn sessions_are_varied() {
    let records = stored::<Record>();
    for kind in 0..KINDS {
        let seen = count(&records, |record| record.kind() == kind);
        assert_eq!(seen, OF_EACH, "{kind}");
    }
    for session in records.iter().flat_map(|one| [&one.before, &one.after]) {
        let value = session.value().expect("a good session");
        assert_eq!(Lent::laid(&value), *session);
    }
}
