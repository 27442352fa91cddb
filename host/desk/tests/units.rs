//! Units over the crate `bisquetower`, through every scenario and in random talks, step
//! for step as two of automerge's own do.

use bisquetower::{ChangeHash, Error, Filter, Have, Host, Refusal, Session, SessionParts, Table};
use compare::inputs::session::record;
use compare::inputs::{Random, Seed};
use compare::model::have::OwnHave;
use compare::model::plan::{By, Picking};
use compare::model::session::Value;
use compare::model::table::{Hash, ROW};
use compare::scaled;
use compare::talks::{scripts, talks};
use compare::units::{load, table_of, waiting_of, Heard, Picks, Unit};
use compare::walk::{catch_up_picked, Spread};
use crate_under_test::facade::Automerge;
use std::borrow::Cow;

compare::scenarios!(unit);

#[test]
fn random_talks() {
    let seed = Seed::fixed();
    let steps = talks(unit, &mut seed.random(7), 100, 24);
    assert!(steps > 4_000, "{steps}");
}

#[test]
fn random_scripts() {
    let seed = Seed::fixed();
    let steps = scripts(unit, &mut seed.random(8), 100, 12);
    assert!(steps > 4_000, "{steps}");
}

/// What the planner picks of a list, of rows whose changes take as many bytes as these.
fn planned(table: &[u8], list: &[Hash], sizes: Vec<u64>, budget: u64) -> Picking {
    let own = Table::new(table).expect("a good table");
    let pick = own
        .pick(&named(list), &sizes, budget)
        .expect("one size a row");
    Picking {
        pick: bare(pick).concat(),
        sizes,
        budget,
    }
}

/// Catch-ups within budgets that take every change, each reply another one: what
/// `generate_within` says is the planner's pick, and the walk's promise holds of it.
fn catch_ups_within(random: &mut Random, count: usize) -> Spread {
    let mut spread = Spread::default();
    for _ in 0..count {
        let apart = random.apart(3..41);
        let size = |row: &[u8]| {
            let own = apart.rows.iter().position(|own| own.hash == row[..32]);
            record(&apart.rows, own.expect("a row")).len() as u64
        };
        let done = catch_up_picked([unit; 2], &apart, |_| By::Crate, &mut |table, list| {
            let sizes: Vec<u64> = table.chunks_exact(ROW).map(size).collect();
            let most = sizes.iter().max().copied().unwrap_or(0);
            let budget = most + random.below(400) as u64;
            planned(table, list, sizes, budget)
        });
        if let Some(done) = done {
            spread.count(&done);
        }
    }
    spread
}

#[test]
fn random_catch_ups_within_budgets() {
    let seed = Seed::fixed();
    let count = scaled(200, 2_000);
    let spread = catch_ups_within(&mut seed.random(9), count);
    let (kept, longest) = (spread.catch_ups(), spread.at_the_bound());
    assert!(3 * kept > count as u64 && 10 * longest > kept, "{spread}");
}

/// The stand-in for automerge's document, as a host.
struct Document(Automerge);

#[derive(Debug)]
struct NotLoaded;

impl Host for Document {
    type Error = NotLoaded;

    fn table(&self) -> Cow<'_, [u8]> {
        table_of(&self.0).into()
    }

    fn waiting(&self) -> Cow<'_, [u8]> {
        waiting_of(&self.0).into()
    }

    fn change(&self, hash: &ChangeHash) -> Result<Cow<'_, [u8]>, NotLoaded> {
        let mut rows = self.0.rows().iter();
        let change = rows.find(|change| change.hash().0 == hash.0);
        change.map(|c| c.raw_bytes().into()).ok_or(NotLoaded)
    }

    fn save(&self) -> Result<Vec<u8>, NotLoaded> {
        Ok(self.0.save())
    }

    fn load(&mut self, changes: &[u8]) -> Result<(), NotLoaded> {
        load(&mut self.0, changes).then_some(()).ok_or(NotLoaded)
    }
}

struct Safe {
    document: Document,
    session: Session,
}

fn unit(document: Automerge, session: Value) -> Box<dyn Unit> {
    Box::new(Safe {
        document: Document(document),
        session: Session::from_parts(&parts_of(&session)).expect("a good session"),
    })
}

impl Unit for Safe {
    fn speak(&mut self) -> Option<Vec<u8>> {
        let message = self.session.generate(&self.document);
        let message = message.expect("within the limits")?;
        Some(message.encode().expect("within the limits"))
    }

    /// By a plan with the pick, and within the budget: both say the same.
    fn speak_picked(&mut self, _: &By, pick: &mut Picks) -> Option<Vec<u8>> {
        let (table, waiting) = (self.document.table(), self.document.waiting());
        let offer = self.session.offer(&table).expect("within the limits");
        let Picking {
            sizes,
            budget,
            pick,
        } = match offer.document {
            true => Picking::default(),
            false => pick(&table, &bare(offer.hashes)),
        };
        let mut same = self.session.clone();
        let pick: Vec<ChangeHash> = pick
            .chunks_exact(32)
            .map(|hash| ChangeHash::try_from(hash).expect("a hash"))
            .collect();
        let plan = same.plan_picked(&table, &waiting, &sizes, budget, &pick);
        let plan = plan.expect("an accepted pick")?;
        let planned = plan.lend(&self.document).expect("its rows").encode();
        let within = self.session.next_message_within(&self.document, budget);
        let within = within.expect("within the limits");
        assert_eq!(within, planned.ok());
        assert_eq!(self.session, same);
        within
    }

    fn hear(&mut self, message: &[u8]) -> Heard {
        match self.session.receive(&mut self.document, message) {
            Ok(()) => Heard::Taken,
            Err(Error::Load(NotLoaded)) => Heard::NotLoaded,
            Err(Error::Refused(Refusal { number: 1..4, .. })) => Heard::NotRead,
            Err(other) => panic!("within the limits: {other:?}"),
        }
    }

    fn set_read_only(&mut self, on: bool) {
        self.session.set_read_only(on);
    }

    fn save(&self) -> Vec<u8> {
        self.session.encode()
    }

    fn restore(&mut self, state: &[u8]) {
        self.session = Session::decode(state).expect("a saved state");
    }

    fn session(&self) -> Value {
        value_of(self.session.parts())
    }

    fn document(&mut self) -> &mut Automerge {
        &mut self.document.0
    }
}

fn named(list: &[Hash]) -> Vec<ChangeHash> {
    list.iter().copied().map(ChangeHash).collect()
}

fn bare(list: Vec<ChangeHash>) -> Vec<Hash> {
    list.into_iter().map(|hash| hash.0).collect()
}

fn parts_of(value: &Value) -> SessionParts {
    let sent: Vec<Hash> = value.sent.iter().copied().collect();
    let have = |have: &OwnHave| {
        let [entries, bits, probes] = have.numbers;
        Have {
            last_sync: named(&have.last_sync),
            bloom: Filter::from_parts(entries, bits, probes, &have.field).expect("a good filter"),
        }
    };
    let haves = |haves: &Vec<OwnHave>| haves.iter().map(have).collect();
    let [in_flight, have_responded, v2, reset, read_only, peer_read_only, needs_reset] =
        value.flags;
    SessionParts {
        shared_heads: named(&value.shared),
        last_sent_heads: named(&value.last_sent),
        their_heads: value.their_heads.as_deref().map(named),
        their_need: value.their_need.as_deref().map(named),
        their_have: value.their_have.as_ref().map(haves),
        sent_hashes: named(&sent),
        in_flight,
        have_responded,
        supports_v2_messages: v2,
        peer_supports_sync_reset: reset,
        read_only,
        peer_read_only,
        needs_reset,
    }
}

fn value_of(parts: SessionParts) -> Value {
    let own = |Have { last_sync, bloom }| OwnHave {
        last_sync: bare(last_sync),
        numbers: [
            bloom.num_entries(),
            bloom.num_bits_per_entry(),
            bloom.num_probes(),
        ],
        field: bloom.bits().to_vec(),
    };
    Value {
        shared: bare(parts.shared_heads),
        last_sent: bare(parts.last_sent_heads),
        their_heads: parts.their_heads.map(bare),
        their_need: parts.their_need.map(bare),
        their_have: parts
            .their_have
            .map(|haves| haves.into_iter().map(own).collect()),
        sent: bare(parts.sent_hashes).into_iter().collect(),
        flags: [
            parts.in_flight,
            parts.have_responded,
            parts.supports_v2_messages,
            parts.peer_supports_sync_reset,
            parts.read_only,
            parts.peer_read_only,
            parts.needs_reset,
        ],
    }
}
