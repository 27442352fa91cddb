//! Document 01's "Writing follows `generate_sync_message` step by step": what a unit
//! says next, the session after it, and the buffers and words of the call; by which bits
//! and probes its filter is built (02, M-107); and with a pick of what is to be sent (02,
//! M-110).

use super::filter::{field_size, keeps_rules, DEFAULT_BITS, DEFAULT_PROBES};
use super::have::{Have, OwnHave};
use super::pick::Radio;
use super::selection::chosen;
use super::session::{laid, put, short, Value};
use super::settings::setting_at;
use super::state::{
    Lists, HAVE_RESPONDED, IN_FLIGHT, NEEDS_RESET, PEER_READ_ONLY, READ_ONLY, RESET, V2, WORDS,
};
use super::table::{self, hash_list, Hash, Table, Waiting};
use super::Refused;
use bisquetower::limits::{ROWS, SENT_HASHES};

/// "reset 1, read-only 2, supports reset 4".
pub const FLAG_RESET: u64 = 1;
pub const FLAG_READ_ONLY: u64 = 2;
pub const FLAG_SUPPORTS_RESET: u64 = 4;

/// Words of an answer.
pub const ANSWER_WORDS: usize = 16;

/// What the second word of an answer says.
pub const NOTHING: u64 = 0;
pub const A_RESET: u64 = 1;
pub const A_MESSAGE: u64 = 2;

/// Bits per entry and probes of the filter that a plan builds.
#[derive(Clone, Copy, Debug, PartialEq, Eq)]
pub struct Numbers {
    pub bits: u64,
    pub probes: u64,
}

/// The crate's 10 and 7.
pub const OF_THE_CRATE: Numbers = Numbers {
    bits: DEFAULT_BITS,
    probes: DEFAULT_PROBES,
};

impl Numbers {
    /// Whether a filter over every number of rows keeps the filter rules: over none, over
    /// one, and over the most, which has the largest field.
    pub fn keep_rules(self) -> bool {
        let Numbers { bits, probes } = self;
        let over = |rows: u64| keeps_rules(rows, bits, probes, field_size(rows, bits));
        [0, 1, ROWS as u64].into_iter().all(over)
    }
}

/// How a call knows the numbers of its filter.
#[derive(Clone, Debug, PartialEq, Eq)]
pub enum By {
    /// They are the crate's.
    Crate,
    /// They are passed.
    Passed(Numbers),
    /// They are a station's, at a version of a settings list.
    Settings {
        list: Vec<u8>,
        station: u64,
        version: u64,
    },
}

impl By {
    /// "10" for numbers that are passed, before all else.
    fn passed(&self) -> Result<(), Refused> {
        match self {
            By::Passed(numbers) if !numbers.keep_rules() => Err((10, 0)),
            _ => Ok(()),
        }
    }

    /// The numbers; "14, bad settings list, with its first bad record".
    pub fn numbers(&self) -> Result<Numbers, Refused> {
        match self {
            By::Crate => Ok(OF_THE_CRATE),
            By::Passed(numbers) => Ok(*numbers),
            By::Settings {
                list,
                station,
                version,
            } => {
                let choice = setting_at(list, *station, *version)?;
                Ok(Numbers {
                    bits: choice.bits,
                    probes: choice.probes,
                })
            }
        }
    }
}

impl By {
    /// The settings list, station and version that say these numbers; none of numbers that
    /// are passed.
    pub fn settings(&self) -> Option<(&[u8], u64, u64)> {
        match self {
            By::Crate => Some((&[], 0, 0)),
            By::Passed(_) => None,
            By::Settings {
                list,
                station,
                version,
            } => Some((list, *station, *version)),
        }
    }
}

/// A pick as it is lent, with what it is checked by.
#[derive(Clone, Debug, Default, PartialEq, Eq)]
pub struct Picking {
    pub sizes: Vec<u64>,
    pub budget: u64,
    pub pick: Vec<u8>,
}

/// A message but for its chunks: the hashes of the body, and whether that is the
/// document.
#[derive(Clone, Debug, PartialEq, Eq)]
pub struct Plan {
    pub version: u64,
    pub flags: u64,
    pub heads: Vec<Hash>,
    pub need: Vec<Hash>,
    /// One or none.
    pub haves: Vec<OwnHave>,
    pub document: bool,
    pub hashes: Vec<Hash>,
}

/// What is said, and the session after a message; the others leave it.
#[derive(Clone, Debug, PartialEq, Eq)]
pub enum Planned {
    Nothing,
    Reset(Plan),
    Message(Plan, Value),
}

/// What is planned over good tables: 4 for a need that is too long, "even before a
/// reset or silence", and for too many sent hashes only where something is said. The
/// numbers keep the filter rules.
pub fn planned(
    numbers: Numbers,
    table: &Table,
    waiting: &Waiting,
    s: &Value,
) -> Result<Planned, Refused> {
    planned_of(numbers, table, waiting, s, |list| (list, Ok(())))
}

/// The same with a pick of a body that is a list: "document bodies stay whole". It names
/// what goes, of which `check` says whether it may: "17, .. after 4 and before 7". What may
/// not go is nothing to be silent about.
fn planned_of(
    numbers: Numbers,
    table: &Table,
    waiting: &Waiting,
    s: &Value,
    pick: impl FnOnce(Vec<Hash>) -> (Vec<Hash>, Result<(), Refused>),
) -> Result<Planned, Refused> {
    let heads = table.heads(table.rows.len()).expect("all rows");
    let heard = s.their_heads.clone().unwrap_or_default();
    let need = match s.is(READ_ONLY) {
        true => Vec::new(),
        false => table.missing(waiting, &heard)?,
    };
    if forgotten(table, s) {
        return Ok(Planned::Reset(reset(heads)));
    }
    let (document, hashes) = body(table, s);
    let (hashes, checked) = match document {
        true => (hashes, Ok(())),
        false => pick(hashes),
    };
    let told = s.last_sent == heads && s.is(HAVE_RESPONDED);
    let equal = s.their_heads.as_ref() == Some(&heads);
    let nothing = hashes.is_empty() && checked.is_ok();
    let idle = (equal || s.is(READ_ONLY)) && nothing;
    if told && (idle || s.is(IN_FLIGHT)) {
        return Ok(Planned::Nothing);
    }

    let mut after = s.clone();
    after.sent.extend(&hashes);
    if after.sent.len() > SENT_HASHES {
        return Err((4, 0));
    }
    checked?;
    after.last_sent.clone_from(&heads);
    after.flags[IN_FLIGHT] = true;
    after.flags[HAVE_RESPONDED] = true;
    after.flags[NEEDS_RESET] = false;

    let mut flags = FLAG_SUPPORTS_RESET;
    if s.is(READ_ONLY) {
        flags += FLAG_READ_ONLY;
    }
    let mut said = heads;
    match (s.is(NEEDS_RESET), s.is(RESET)) {
        (true, true) => flags += FLAG_RESET,
        // As if all was lost here.
        (true, false) => said.clear(),
        (false, _) => {}
    }
    let gives = need.iter().all(|hash| heard.contains(hash));
    let plan = Plan {
        version: if s.is(V2) { 2 } else { 1 },
        flags,
        heads: said,
        need,
        haves: gives
            .then(|| own_have(numbers, table, s))
            .into_iter()
            .collect(),
        document,
        hashes,
    };
    Ok(Planned::Message(plan, after))
}

/// "an unknown hash in the first have's last-sync".
fn forgotten(table: &Table, s: &Value) -> bool {
    let first = s.their_have.as_ref().and_then(|haves| haves.first());
    first.is_some_and(|have| !have.last_sync.iter().all(|hash| table.holds(hash)))
}

fn reset(heads: Vec<Hash>) -> Plan {
    let claims_nothing = OwnHave {
        last_sync: Vec::new(),
        numbers: [0, DEFAULT_BITS, DEFAULT_PROBES],
        field: Vec::new(),
    };
    Plan {
        version: 1,
        flags: FLAG_SUPPORTS_RESET,
        heads,
        need: Vec::new(),
        haves: vec![claims_nothing],
        document: false,
        hashes: Vec::new(),
    }
}

/// The shared heads as they stand, and a filter over the rows beyond them.
pub fn own_have(numbers: Numbers, table: &Table, s: &Value) -> OwnHave {
    let beyond = table.beyond(&s.shared);
    OwnHave::over(s.shared.clone(), numbers.bits, numbers.probes, &beyond)
}

/// "none, a list, or the whole document (list longer than rows / 3 rounded down and
/// V2 known, or their heads empty and V2 known)": whether it is the document, and
/// the hashes. Nothing goes to a read-only peer, nor before a have and a need were
/// heard.
pub fn body(table: &Table, s: &Value) -> (bool, Vec<Hash>) {
    let rows = || table.rows.iter().map(|row| row.hash).collect();
    let (Some(haves), Some(need), false) = (&s.their_have, &s.their_need, s.is(PEER_READ_ONLY))
    else {
        return (false, Vec::new());
    };
    if s.is(V2) && s.their_heads.as_ref().is_some_and(Vec::is_empty) {
        return (true, rows());
    }
    let haves: Vec<Have> = haves.iter().map(OwnHave::have).collect();
    let mut list = chosen(table, &haves, need);
    list.retain(|hash| !s.sent.contains(hash));
    match s.is(V2) && list.len() > table.rows.len() / 3 {
        true => (true, rows()),
        false => (false, list),
    }
}

/// What is planned over good tables with a pick, as `planned`; 4 and 1 of a pick as it is
/// lent come first, whatever the body.
pub fn planned_picked(
    numbers: Numbers,
    table: &Table,
    waiting: &Waiting,
    s: &Value,
    picking: &Picking,
) -> Result<Planned, Refused> {
    let Picking {
        sizes,
        budget,
        pick,
    } = picking;
    let pick = hash_list(pick)?;
    planned_of(numbers, table, waiting, s, |list| {
        let radio = Radio {
            table,
            list: &list,
            sizes,
            budget: *budget,
        };
        let checked = radio.check(&pick);
        (pick, checked)
    })
}

/// What a pick is made of: 10 for the session, 4 and 6 for the table, 12 for its index.
pub fn offered(
    words: &[u64; WORDS],
    lists: &Lists,
    table: &[u8],
    index: &[u8],
) -> Result<(bool, Vec<Hash>), Refused> {
    let s = Value::of(words, lists)?;
    Ok(body(&table::indexed(table, index)?, &s))
}

/// The plan over what is lent: "10, 6, 9", each table's 4 just before its rows, and 12
/// "directly after 6"; then 14 of a settings list, "after 11", which a plan hasn't; then 4
/// and 1 of a pick that is lent, whatever the body.
pub fn of_lent(
    by: &By,
    picking: Option<&Picking>,
    words: &[u64; WORDS],
    lists: &Lists,
    table: &[u8],
    index: &[u8],
    waiting: &[u8],
) -> Result<Planned, Refused> {
    by.passed()?;
    let s = Value::of(words, lists)?;
    let table = table::indexed(table, index)?;
    let waiting = table::waiting(&table, waiting)?;
    let numbers = by.numbers()?;
    match picking {
        Some(picking) => planned_picked(numbers, &table, &waiting, &s, picking),
        None => planned(numbers, &table, &waiting, &s),
    }
}

/// The buffers that a call writes, in the order in which their room is tested.
pub struct Buffers<'a> {
    pub heads: &'a mut [u8],
    pub need: &'a mut [u8],
    pub have: &'a mut [u8],
    pub list: &'a mut [u8],
    pub last_sent: &'a mut [u8],
    pub sent: &'a mut [u8],
}

/// How long each of the buffers has to be, in their order.
pub fn wants(planned: &Planned) -> [usize; 6] {
    let all = match planned {
        Planned::Nothing => return [0; 6],
        Planned::Reset(plan) => stated(plan, None),
        Planned::Message(plan, after) => stated(plan, Some(after)),
    };
    all.map(|bytes| bytes.len())
}

/// The bytes for each of the buffers, in their order.
fn stated(plan: &Plan, after: Option<&Value>) -> [Vec<u8>; 6] {
    let (_, have) = laid(&plan.haves);
    [
        plan.heads.concat(),
        plan.need.concat(),
        have,
        plan.hashes.concat(),
        after.map_or(Vec::new(), |after| after.last_sent.concat()),
        after.map_or(Vec::new(), Value::sent_bytes),
    ]
}

/// What the call answers, and leaves in the session's words and the buffers.
pub fn put_all(
    planned: &Result<Planned, Refused>,
    words: &mut [u64; WORDS],
    buffers: &mut Buffers,
) -> [u64; ANSWER_WORDS] {
    let mut answer = [0; ANSWER_WORDS];
    let done = match planned {
        Err(refused) => Err(*refused),
        Ok(Planned::Nothing) => Ok(()),
        Ok(Planned::Reset(plan)) => put_plan(plan, None, buffers),
        Ok(Planned::Message(plan, after)) => put_plan(plan, Some(after), buffers),
    };
    if let Err((number, value)) = done {
        answer[..2].copy_from_slice(&[number, value]);
        return answer;
    }
    match planned {
        Ok(Planned::Reset(plan)) => answer = answer_words(A_RESET, plan),
        Ok(Planned::Message(plan, after)) => {
            answer = answer_words(A_MESSAGE, plan);
            *words = after.counts().words();
        }
        _ => answer[1] = NOTHING,
    }
    answer
}

/// 7 "names the first too short: the message's lists in wire order, then the
/// session's".
fn put_plan(plan: &Plan, after: Option<&Value>, buffers: &mut Buffers) -> Result<(), Refused> {
    let all = stated(plan, after);
    let mut buffers = [
        &mut *buffers.heads,
        &mut *buffers.need,
        &mut *buffers.have,
        &mut *buffers.list,
        &mut *buffers.last_sent,
        &mut *buffers.sent,
    ];
    let rooms = buffers.iter().zip(&all);
    let rooms: Vec<(usize, usize)> = rooms.map(|(to, from)| (to.len(), from.len())).collect();
    short(&rooms)?;
    for (to, from) in buffers.iter_mut().zip(&all) {
        put(to, from);
    }
    Ok(())
}

/// The words of what is said.
pub fn answer_words(what: u64, plan: &Plan) -> [u64; ANSWER_WORDS] {
    let (record, _) = laid(&plan.haves);
    let mut words = [0; ANSWER_WORDS];
    words[1..4].copy_from_slice(&[what, plan.version, plan.flags]);
    words[4] = u64::from(plan.document);
    words[5] = plan.heads.len() as u64;
    words[6] = plan.need.len() as u64;
    words[7] = plan.haves.len() as u64;
    put(&mut words[8..15], &record);
    words[15] = plan.hashes.len() as u64;
    words
}
