//! What is compared of the bytes that libFuzzer makes. A difference panics.

use compare::counts::{compare as compare_captures, compare_additions, Addition, Capture};
use compare::filters::{compare_reads as compare_filters, Build, Haves, Part};
use compare::guarded::FILLS;
use compare::inputs::index::{index_of, Beside};
use compare::inputs::settings::settings_bytes;
use compare::inputs::table::{set_number, table_bytes, Row};
use compare::messages::{compare as compare_messages, compare_lists};
use compare::model::filter::{self, Filter};
use compare::model::plan::{By, Numbers, Picking};
use compare::model::session::Value;
use compare::model::settings::{Choice, Setting};
use compare::model::table::DEPENDENCIES;
use compare::picks::{compare_checks, compare_picks, Given};
use compare::salvage::{compare as compare_salvaged, Rooms as Buffers};
use compare::scale::script;
use compare::sessions::lent::Lent;
use compare::sessions::library::{compare_offers, compare_plans, Offering, Planning};
use compare::settings::{compare as compare_settings, Call as SettingsCall};
use compare::states::{compare_reads as compare_states, Reading};
use compare::tables::{compare as compare_tables, Call, Rooms};
use compare::writes::{compare_rooms, Write};

/// A program of one target.
#[macro_export]
macro_rules! target {
    ($target:path) => {
        /// What libFuzzer calls.
        ///
        /// # Safety
        ///
        /// `data` points at `size` bytes.
        #[no_mangle]
        pub unsafe extern "C" fn LLVMFuzzerTestOneInput(data: *const u8, size: usize) -> i32 {
            let bytes = match size {
                0 => &[],
                _ => unsafe { std::slice::from_raw_parts(data, size) },
            };
            $target(bytes);
            0
        }
    };
}

fn agreed<T>(compared: Result<T, String>) -> T {
    compared.unwrap_or_else(|difference| panic!("{difference}"))
}

/// A message, read with room enough and with too little, and written again.
pub fn message(data: &[u8]) {
    agreed(compare_messages(&[data]));
    agreed(compare_lists(data, &[[0, 0], [7, 2], [13, 3], [40, 16]]));
}

/// Two bytes, and a filter: read alone, and where the two say that it stands and ends;
/// written again, and asked for the last bytes as a hash. The two are also the bits and
/// probes of a filter that is built over the bytes.
pub fn filter(data: &[u8]) {
    let [at, cut, s @ ..] = data else {
        return;
    };
    let build = Build {
        bits: (*at).into(),
        probes: (*cut).into(),
        hashes: s,
    };
    agreed(compare_rooms(Write::Built(build), [0, 8, 4_096]));
    let there = Part {
        s,
        at: usize::from(*at) % 8,
        end: s.len().saturating_sub(usize::from(*cut) % 8),
    };
    agreed(compare_filters(&[there, Part::alone(s)]));
    let [0, entries, bits, probes, place, length, ..] = filter::read(s, 0, s.len()) else {
        return;
    };
    let field = &s[place as usize..][..length as usize];
    let read = Filter {
        entries,
        bits,
        probes,
        field,
    };
    let wanted = filter::bytes(&read).map_or(8, |bytes| bytes.len());
    let rooms = [0, wanted.saturating_sub(1), wanted, wanted + 3];
    agreed(compare_rooms(Write::Filter(read), rooms));
    if let Some(hash) = s.last_chunk() {
        agreed(Haves::one(read).compare(&[*hash]));
    }
}

/// A saved state, read with room enough and with too little, and its heads written.
pub fn state(data: &[u8]) {
    let rooms = [0, 31, 32, 64, data.len()];
    let readings = rooms.map(|room| Reading { s: data, room });
    agreed(compare_states(&readings));
    let shared = data.get(2..).unwrap_or_default();
    for count in [shared.len() / 32, shared.len() / 32 + 1] {
        let wanted = 3 + 32 * count;
        let write = Write::State { shared, count };
        agreed(compare_rooms(write, [0, wanted - 2, wanted - 1, wanted]));
    }
}

/// How many rows there are, how long an index is; of each row two bytes, that its hash
/// begins with and by whose bits it depends on the rows just before it; the index; and a
/// hash list, which gives the rows' hashes their other bytes too.
pub fn table(data: &[u8]) {
    let [count, length, rest @ ..] = data else {
        return;
    };
    let (rows, rest) = rest.split_at((2 * usize::from(*count)).min(rest.len()));
    let (index, hashes) = rest.split_at(usize::from(*length).min(rest.len()));
    let row = |(number, two): (usize, &[u8])| {
        let mut hash = [0; 32];
        hash.iter_mut()
            .zip(hashes)
            .for_each(|(to, from)| *to = *from);
        hash[0] = two[0];
        let on = (0..8).filter(|bit| two[1] >> bit & 1 == 1 && *bit < number);
        let mut dependencies: Vec<usize> = on.map(|bit| number - 1 - bit).collect();
        dependencies.reverse();
        Row { hash, dependencies }
    };
    let rows: Vec<Row> = rows.chunks_exact(2).enumerate().map(row).collect();
    let (before, table) = (rows.len() / 2, &table_bytes(&rows)[..]);
    let calls = [Beside::Own, Beside::Other(index)]
        .into_iter()
        .flat_map(|index| {
            let extend = Call::ExtendIndex { table, index };
            Call::looking_up(table, index, before, &[], hashes)
                .into_iter()
                .chain([extend])
        });
    let alone = [Call::CheckTable { table }, Call::BuildIndex { table }];
    let calls = calls.chain(alone);
    let calls: Vec<(Call, Rooms)> = calls.map(|call| (call, Rooms::Enough)).collect();
    agreed(compare_tables(&calls));
}

/// How many records a list has; a station, a version, bits, probes and read-only to ask and
/// append; of each record four bytes, how far its version is from the one before, its
/// station, its bits, and its probes with read-only as their highest bit; and what stands
/// behind the records. The three calls on the list, and a plan by it.
pub fn settings(data: &[u8]) {
    let [count, station, version, bits, probes, read_only, rest @ ..] = data else {
        return;
    };
    let (records, behind) = rest.split_at((4 * usize::from(*count)).min(rest.len()));
    let mut before = 0;
    let record = |four: &[u8]| {
        before += u64::from(four[0]);
        Setting {
            version: before,
            station: four[1].into(),
            choice: Choice {
                bits: four[2].into(),
                probes: u64::from(four[3] & 127),
                read_only: u64::from(four[3] >> 7),
            },
        }
    };
    let records: Vec<Setting> = records.chunks_exact(4).map(record).collect();
    let list = [settings_bytes(&records), behind.to_vec()].concat();
    let [station, version] = [station, version].map(|byte| u64::from(*byte));
    let [bits, probes, read_only] = [bits, probes, read_only].map(|byte| u64::from(*byte));
    let choice = Choice {
        bits,
        probes,
        read_only,
    };
    let settings = &list[..];
    let calls = [
        SettingsCall::Check { settings },
        SettingsCall::At {
            settings,
            station,
            version,
        },
        SettingsCall::Append {
            settings,
            station,
            choice,
        },
    ];
    agreed(compare_settings(&calls.map(|call| (call, Rooms::Around))));
    let row = |first: u8, dependencies: Vec<usize>| Row {
        hash: [first; 32],
        dependencies,
    };
    let table = table_bytes(&[row(9, vec![]), row(4, vec![0]), row(6, vec![0])]);
    let passed = By::Passed(Numbers { bits, probes });
    let settled = By::Settings {
        list,
        station,
        version,
    };
    let plans = [passed, settled].map(|by| {
        let session = Lent::laid(&Value::default());
        Planning::by(by, session, table.clone(), Vec::new())
    });
    agreed(compare_plans(&plans, &FILLS));
}

/// How many bytes are a filter; the filter; and of each row two bytes: that its hash begins
/// with, and by whose bits it is the sender's, the listener's, on the row before it in either,
/// and bad. The capture of them; and its bytes as numbers that are added.
pub fn counts(data: &[u8]) {
    let [length, rest @ ..] = data else {
        return;
    };
    let (filter, rows) = rest.split_at(usize::from(*length).min(rest.len()));
    let table = |bit: u8| {
        let own = rows.chunks_exact(2).filter(|two| two[1] >> bit & 1 == 1);
        let row = |(number, two): (usize, &[u8])| {
            let mut hash = [two[0]; 32];
            hash[31] = two[1] >> 4;
            let on = match (two[1] >> 2 & 1, two[1] >> 3 & 1) {
                (_, 1) => number..number + 1,
                (1, _) => number.saturating_sub(1)..number,
                _ => 0..0,
            };
            Row {
                hash,
                dependencies: on.collect(),
            }
        };
        table_bytes(&own.enumerate().map(row).collect::<Vec<_>>())
    };
    let [sender, listener] = [&table(0)[..], &table(1)[..]];
    let capture = Capture {
        sender,
        listener,
        filter,
    };
    agreed(compare_captures(&[capture]));
    let mut words = data
        .chunks_exact(8)
        .map(|word| u64::from_le_bytes(word.try_into().expect("eight bytes")));
    let mut five = || std::array::from_fn(|_| words.next().unwrap_or(0));
    let (totals, counts) = (five(), five());
    agreed(compare_additions(&[Addition { totals, counts }]));
}

/// The bytes as a table; and of each five of them a row: the one that its hash is made of, on
/// which of the eight rows before it is, and a number that is written over its count or one of
/// its row numbers, if it isn't 0. What is left over of five is the partial row.
pub fn salvage(data: &[u8]) {
    let mut table = Vec::new();
    let fives = data.chunks_exact(5);
    let partial = fives.remainder();
    for (number, five) in fives.enumerate() {
        let on = (0..8).rev().filter(|bit| five[1] >> bit & 1 == 1);
        let row = Row {
            hash: [five[0]; 32],
            // Where there are no such rows, the number is none that a table has.
            dependencies: on.map(|bit| number.wrapping_sub(1 + bit)).collect(),
        };
        let mut record = row.bytes();
        let [which, low, high] = [five[2], five[3], five[4]].map(usize::from);
        if (low, high) != (0, 0) {
            set_number(&mut record, which % (1 + DEPENDENCIES), low + 256 * high);
        }
        table.extend(record);
    }
    table.extend(partial);
    let short = (table.len() / 2, data.len() / 5);
    agreed(compare_salvaged(&[
        (data, Buffers::Enough),
        (&table, Buffers::Enough),
        (&table, Buffers::One(short)),
    ]));
}

/// How many rows there are, how many hashes a pick has, and the budget; of each row three
/// bytes: by whose bits it depends on the rows just before it, its size, and how often it is
/// listed; of each hash of the pick the number of its row, or of none; and what stands behind
/// the pick's hashes. The planner, the check, and a plan for a peer that asks for the list.
pub fn pick(data: &[u8]) {
    let [count, length, budget, rest @ ..] = data else {
        return;
    };
    let (three, rest) = rest.split_at((3 * usize::from(*count)).min(rest.len()));
    let (numbers, behind) = rest.split_at(usize::from(*length).min(rest.len()));
    let hash = |number: usize| {
        let mut hash = [0x17; 32];
        hash[0] = (number as u8).wrapping_mul(0x65);
        hash
    };
    let row = |(number, three): (usize, &[u8])| {
        let on = (0..8)
            .rev()
            .filter(|bit| three[0] >> bit & 1 == 1 && *bit < number);
        Row {
            hash: hash(number),
            dependencies: on.map(|bit| number - 1 - bit).collect(),
        }
    };
    let three = || three.chunks_exact(3).enumerate();
    let rows: Vec<Row> = three().map(row).collect();
    let listed = three().flat_map(|(number, three)| vec![number; usize::from(three[2] % 3)]);
    let list: Vec<[u8; 32]> = listed.map(hash).collect();
    // A size is small, or a large part of 64 bits.
    let size = |byte: u8| match byte {
        ..=0xef => u64::from(byte),
        _ => u64::from(byte & 15) << 60,
    };
    let sizes: Vec<u64> = three().map(|(_, three)| size(three[1])).collect();
    let pick = numbers.iter().flat_map(|&number| hash(number.into()));
    let pick: Vec<u8> = pick.chain(behind.iter().copied()).collect();
    let table = table_bytes(&rows);
    let given = Given {
        index: index_of(&table),
        table: table.clone(),
        list: list.concat(),
        sizes: sizes.clone(),
        budget: size(*budget),
    };
    agreed(compare_picks(&given, Rooms::Around));
    agreed(compare_checks(&[(&given, &pick)]));
    let session = Value {
        their_need: Some(list),
        their_have: Some(Vec::new()),
        ..Value::default()
    };
    let picking = Picking {
        sizes,
        budget: given.budget,
        pick,
    };
    let session = Lent::laid(&session);
    agreed(compare_offers(&[Offering::new(
        session.clone(),
        table.clone(),
    )]));
    let planning = Planning::new(session, table, Vec::new()).picking(picking);
    agreed(compare_plans(&[planning.clone(), planning], &FILLS));
}

/// A session script.
pub fn session(data: &[u8]) {
    script::compare(data);
}
