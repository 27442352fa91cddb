//! How much stack each exported call takes: inputs that lead it as deep as it goes,
//! and what docs/ABI.md promises.

mod painted;

use crate::inputs::counts::filter_bytes;
use crate::inputs::index::index_of;
use crate::inputs::message::{filter_string, Draft};
use crate::inputs::settings::{settings_bytes, LARGEST};
use crate::inputs::table::{set_number, table_bytes, waiting_bytes, Likeness, Shape, WaitingRow};
use crate::inputs::Random;
use crate::messages::parts::Chunks;
use crate::model::number_bytes;
use crate::model::plan::{By, Picking};
use crate::model::settings::{Choice, Setting, RECORD};
use crate::model::state::{Session, READ_ONLY, V2, WORDS};
use crate::model::table::{converted, Hash, HASH, NOW, OLD};
use crate::sessions::lent::Lent;
use crate::sessions::library::{offer, plan, receive, Offering, Planning, Receiving};
use crate::tables::but_the_last;
use bisquetower::limits::{
    CHUNKS, DEPENDENCIES, FIELD_SIZE, HASHES, HAVES, HAVES_SIZE, HAVES_WORDS, HAVE_SIZE, LIST_SIZE,
    MESSAGE_SIZE, PROBES, ROWS, ROW_SIZE, SENT_HASHES, SENT_SIZE, TO_SEND_SIZE, WAITING_ROWS,
};
use bisquetower::message::{View, CHUNK_WORDS, HAVE_WORDS};
use bisquetower::raw;
use std::collections::BTreeMap;
use std::sync::Arc;

/// A call on inputs of its own; its answer's words, or what it wrote if it has none.
pub type Call = Box<dyn Fn() -> Vec<u64> + Send + Sync>;

/// A call's name, and one that goes deep.
pub type Deep = (&'static str, Call);

fn deep<A: Into<Vec<u64>>>(
    name: &'static str,
    call: impl Fn() -> A + Send + Sync + 'static,
) -> Deep {
    (name, Box::new(move || call().into()))
}

/// The limits as words, and the entries of the largest filter of one bit each.
const MOST_HASHES: u64 = HASHES as u64;
const MOST_PROBES: u64 = PROBES as u64;
const FIELD: u64 = FIELD_SIZE as u64;
const ENTRIES: u64 = 8 * FIELD;

/// A have of `count` last-sync hashes, which stand at a place, and of the largest filter,
/// whose field stands first.
fn largest(place: u64, count: u64) -> [u64; HAVE_WORDS] {
    [place, count, ENTRIES, 1, MOST_PROBES, 0, FIELD]
}

/// Calls of every exported function, each at its largest and at some refusals.
pub fn calls() -> Vec<Deep> {
    let mut random = Random(27);
    let mut calls = wire(&mut random);
    calls.extend(filters(&mut random));
    calls.extend(tables(&mut random));
    calls.extend(beside_no_index(&mut random));
    calls.extend(settings());
    calls.extend(counts(&mut random));
    calls.extend(states(&mut random));
    calls.extend(messages(&mut random));
    calls.extend(sessions(&mut random));
    calls.extend(salvages(&mut random));
    calls.extend(picks(&mut random));
    calls
}

fn wire(random: &mut Random) -> Vec<Deep> {
    let longest = [&[0xff; 9][..], &[1]].concat();
    let hashes = random.bytes(LIST_SIZE);
    let list = [number_bytes(MOST_HASHES), hashes.clone()].concat();
    let (string, long) = (list.clone(), list.clone());
    let cut = list[..list.len() - 1].to_vec();
    let filter = longest.clone();
    vec![
        deep("bt_limits", || {
            let mut limits = [0; 12];
            raw::limits(&mut limits);
            limits
        }),
        deep("bt_read_number", move || raw::read_number(&longest, 0, 10)),
        deep("bt_read_filter_number", move || {
            raw::read_filter_number(&filter, 0, 10)
        }),
        deep("bt_read_filter_number", || {
            raw::read_filter_number(&[0xff, 0xff, 0xff, 0xff, 0x0f], 0, 5)
        }),
        deep("bt_read_prefixed", move || {
            raw::read_prefixed(&string, 0, string.len())
        }),
        deep("bt_read_hashes", move || {
            raw::read_hashes(&list, 0, list.len())
        }),
        deep("bt_read_hashes", move || {
            raw::read_hashes(&cut, 0, cut.len())
        }),
        deep("bt_write_number", || {
            raw::write_number(u64::MAX, &mut [0; 10])
        }),
        deep("bt_write_prefixed", move || {
            raw::write_prefixed(&long, &mut vec![0; long.len() + 3])
        }),
        deep("bt_write_hashes", move || {
            raw::write_hashes(&hashes, &mut vec![0; hashes.len() + 2])
        }),
    ]
}

fn filters(random: &mut Random) -> Vec<Deep> {
    let hashes = random.bytes(LIST_SIZE);
    let bits = ENTRIES / MOST_HASHES;
    let string = filter_string(MOST_HASHES, bits, MOST_PROBES);
    let field = random.bytes(FIELD_SIZE);
    let bad = filter_string(1, 0, MOST_PROBES);
    // Each filter says yes up to its last probe, and no there.
    let haves = largest(0, 0).repeat(HAVES);
    let hash = random.bytes(HASH);
    let (full, mut nearly) = (vec![0xff; FIELD_SIZE], vec![0xff; FIELD_SIZE]);
    nearly[FIELD_SIZE - 1] = 0;
    let (more, other) = (haves.clone(), hash.clone());
    vec![
        deep("bt_read_filter", move || {
            raw::read_filter(&string, 0, string.len())
        }),
        deep("bt_read_filter", move || {
            raw::read_filter(&bad, 0, bad.len())
        }),
        deep("bt_write_filter", move || {
            let out = &mut vec![0; FIELD_SIZE + 16];
            raw::write_filter(ENTRIES, 1, MOST_PROBES, &field, out)
        }),
        deep("bt_build_filter", move || {
            raw::build_filter(bits, MOST_PROBES, &hashes, &mut vec![0; FIELD_SIZE])
        }),
        deep("bt_filters_contain", move || {
            raw::filters_contain(&full, &haves, &hash)
        }),
        deep("bt_filters_contain", move || {
            raw::filters_contain(&nearly, &more, &other)
        }),
    ]
}

/// As many waiting rows as there may be, each on the next and on others before or
/// after it: the last one is on an unknown hash.
fn chains(random: &mut Random) -> Vec<(Vec<u8>, Vec<u8>)> {
    let own = random.hashes(WAITING_ROWS + 1, Likeness::Spread);
    let chain = |others_before: usize, others_after: usize| {
        let rows = own.windows(2).map(|two| WaitingRow {
            hash: two[0],
            dependencies: [
                vec![two[0]; others_before],
                vec![two[1]],
                vec![own[WAITING_ROWS]; others_after],
            ]
            .concat(),
        });
        waiting_bytes(&rows.collect::<Vec<_>>())
    };
    let others = DEPENDENCIES - 1;
    let first = own[0].to_vec();
    vec![
        (chain(0, 0), first.clone()),
        (chain(others, 0), first.clone()),
        (chain(0, others), first),
        (chain(0, others), own[..HASHES.min(WAITING_ROWS)].concat()),
    ]
}

/// The largest table that rows of before have room for, both ways.
fn conversions(random: &mut Random, shape: Shape) -> [Deep; 2] {
    let mut rows = random.rows(OLD.rows, shape, Likeness::Descending);
    for row in &mut rows {
        row.dependencies.truncate(OLD.dependencies);
    }
    let wide = table_bytes(&rows);
    let old = converted(NOW, OLD, &wide).expect("they fit");
    [
        deep("bt_widen_rows", move || {
            raw::widen_rows(&old, &mut vec![0; NOW.row() * OLD.rows])
        }),
        deep("bt_narrow_rows", move || {
            raw::narrow_rows(&wide, &mut vec![0; OLD.row() * OLD.rows])
        }),
    ]
}

fn tables(random: &mut Random) -> Vec<Deep> {
    let mut deep_calls = Vec::new();
    for shape in [Shape::Wide, Shape::Deep, Shape::Full, Shape::Any] {
        let rows = random.rows(ROWS, shape, Likeness::Descending);
        let hashes: Vec<Hash> = rows.iter().map(|row| row.hash).collect();
        let own = random.hashes(WAITING_ROWS, Likeness::Spread);
        let waiting = waiting_bytes(&random.waiting_rows(&own, &own));
        let lent = || {
            let table = table_bytes(&rows);
            let index = index_of(&table);
            (table, index)
        };
        let [first, second, third, fourth, fifth, sixth, seventh] = [(); 7].map(|()| lent());
        let before = index_of(but_the_last(&sixth.0));
        let list = hashes.concat();
        deep_calls.extend([
            deep("bt_check_table", move || raw::check_table(&first.0)),
            deep("bt_check_tables", move || {
                raw::check_tables(&second.0, &second.1, &waiting)
            }),
            deep("bt_heads", move || {
                raw::heads(&third.0, &third.1, ROWS, &mut vec![0; HASH * ROWS])
            }),
            deep("bt_beyond", move || {
                raw::beyond(&fourth.0, &fourth.1, &list, &mut vec![0; HASH * ROWS])
            }),
            deep("bt_build_index", move || {
                raw::build_index(&fifth.0, &mut vec![0; 2 * ROWS])
            }),
            deep("bt_extend_index", move || {
                raw::extend_index(&sixth.0, &before, &mut vec![0; 2 * ROWS])
            }),
            deep("bt_narrow_rows", move || {
                raw::narrow_rows(&seventh.0, &mut vec![0; OLD.row() * ROWS])
            }),
        ]);
        deep_calls.extend(conversions(random, shape));
        let (table, index) = lent();
        let field = random.bytes(FIELD_SIZE);
        let s = [field, hashes.concat()].concat();
        let haves = largest(FIELD, 1).repeat(HAVES);
        let need = hashes.concat();
        deep_calls.push(deep("bt_hashes_to_send", move || {
            let out = &mut vec![0; TO_SEND_SIZE];
            raw::hashes_to_send(&table, &index, &s, &haves, &need, out)
        }));
    }
    let table = table_bytes(&random.rows(ROWS, Shape::Any, Likeness::Spread));
    for (waiting, list) in chains(random) {
        for table in [Vec::new(), table.clone()] {
            let (waiting, list) = (waiting.clone(), list.clone());
            let index = index_of(&table);
            deep_calls.push(deep("bt_missing", move || {
                let out = &mut vec![0; LIST_SIZE];
                raw::missing(&table, &index, &waiting, &list, out)
            }));
        }
    }
    let unknown = random.bytes(LIST_SIZE);
    deep_calls.push(deep("bt_missing", move || {
        raw::missing(&[], &[], &[], &unknown, &mut vec![0; LIST_SIZE])
    }));
    deep_calls
}

/// Beside an index that doesn't fit, a call puts the rows in order in memory of its own.
fn beside_no_index(random: &mut Random) -> Vec<Deep> {
    let rows = random.rows(ROWS, Shape::Any, Likeness::Descending);
    let lent = || (table_bytes(&rows), vec![0; 2 * ROWS]);
    let [first, second, third, fourth, fifth] = [(); 5].map(|()| lent());
    vec![
        deep("bt_check_tables", move || {
            raw::check_tables(&first.0, &first.1, &[])
        }),
        deep("bt_heads", move || {
            raw::heads(&second.0, &second.1, ROWS, &mut vec![0; HASH * ROWS])
        }),
        deep("bt_beyond", move || {
            raw::beyond(&third.0, &third.1, &[], &mut vec![0; HASH * ROWS])
        }),
        deep("bt_extend_index", move || {
            raw::extend_index(&fourth.0, &fourth.1, &mut vec![0; 2 * ROWS])
        }),
        deep("bt_hashes_to_send", move || {
            let out = &mut vec![0; TO_SEND_SIZE];
            raw::hashes_to_send(&fifth.0, &fifth.1, &[], &[], &[], out)
        }),
    ]
}

/// A list of many records, each of another station.
fn settings_list() -> Vec<u8> {
    let choice = Choice {
        bits: LARGEST.bits,
        probes: LARGEST.probes,
        read_only: 1,
    };
    let records = (1..=10_000).map(|version| Setting {
        version,
        station: version,
        choice,
    });
    settings_bytes(&records.collect::<Vec<_>>())
}

/// Lists that are good to their end, and ones whose last record is bad.
fn settings() -> Vec<Deep> {
    let good = settings_list();
    let mut bad = good.clone();
    bad[good.len() - 1] = 1;
    let mut deep_calls = Vec::new();
    for list in [good, bad] {
        let [first, second, third] = [(); 3].map(|()| list.clone());
        deep_calls.extend([
            deep("bt_check_settings", move || raw::check_settings(&first)),
            deep("bt_setting_at", move || {
                raw::setting_at(&second, 9_999, u64::MAX)
            }),
            deep("bt_append_setting", move || {
                raw::append_setting(&third, 7, 32, 64, 1, &mut [0; RECORD])
            }),
        ]);
    }
    deep_calls
}

/// Captures of the largest tables and filter: of tables that share no row, and so test each,
/// and of twice the same; with the last row of either bad, and a bad filter.
fn counts(random: &mut Random) -> Vec<Deep> {
    let mut table = |likeness| table_bytes(&random.rows(ROWS, Shape::Any, likeness));
    let (own, other) = (table(Likeness::Descending), table(Likeness::Spread));
    let mut bad = own.clone();
    bad.copy_within(..ROW_SIZE, ROW_SIZE * (ROWS - 1));
    let full = filter_bytes(ENTRIES, 1, MOST_PROBES, &vec![0xff; FIELD_SIZE]);
    let no_bits = filter_string(1, 0, MOST_PROBES);
    let captures = [
        (&own, &other, &full),
        (&own, &own, &full),
        (&bad, &other, &full),
        (&own, &bad, &full),
        (&own, &other, &no_bits),
    ];
    let captures = captures.map(|(sender, listener, filter)| {
        let [sender, listener, filter] = [sender, listener, filter].map(Clone::clone);
        deep("bt_count_capture", move || {
            raw::count_capture(&sender, &listener, &filter)
        })
    });
    let additions = [0, u64::MAX].map(|total| {
        deep("bt_add_counts", move || {
            raw::add_counts(&mut [0, 0, 0, 0, total], 1, 1, 1, 1, 1)
        })
    });
    captures.into_iter().chain(additions).collect()
}

/// The largest tables: good ones, one in which every second row is bad by itself, one whose
/// rows all have the same hash, and a chain that is lost but for its first row.
fn salvages(random: &mut Random) -> Vec<Deep> {
    let mut table = |shape| table_bytes(&random.rows(ROWS, shape, Likeness::Descending));
    let [any, full, wide, chain] =
        [Shape::Any, Shape::Full, Shape::Wide, Shape::Deep].map(&mut table);
    let (mut every_second, mut alike, mut lost) = (any.clone(), wide, chain);
    for row in every_second.chunks_exact_mut(2 * ROW_SIZE) {
        set_number(row, 0, DEPENDENCIES + 1);
    }
    let first = alike[..HASH].to_vec();
    for row in alike.chunks_exact_mut(ROW_SIZE) {
        row[..HASH].copy_from_slice(&first);
    }
    set_number(&mut lost[ROW_SIZE..], 1, 1);
    let tables = [any, full, every_second, alike, lost];
    let calls = tables.map(|table| {
        deep("bt_salvage", move || {
            raw::salvage(&table, &mut vec![0; table.len()], &mut vec![0; 2 * ROWS])
        })
    });
    calls.into()
}

/// Everything is listed, twice, and picked, of the largest tables; beside them a pick whose
/// last hash breaks a rule, an empty one, and an index that doesn't fit.
fn picks(random: &mut Random) -> Vec<Deep> {
    let mut deep_calls = Vec::new();
    for shape in [Shape::Wide, Shape::Deep, Shape::Full, Shape::Any] {
        let rows = random.rows(ROWS, shape, Likeness::Descending);
        let all: Vec<u8> = rows.iter().flat_map(|row| row.hash).collect();
        let table = table_bytes(&rows);
        let mut broken = all.clone();
        broken[LIST_SIZE - 1] ^= 1;
        let fits = Arc::new((index_of(&table), table, [&all[..], &all[..]].concat()));
        let not = Arc::new((vec![0; 2 * ROWS], fits.1.clone(), fits.2.clone()));
        for lent in [fits, not] {
            let own = Arc::clone(&lent);
            deep_calls.push(deep("bt_pick", move || {
                let (index, table, list) = &*own;
                let (sizes, out) = (vec![1; ROWS], &mut vec![0; LIST_SIZE]);
                raw::pick(table, index, list, &sizes, u64::MAX, out)
            }));
            for (pick, budget) in [(&all, u64::MAX), (&broken, u64::MAX), (&Vec::new(), 0)] {
                let (own, pick) = (Arc::clone(&lent), pick.clone());
                deep_calls.push(deep("bt_check_pick", move || {
                    let (index, table, list) = &*own;
                    raw::check_pick(table, index, list, &vec![1; ROWS], budget, &pick)
                }));
            }
        }
    }
    deep_calls
}

/// The words of a session in which every list is as long as it may be, with these flags.
fn full_session(flags: [bool; 7]) -> [u64; WORDS] {
    let full = Session {
        shared: MOST_HASHES,
        last_sent: MOST_HASHES,
        their_heads: Some(MOST_HASHES),
        their_need: Some(MOST_HASHES),
        their_have: Some(HAVES as u64),
        sent: SENT_HASHES as u64,
        flags,
    };
    full.words()
}

fn states(random: &mut Random) -> Vec<Deep> {
    let hashes = random.hashes(HASHES, Likeness::Ascending).concat();
    let state = [&[0x43][..], &number_bytes(MOST_HASHES), &hashes].concat();
    let shared = hashes.clone();
    let session = full_session([true; 7]);
    let haves = largest(0, MOST_HASHES).repeat(HAVES);
    let set = |on| {
        move || {
            let mut session = session;
            raw::set_read_only(&mut session, on);
            session
        }
    };
    vec![
        deep("bt_fresh", || {
            let mut session = [0; WORDS];
            raw::fresh(&mut session);
            session
        }),
        deep("bt_fresh_read_only", || {
            let mut session = [0; WORDS];
            raw::fresh_read_only(&mut session);
            session
        }),
        deep("bt_set_read_only", set(0)),
        deep("bt_set_read_only", set(1)),
        deep("bt_check_session", move || {
            let h = &hashes;
            raw::check_session(&session, h, h, h, h, &haves, h, h)
        }),
        deep("bt_write_state", move || {
            raw::write_state(&shared, HASHES, &mut vec![0; LIST_SIZE + 3])
        }),
        deep("bt_read_state", move || {
            raw::read_state(&state, &mut vec![0; LIST_SIZE], &mut [0; WORDS])
        }),
    ]
}

/// A message in which every list is as long as it may be, with these hashes. As
/// many of its haves are of all of them as half of the largest message has room for.
fn message(hashes: Vec<Hash>) -> Vec<u8> {
    let large = (hashes.clone(), filter_string(ENTRIES, 1, MOST_PROBES));
    let mut haves = vec![large; HAVES.min(MESSAGE_SIZE / 2 / HAVE_SIZE)];
    haves.resize(HAVES, Default::default());
    let chunk = vec![7; MESSAGE_SIZE / 4 / CHUNKS];
    let draft = Draft {
        first: 0x43,
        heads: hashes.clone(),
        need: hashes,
        haves,
        chunks: vec![chunk; CHUNKS],
        flags: Some(vec![0x02, 0x84]),
        ..Draft::new()
    };
    draft.bytes()
}

fn messages(random: &mut Random) -> Vec<Deep> {
    let s = message(random.hashes(HASHES, Likeness::Spread));
    let lists = || (vec![0; HAVES_WORDS], vec![0; CHUNK_WORDS * CHUNKS]);
    let [read, peeked] = [s.clone(), s.clone()];
    let (mut haves, mut chunks) = lists();
    let view = View::read(&read, &mut haves, &mut chunks).expect("a good message");
    let own = Chunks::of(&view);
    let [heads, need] = [view.heads(), view.need()].map(<[u8]>::to_vec);
    let haves = view.have_words().to_vec();
    let write = move || {
        let out = &mut vec![0; s.len()];
        let Chunks { bytes, lengths } = &own;
        raw::write_message(2, &heads, &need, &s, &haves, bytes, lengths, 4, out)
    };
    vec![
        deep("bt_read_message", move || {
            let (mut haves, mut chunks) = lists();
            raw::read_message(&read, &mut haves, &mut chunks, &mut [0; HAVES])
        }),
        deep("bt_peek_heads", move || {
            raw::peek_heads(&peeked, &mut vec![0; LIST_SIZE])
        }),
        deep("bt_write_message", write),
    ]
}

/// The four calls that plan, each also with nothing shared, so that the filter is over
/// all rows; and what there is to send. They share what they are lent, which is large.
fn plans(planning: Planning) -> Vec<Deep> {
    let mut nothing_shared = planning.clone();
    nothing_shared.session.words[0] = 0;
    let mut deep_calls = Vec::new();
    let offering = Arc::new(Offering {
        session: planning.session.clone(),
        table: planning.table.clone(),
        index: planning.index.clone(),
        room: TO_SEND_SIZE,
    });
    deep_calls.push(deep("bt_offer", move || offer(&offering).answer));
    for planning in [planning, nothing_shared].map(Arc::new) {
        let settled = By::Settings {
            list: settings_list(),
            station: 9_999,
            version: u64::MAX,
        };
        let calls = [
            ("bt_plan", By::Crate),
            ("bt_plan_with", By::Passed(LARGEST)),
            ("bt_plan_settled", settled),
        ];
        deep_calls.extend(calls.map(|(name, by)| {
            let planning = Arc::clone(&planning);
            let own = move || Planning {
                by: by.clone(),
                ..Planning::clone(&planning)
            };
            deep(name, move || plan(&own()).answer)
        }));
        deep_calls.extend([true, false].map(|all| plan_picked(&planning, all)));
    }
    deep_calls
}

/// A plan with a pick of every row, or of none, by a settings list. Nothing was sent before:
/// so every row is listed that the peer asks for.
fn plan_picked(planning: &Arc<Planning>, all: bool) -> Deep {
    let planning = Arc::clone(planning);
    let own = move || {
        let mut planning = Planning::clone(&planning);
        planning.session.words[8] = 0;
        let hashes = planning
            .table
            .chunks_exact(ROW_SIZE)
            .map(|row| &row[..HASH]);
        let pick: Vec<u8> = hashes.flatten().copied().collect();
        let (pick, budget) = if all {
            (pick, u64::MAX)
        } else {
            (Vec::new(), 0)
        };
        planning.by = By::Settings {
            list: settings_list(),
            station: 9_999,
            version: u64::MAX,
        };
        let sizes = vec![1; ROWS];
        planning.picking = Some(Picking {
            sizes,
            budget,
            pick,
        });
        planning
    };
    deep("bt_plan_picked", move || plan(&own()).answer)
}

/// Sessions in which every list is as long as it may be, over as many rows as there may
/// be, with and without version 2.
fn sessions(random: &mut Random) -> Vec<Deep> {
    let mut deep_calls = Vec::new();
    for (shape, v2) in [
        (Shape::Wide, false),
        (Shape::Deep, true),
        (Shape::Full, false),
    ] {
        let rows = random.rows(ROWS, shape, Likeness::Descending);
        let mut hashes: Vec<Hash> = rows.iter().map(|row| row.hash).collect();
        let held = hashes.concat();
        hashes.reverse();
        let bytes = [random.bytes(FIELD_SIZE), held.clone()].concat();
        let session = Lent {
            words: full_session(std::array::from_fn(|flag| flag == V2 && v2)),
            shared: held.clone(),
            last_sent: held.clone(),
            their_heads: held.clone(),
            their_need: held,
            haves: largest(FIELD, 1).repeat(HAVES),
            bytes,
            sent: hashes.concat(),
        };
        for (waiting, list) in chains(random) {
            let mut session = session.clone();
            session.words[3] = (list.len() / HASH) as u64;
            session.their_heads = list;
            let planning = Planning {
                by: By::Crate,
                picking: None,
                session,
                table: table_bytes(&rows),
                index: index_of(&table_bytes(&rows)),
                waiting,
                rooms: [TO_SEND_SIZE; 6],
            };
            deep_calls.extend(plans(planning));
        }
        // The last head is unknown, so that all the others are joined: after a load, and by a
        // session that takes no changes without one.
        hashes[0] = random.hash();
        for read_only in [false, true] {
            let mut session = session.clone();
            session.words = full_session(std::array::from_fn(|flag| {
                (flag == V2 && v2) || (flag == READ_ONLY && read_only)
            }));
            let receiving = Receiving {
                session,
                table: table_bytes(&rows),
                index: index_of(&table_bytes(&rows)),
                before: ROWS / 2,
                message: message(hashes.clone()),
                loaded: 1,
                rooms: [
                    LIST_SIZE,
                    LIST_SIZE,
                    LIST_SIZE,
                    LIST_SIZE,
                    HAVES_WORDS,
                    HAVES_SIZE,
                    SENT_SIZE,
                ],
            };
            deep_calls.push(deep("bt_receive", move || receive(&receiving).answer));
        }
    }
    deep_calls
}

/// The page on which the promises stand.
const PAGE: &str = include_str!("../../../docs/ABI.md");

/// Bytes of stack that docs/ABI.md promises to be enough, by call: the rows of its
/// table under "Stack", a size in KiB and names.
pub fn promised() -> BTreeMap<&'static str, usize> {
    let (_, section) = PAGE.split_once("\n## Stack\n").expect("a section");
    let (section, _) = section.split_once("\n## ").unwrap_or((section, ""));
    let rows = section.lines().filter_map(|line| {
        let row = line.strip_prefix("| ")?.strip_suffix(" |")?;
        let (size, names) = row.split_once(" | ")?;
        Some((size.strip_suffix(" KiB")?.parse::<usize>().ok()?, names))
    });
    let mut promised = BTreeMap::new();
    for (size, names) in rows {
        for name in names.split(", ").map(|name| name.trim_matches('`')) {
            let before = promised.insert(name, size << 10);
            assert_eq!(before, None, "{name} is promised two sizes");
        }
    }
    promised
}

/// More than any call takes.
const ENOUGH: usize = 4 << 20;

/// Bytes of stack that a call takes. Where the library is linked, what the Rust around it
/// takes is counted too.
pub fn taken_by(call: &Call) -> usize {
    let (_, used) = raw::on_stack(ENOUGH, call);
    used.unwrap_or_else(|| painted::taken(ENOUGH, &|| drop(call())))
}

/// Of each function the call that takes most, with the bytes of stack that it takes.
pub fn deepest() -> BTreeMap<&'static str, (usize, Call)> {
    let mut deepest: BTreeMap<_, (usize, Call)> = BTreeMap::new();
    for (name, call) in calls() {
        let bytes = taken_by(&call);
        if deepest.get(name).is_none_or(|(most, _)| *most < bytes) {
            deepest.insert(name, (bytes, call));
        }
    }
    deepest
}
