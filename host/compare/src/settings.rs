//! The calls on settings lists (document 02, M-107): the library against the model in
//! every word and byte. The crate has no settings; what a plan makes of them stands with
//! the sessions.

use crate::guarded::{Fill, Guarded, FILLS};
use crate::inputs::shown;
use crate::model::settings::{self, Choice, RECORD};
use crate::model::{self, Refused};
use crate::same_answer;
use crate::tables::{Rooms, ANSWERS};
use bisquetower::raw::{self, Batch};

/// A call on a lent list.
#[derive(Clone, Copy, Debug)]
pub enum Call<'a> {
    Check {
        settings: &'a [u8],
    },
    At {
        settings: &'a [u8],
        station: u64,
        version: u64,
    },
    Append {
        settings: &'a [u8],
        station: u64,
        choice: Choice,
    },
}

/// The calls by name.
pub const NAMES: [&str; 3] = ["check_settings", "setting_at", "append_setting"];

impl Call<'_> {
    /// The call's place in `NAMES`.
    pub fn kind(&self) -> usize {
        match self {
            Call::Check { .. } => 0,
            Call::At { .. } => 1,
            Call::Append { .. } => 2,
        }
    }

    fn writes(&self) -> bool {
        matches!(self, Call::Append { .. })
    }

    fn library<'m>(&self, batch: &mut Batch<'m>, out: &'m mut [u8], answer: &'m mut [u64; 4]) {
        match *self {
            Call::Check { settings } => batch.check_settings(settings, answer),
            Call::At {
                settings,
                station,
                version,
            } => batch.setting_at(settings, station, version, answer),
            Call::Append {
                settings,
                station,
                choice,
            } => {
                let Choice {
                    bits,
                    probes,
                    read_only,
                } = choice;
                batch.append_setting(settings, station, bits, probes, read_only, out, answer)
            }
        }
    }

    /// What the model answers and leaves in the buffer.
    fn model(&self, out: &mut [u8]) -> [u64; 4] {
        match *self {
            Call::Check { settings } => settings::check(settings),
            Call::At {
                settings,
                station,
                version,
            } => settings::asked(settings, station, version),
            Call::Append {
                settings,
                station,
                choice,
            } => {
                let record: Result<Vec<u8>, Refused> =
                    settings::appended(settings, station, choice);
                model::write(out, record)
            }
        }
    }

    fn shown(&self) -> String {
        let (list, rest) = match *self {
            Call::Check { settings } => (settings, String::new()),
            Call::At {
                settings,
                station,
                version,
            } => (settings, format!(", station {station} at {version}")),
            Call::Append {
                settings,
                station,
                choice,
            } => (settings, format!(", station {station}, {choice:?}")),
        };
        format!("{} of {}{rest}", NAMES[self.kind()], shown(list))
    }
}

/// How often each call gave each answer.
#[derive(Clone, Copy, Debug, Default)]
pub struct Tally {
    /// By call, then by the answer's first word.
    answers: [[u64; ANSWERS]; NAMES.len()],
}

impl Tally {
    pub fn of(&self, kind: usize, first_word: usize) -> u64 {
        self.answers[kind][first_word]
    }

    pub fn add(&mut self, other: &Tally) {
        let mine = self.answers.iter_mut().flatten();
        for (mine, theirs) in mine.zip(other.answers.iter().flatten()) {
            *mine += theirs;
        }
    }
}

/// A call with one buffer.
struct Asked<'a> {
    call: Call<'a>,
    expected: [u64; 4],
    answer: [u64; 4],
    out: Guarded<u8>,
}

impl<'a> Asked<'a> {
    fn new(call: Call<'a>, room: usize, fill: Fill) -> Self {
        let mut out = Guarded::new(room, fill);
        Asked {
            call,
            expected: call.model(out.expected()),
            answer: [raw::UNWRITTEN; 4],
            out,
        }
    }

    fn agrees(&self) -> Result<(), String> {
        let told = |why| {
            let (call, room) = (self.call.shown(), self.out.room());
            format!("{call} into {room} bytes: {why}")
        };
        same_answer(self.answer, self.expected).map_err(told)?;
        self.out.agrees().map_err(told)
    }
}

/// Makes each call with each of its buffers, and compares answer and memory with the
/// model's; the first that disagrees is the error.
pub fn compare(calls: &[(Call, Rooms)]) -> Result<Tally, String> {
    let mut asked = Vec::new();
    for &(call, rooms) in calls {
        if !call.writes() {
            asked.push(Asked::new(call, 0, Fill::One));
            continue;
        }
        for room in rooms.sizes(RECORD) {
            asked.extend(FILLS.map(|fill| Asked::new(call, room, fill)));
        }
    }
    let mut batch = Batch::new();
    for one in &mut asked {
        let (out, answer) = (one.out.lent(), &mut one.answer);
        one.call.library(&mut batch, out, answer);
    }
    batch.run();
    let mut tally = Tally::default();
    for one in &asked {
        one.agrees()?;
        tally.answers[one.call.kind()][one.answer[0] as usize] += 1;
    }
    Ok(tally)
}

/// The library's answer to one call, and the bytes that it wrote.
pub fn ask(call: Call, room: usize) -> ([u64; 4], Vec<u8>) {
    let mut out = vec![0; room];
    let mut answer = [raw::UNWRITTEN; 4];
    let mut batch = Batch::new();
    call.library(&mut batch, &mut out, &mut answer);
    batch.run();
    let written = match (answer[0], call.writes()) {
        (0, true) => answer[1] as usize,
        _ => 0,
    };
    out.truncate(written);
    (answer, out)
}
