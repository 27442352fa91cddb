//! The command, run as its users run it: what it shows, what it complains of, and its
//! exit status.

#[path = "desk/both.rs"]
mod both;
#[path = "desk/catch_up.rs"]
mod catch_up;
#[path = "desk/command.rs"]
mod command;
#[path = "desk/comparison.rs"]
mod comparison;
#[path = "desk/convert.rs"]
mod convert;
#[path = "desk/count.rs"]
mod count;
#[path = "desk/inspect.rs"]
mod inspect;
#[path = "desk/salvage.rs"]
mod salvage;
#[path = "desk/settings.rs"]
mod settings;

use std::ffi::OsStr;
use std::io::Write;
use std::path::{Path, PathBuf};
use std::process::{Command, Stdio};
use std::sync::OnceLock;

/// What a run left: its exit status, what it showed and what it complained of.
#[derive(Debug)]
struct Run {
    status: i32,
    out: String,
    err: String,
}

impl Run {
    /// The exit status is this one; a failed run says what to do next.
    fn ended(self, status: i32) -> Run {
        assert_eq!(self.status, status, "{self:?}");
        assert_eq!(self.err.contains("next: "), status != 0, "{self:?}");
        self
    }
}

fn run(words: &[&str]) -> Run {
    run_with(words, b"")
}

/// A run with bytes on its standard input.
fn run_with(words: &[&str], input: &[u8]) -> Run {
    run_into(words, input, Stdio::piped())
}

/// What the command does with these words, which needn't be text, its standard output
/// going to `out`.
fn run_into<W: AsRef<OsStr>>(words: &[W], input: &[u8], out: Stdio) -> Run {
    let mut child = Command::new(env!("CARGO_BIN_EXE_bisquetower"))
        .args(words)
        .stdin(Stdio::piped())
        .stdout(out)
        .stderr(Stdio::piped())
        .spawn()
        .expect("the command starts");
    let mut stdin = child.stdin.take().expect("a pipe");
    // A command that doesn't read its input may be gone by now.
    let _ = stdin.write_all(input);
    drop(stdin);
    let left = child.wait_with_output().expect("the command ends");
    let text = |bytes| String::from_utf8(bytes).expect("text");
    Run {
        status: left.status.code().expect("no signal"),
        out: text(left.stdout),
        err: text(left.stderr),
    }
}

/// An empty folder of this name, for a test of its own.
fn folder(name: &str) -> PathBuf {
    let folder = Path::new(env!("CARGO_TARGET_TMPDIR")).join(name);
    let _ = std::fs::remove_dir_all(&folder);
    std::fs::create_dir_all(&folder).expect("a folder");
    folder
}

/// The samples, for tests that only read them.
fn samples() -> &'static Path {
    static SAMPLES: OnceLock<PathBuf> = OnceLock::new();
    SAMPLES.get_or_init(|| {
        let folder = folder("samples");
        run(&["sample", text(&folder)]).ended(0);
        folder
    })
}

fn text(path: &Path) -> &str {
    path.to_str().expect("text")
}
