//! The C header: what it declares, and programs in C that are built with it.

#[path = "../build/exported.rs"]
#[allow(dead_code)]
mod exported;
#[path = "../build/header.rs"]
mod header;
#[path = "../build/kit.rs"]
mod kit;
#[path = "../build/limits.rs"]
#[allow(dead_code)]
mod limits;

use bisquetower::limits::{MESSAGE_SIZE, TABLE_SIZE};
use bisquetower::{raw, ChangeHash, Table};
use std::fs;
use std::io::Write;
use std::path::{Path, PathBuf};
use std::process::{Command, Output, Stdio};

fn here() -> &'static Path {
    Path::new(env!("CARGO_MANIFEST_DIR"))
}

/// Every exported function is declared, once.
#[test]
fn the_header_declares_every_call() {
    for name in raw::NAMES {
        let declared = raw::HEADER.matches(&format!("\nvoid {name}(")).count();
        assert_eq!(declared, 1, "{name}");
    }
    assert_eq!(raw::HEADER.matches("\nvoid ").count(), raw::NAMES.len());
}

#[test]
fn every_kind_of_parameter_in_c() {
    let source = "
// One.
#[unsafe(no_mangle)]
pub extern \"C\" fn bt_all(s: &[u8], out: &mut [u64], hash: &[u8; 32], words: &mut [u64; 4], at: usize, n: u16, on: bool)
{
}
";
    let functions = exported::read_source(source).unwrap();
    let text = header::c_header("1.2.3", &[], &functions);
    let declared = "
/* One. */
void bt_all(
    const uint8_t *s, size_t s_length,
    uint64_t *out, size_t out_length,
    const uint8_t hash[32],
    uint64_t words[4],
    size_t at,
    uint16_t n,
    bool on);
";
    assert!(text.contains(declared), "{text}");
}

/// The number that the header gives to a name.
fn defined(name: &str) -> u64 {
    let start = format!("#define {name} ");
    let mut lines = raw::HEADER.lines();
    let rest = lines.find_map(|line| line.strip_prefix(&start));
    let number = rest.and_then(|rest| rest.split(' ').next());
    number.expect(name).parse().expect(name)
}

/// The limits that are read from the source are all that the library answers, in its
/// order; the header has each, and docs/ABI.md names it.
#[test]
fn the_header_has_every_limit() {
    let mut answered = [0; 12];
    raw::limits(&mut answered);
    let page = fs::read_to_string(here().join("../../docs/ABI.md")).unwrap();
    let read = limits::read_limits(&here().join("../../crates")).unwrap();
    let declared = read.iter().map(|limit| {
        let name = format!("BT_{}", limit.name);
        assert!(page.contains(&format!("`{name}`")), "{name}");
        defined(&name)
    });
    assert_eq!(declared.collect::<Vec<_>>(), answered);
    let mut comments = read.iter().map(|limit| &limit.comment);
    assert!(comments.all(|comment| !comment.is_empty()));
}

/// A constant that can't be read stops the build.
#[test]
fn other_limits_are_refused() {
    let read = limits::read_source("// Rows.\npub const ROWS: usize = 1_024;\n").unwrap();
    let [rows] = &read[..] else {
        panic!("{read:?}")
    };
    assert_eq!(
        (&rows.name[..], &rows.comment[..], rows.number),
        ("ROWS", "Rows.", 1_024)
    );
    assert!(limits::read_source("pub const ROWS: usize = 2 * 512;\n").is_err());
    assert!(limits::read_source("pub const ROWS: u64 = 1_024;\n").is_err());
}

/// Builds a program of tests/c with the header and the archive, for x86-64, as the
/// header says.
fn program(name: &str) -> PathBuf {
    let folder = Path::new(env!("CARGO_TARGET_TMPDIR")).join(name);
    fs::create_dir_all(&folder).unwrap();
    fs::write(folder.join("bisquetower.h"), raw::HEADER).unwrap();
    let (c, program) = (here().join("tests/c"), folder.join(name));
    let tools = kit::tools().expect("the kit that proved the library");
    let built = Command::new(tools.join("clang"))
        .args(["--target=x86_64-unknown-linux-gnu", "-fuse-ld=lld"])
        .args([
            "-std=c11",
            "-O2",
            "-Wall",
            "-Wextra",
            "-Wpedantic",
            "-Werror",
        ])
        .args(["-ffreestanding", "-fno-builtin", "-fno-stack-protector"])
        .args(["-nostdlib", "-static", "-I"])
        .args([&folder, Path::new("-I"), &c.join("alone")])
        .args([c.join(format!("{name}.c")), c.join("alone/start.c")])
        .arg("-L")
        .arg(here().join("../../target/staticlib"))
        .args(["-lbisquetower", "-o"])
        .arg(&program)
        .output()
        .expect("the kit's clang runs");
    let said = String::from_utf8_lossy(&built.stderr);
    assert!(built.status.success(), "{said}");
    program
}

/// What the program says of its input.
fn read(program: &Path, input: &[u8]) -> Output {
    let mut command = match cfg!(target_arch = "x86_64") {
        true => Command::new(program),
        false => {
            let tools = kit::tools().expect("the kit that proved the library");
            let mut emulated = Command::new(tools.join("qemu-x86_64"));
            emulated.arg(program);
            emulated
        }
    };
    let mut child = command
        .stdin(Stdio::piped())
        .stdout(Stdio::piped())
        .spawn()
        .expect("it starts");
    let mut stdin = child.stdin.take().expect("a pipe");
    stdin.write_all(input).expect("it reads");
    drop(stdin);
    child.wait_with_output().expect("it ends")
}

/// The status with which the program ends, and its line.
fn says(program: &Path, input: &[u8], status: i32, line: &str) {
    let left = read(program, input);
    assert_eq!(String::from_utf8_lossy(&left.stdout), format!("{line}\n"));
    assert_eq!(left.status.code(), Some(status));
}

#[test]
fn a_program_in_c_knows_the_version_and_the_limits() {
    let version = env!("CARGO_PKG_VERSION");
    let line = format!(
        "version {version}: {}, limits 12",
        version.replace('.', " ")
    );
    says(&program("limits"), b"", 0, &line);
}

#[test]
fn a_program_in_c_reads_messages() {
    let program = program("read_message");
    let said = |message: &[u8], status, line: &str| says(&program, message, status, line);
    let all = "version 2, heads 0, need 0, haves 1, chunks 1, flags 4, ignored 0 and 0";
    said(b"\x43\0\0\x01\0\0\x01\x04sync\x02\x02\x84", 0, all);
    let none = "version 1, heads 0, need 0, haves 0, chunks 0, flags 256, ignored 0 and 0";
    said(b"\x42\0\0\0\0", 0, none);
    let odd = "version 1, heads 0, need 0, haves 1, chunks 0, flags 0, ignored 2 and 3";
    said(b"\x42\0\0\x01\0\x05\0\0\0no\0\0yes", 0, odd);
    said(b"\x42\0\0\0\x01\x02\xaa", 1, "refusal 1, value 5");
    said(b"\x41", 1, "refusal 2, value 65");
    said(b"", 1, "refusal 1, value 0");
    said(&vec![0x42; MESSAGE_SIZE + 1], 1, "refusal 4, value 0");
}

/// It builds the table's index and lends it.
#[test]
fn a_program_in_c_reads_tables() {
    let program = program("read_table");
    let said = |table: &[u8], status, line: &str| says(&program, table, status, line);
    let [a, b, c] = [b'a', b'b', b'c'].map(|name| ChangeHash([name; 32]));
    let table = Table::lay([(c, vec![]), (a, vec![c]), (b, vec![c])]);
    said(&table, 0, "rows 3, heads 2");
    said(&table[..Table::ROW], 0, "rows 1, heads 1");
    said(b"", 0, "rows 0, heads 0");
    said(&table[..Table::ROW + 1], 1, "refusal 6, value 1");
    said(&vec![0; TABLE_SIZE + 1], 1, "refusal 4, value 0");
}
