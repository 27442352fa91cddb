//! What libbisquetower.a asks its program for, and how it takes its stack, against
//! docs/ABI.md.

#[path = "../build/kit.rs"]
mod kit;
mod objects;

use objects::Function;
use std::collections::BTreeSet;
use std::path::{Path, PathBuf};
use std::process::Command;

fn root() -> PathBuf {
    Path::new(env!("CARGO_MANIFEST_DIR")).join("../..")
}

fn archive() -> PathBuf {
    root().join("target/staticlib/libbisquetower.a")
}

/// The names in a line's backquotes.
fn quoted(line: &str) -> BTreeSet<String> {
    let names = line.split('`').skip(1).step_by(2);
    names.map(str::to_string).collect()
}

/// What the page says that the archive hasn't.
fn told(root: &Path) -> BTreeSet<String> {
    let page = std::fs::read_to_string(root.join("docs/ABI.md")).expect("the page is read");
    let start = "The archive has everything but ";
    let line = page.lines().find(|line| line.starts_with(start));
    quoted(line.expect("the page says it"))
}

/// What the kit's linker doesn't find when it links the whole archive and nothing else.
fn asked_for(archive: &Path) -> BTreeSet<String> {
    let tools = kit::tools().expect("the kit that proved the library");
    let linked = Command::new(tools.join("ld.lld"))
        .args(["-m", "elf_x86_64", "-shared", "-z", "defs"])
        .args(["--error-limit=0", "--whole-archive"])
        .arg(archive)
        .arg("-o")
        .arg(Path::new(env!("CARGO_TARGET_TMPDIR")).join("symbols"))
        .output()
        .expect("the kit's linker runs");
    let said = String::from_utf8_lossy(&linked.stderr);
    let names = said
        .lines()
        .filter_map(|line| line.split_once("undefined symbol: "));
    let names: BTreeSet<String> = names.map(|(_, name)| name.trim().to_string()).collect();
    assert!(linked.status.success() || !names.is_empty(), "{said}");
    names
}

#[test]
fn the_page_names_what_the_archive_asks_for() {
    assert_eq!(told(&root()), asked_for(&archive()));
}

/// Bytes of the steps in which the kit's compiler takes stack, each less than a page, and
/// those below its stack that a function that calls none may use without taking them.
const STEP: usize = 3_072;
const RED_ZONE: usize = 128;

/// `sub $N, %rsp`, with N in the next four bytes, and `movq $0, (%rsp)`.
const TAKE: [u8; 3] = [0x48, 0x81, 0xec];
const TOUCH: [u8; 8] = [0x48, 0xc7, 0x04, 0x24, 0, 0, 0, 0];

/// No function takes more than such a step of stack at once, and one that takes a step touches
/// it before it goes on. So a call on too small a stack comes to the guard page below it.
#[test]
fn stack_is_taken_and_touched_page_by_page() {
    let code = std::fs::read(archive()).expect("the archive is read");
    let mut steps = 0;
    for Function { name, code, calls } in objects::of_archive(&code) {
        for at in (0..code.len()).filter(|&at| code[at..].starts_with(&TAKE)) {
            let (number, behind) = code[at + TAKE.len()..].split_at(4);
            let bytes = u32::from_le_bytes(number.try_into().expect("four bytes")) as usize;
            let below = if calls { 0 } else { RED_ZONE };
            if bytes == STEP {
                assert!(behind.starts_with(&TOUCH), "{name}: a step isn't touched");
                steps += 1;
            } else {
                assert!(bytes + below < STEP, "{name}: {bytes} bytes at once");
            }
        }
    }
    assert!(steps > 0, "no function that takes a step is seen");
}
