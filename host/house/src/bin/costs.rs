//! Writes the table of docs/WORKING.md that has what each crate costs: `costs LOG`, where LOG
//! is a file with the output of `make test`. Without LOG the seconds stay, and rows, functions
//! and edits are counted anew.

use house::{costs, crates, edits, functions, read, root};
use std::{env, fs};

fn main() {
    let path = root().join("docs/WORKING.md");
    let page = read(&path);
    let log = env::args().nth(1).map(|log| read(log.as_ref()));
    let rows = costs::today(
        &crates(),
        &functions::all(),
        &edits::all(),
        log.as_deref(),
        &page,
    );
    fs::write(path, costs::written(&page, &rows)).expect("docs/WORKING.md is written");
}
