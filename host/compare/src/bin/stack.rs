//! Prints how many bytes of stack each exported call takes, and what docs/ABI.md
//! promises.

use bisquetower::raw;
use compare::stack::{deepest, promised};

fn main() {
    let promised = promised();
    println!("{:<22} {:>8} {:>9}", "call", "takes", "promised");
    for (name, (bytes, _)) in deepest() {
        let promise = promised.get(name).map_or("-".to_string(), usize::to_string);
        println!("{name:<22} {bytes:>8} {promise:>9}");
    }
    if raw::LINKED {
        println!("What the Rust around a call takes is counted too.");
    }
}
