//! Links the proved library, which `make lib` builds at the repository's root
//! (cargo has no part in that), and writes the calls of the module `raw`, the constants of
//! the module `limits` and the C header from the library's own source.
//!
//! The library is for x86-64. There it is linked into the crate. On another
//! processor it is linked into the program src/raw/caller.c, which the emulator
//! of the kit that proved the library runs; src/raw/emulated.rs speaks with it.
//! SYNC_ARCHIVE names another libbisquetower.a, for the processor at hand; that one is
//! then linked into the crate. `make bench`, `make compare` and `make fuzz` are run so.

#[path = "build/calls.rs"]
mod calls;
#[path = "build/exported.rs"]
mod exported;
#[path = "build/header.rs"]
mod header;
#[path = "build/kit.rs"]
mod kit;
#[path = "build/limits.rs"]
mod limits;

use calls::Way;
use std::env;
use std::fs;
use std::path::{Path, PathBuf};
use std::process::Command;

fn main() {
    println!("cargo::rustc-check-cfg=cfg(linked)");
    println!("cargo::rerun-if-env-changed=SYNC_ARCHIVE");
    if let Err(why) = build() {
        println!("cargo::error={why}");
    }
}

fn build() -> Result<(), String> {
    let here = PathBuf::from(variable("CARGO_MANIFEST_DIR"));
    let own = env::var_os("SYNC_ARCHIVE").map(PathBuf::from);
    let way = match own.is_some() || variable("CARGO_CFG_TARGET_ARCH") == "x86_64" {
        true => Way::Linked,
        false => Way::Emulated,
    };
    write_calls(&here.join("../../crates"), way)?;

    let library = own.unwrap_or(here.join("../../target/staticlib/libbisquetower.a"));
    println!("cargo::rerun-if-changed={}", library.display());
    if !library.exists() {
        let missing = format!("{} is missing", library.display());
        return Err(format!(
            "{missing}: run `make lib` at the repository's root"
        ));
    }
    match way {
        Way::Linked => {
            let folder = library.parent().ok_or("SYNC_ARCHIVE names no file")?;
            println!("cargo::rustc-cfg=linked");
            println!("cargo::rustc-link-search=native={}", folder.display());
            println!("cargo::rustc-link-lib=static=bisquetower");
            Ok(())
        }
        Way::Emulated => emulate(&here.join("src/raw/caller.c"), &library)
            .map_err(|why| format!("libbisquetower.a is for x86-64 and can't be run here: {why}")),
    }
}

/// The most arguments that caller.c passes.
const ARGUMENTS: usize = 40;

/// Writes calls.rs, which the module `raw` includes, calls.h, which caller.c does,
/// limits.rs, which the module `limits` includes, and the header for programs in C.
fn write_calls(crates: &Path, way: Way) -> Result<(), String> {
    println!("cargo::rerun-if-changed={}", crates.display());
    let functions = exported::read_crates(crates)?;
    if let Some(long) = functions.iter().find(|f| f.arguments() > ARGUMENTS) {
        let name = &long.name;
        return Err(format!("{name} has more than {ARGUMENTS} arguments in C"));
    }
    let write = |name: &str, text: String| {
        let path = PathBuf::from(variable("OUT_DIR")).join(name);
        fs::write(&path, text).map_err(|error| format!("{}: {error}", path.display()))
    };
    write("calls.rs", calls::rust_text(&functions, way))?;
    write("calls.h", calls::c_text(&functions))?;
    let limits = limits::read_limits(crates)?;
    write("limits.rs", limits::rust_text(&limits))?;
    let version = variable("CARGO_PKG_VERSION");
    let header = header::c_header(&version, &limits, &functions);
    write("bisquetower.h", header)
}

/// Builds the program that calls the library, and tells emulated.rs where it and
/// its emulator are.
fn emulate(source: &Path, library: &Path) -> Result<(), String> {
    println!("cargo::rerun-if-changed={}", source.display());
    println!("cargo::rerun-if-env-changed=PATH");
    println!("cargo::rerun-if-env-changed=RATTLE_HOME");
    let tools = kit::tools().ok_or("`rt` isn't on the PATH")?;
    let folder = PathBuf::from(variable("OUT_DIR"));
    let caller = folder.join("caller");
    // Neither a C library nor its headers are there for x86-64.
    let alone = [
        "-ffreestanding",
        "-fno-builtin",
        "-fno-stack-protector",
        "-nostdlib",
        "-static",
    ];
    let compiled = Command::new(tools.join("clang"))
        .args(["--target=x86_64-unknown-linux-gnu", "-fuse-ld=lld"])
        .args(["-O2", "-Wall", "-Wextra", "-Werror"])
        // What vector instructions do, the emulator does slowly.
        .arg("-mgeneral-regs-only")
        .args(alone)
        .arg("-I")
        .arg(&folder)
        .arg("-o")
        .args([&caller, source, library])
        .status();
    if !compiled.is_ok_and(|status| status.success()) {
        let old = "after a change of an exported call, `make lib` comes first";
        return Err(format!(
            "the kit's clang didn't build src/raw/caller.c with it ({old})"
        ));
    }
    let emulator = tools.join("qemu-x86_64");
    if !emulator.exists() {
        return Err("the kit has no emulator".to_string());
    }
    println!("cargo::rustc-env=CALLER={}", caller.display());
    println!("cargo::rustc-env=EMULATOR={}", emulator.display());
    Ok(())
}

fn variable(name: &str) -> String {
    env::var(name).expect("cargo sets this variable")
}
