//! Links libFuzzer, which `run` finds.

fn main() {
    println!("cargo::rerun-if-env-changed=FUZZER_ARCHIVE");
    match std::env::var("FUZZER_ARCHIVE") {
        Ok(archive) => {
            for word in [&archive, "-lstdc++", "-lm", "-lgcc", "-lc"] {
                println!("cargo::rustc-link-arg-bins={word}");
            }
        }
        Err(_) => println!("cargo::error=`make fuzz` builds this"),
    }
}
