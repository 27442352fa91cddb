//! Writes every stored sample of the crate's answers, or checks that what is stored
//! is as made from the crate. `compare::samples` says where they stand.

use compare::samples::{files, File};
use std::process::ExitCode;

fn main() -> ExitCode {
    let words: Vec<String> = std::env::args().skip(1).collect();
    let words: Vec<&str> = words.iter().map(String::as_str).collect();
    let each: fn(&File) -> Result<String, String> = match words[..] {
        ["write"] => write,
        ["check"] => check,
        _ => {
            eprintln!("use: samples write, or samples check");
            return ExitCode::FAILURE;
        }
    };
    let mut code = ExitCode::SUCCESS;
    for file in files() {
        match each(&file) {
            Ok(told) => println!("{}: {told}", file.name),
            Err(why) => {
                eprintln!("{}: {why}", file.name);
                code = ExitCode::FAILURE;
            }
        }
    }
    code
}

fn write(file: &File) -> Result<String, String> {
    std::fs::write(file.path(), &file.bytes).map_err(|error| error.to_string())?;
    let (records, bytes) = (file.records, file.bytes.len());
    Ok(format!("{records} records, {bytes} bytes"))
}

fn check(file: &File) -> Result<String, String> {
    match file.stored().map_err(|error| error.to_string())? == file.bytes {
        true => Ok("as made from the crate".to_string()),
        false => Err("not what is made from the crate now; `samples write` writes it".to_string()),
    }
}
