//! Numbers and hashes as they are shown.

use bisquetower::refusal::grouped;
use bisquetower::ChangeHash;

/// Digits of a hash that is shown in short.
const SHORT: usize = 16;

/// How many hashes of a list are shown in short.
const FEW: usize = 4;

/// A number with its thousands told apart.
pub fn number(n: usize) -> String {
    grouped(n as u64)
}

/// A number of things, in the singular where it is one.
pub fn count(n: usize, thing: &str) -> String {
    let things = match thing.strip_suffix("ry") {
        Some(start) => format!("{start}ries"),
        None if thing.ends_with('h') => format!("{thing}es"),
        None => format!("{thing}s"),
    };
    match n {
        1 => format!("1 {thing}"),
        _ => format!("{} {things}", number(n)),
    }
}

/// The first digits of a hash.
pub fn short(hash: &ChangeHash) -> String {
    hash.to_string()[..SHORT].to_string()
}

/// Hashes in a line, or all of them in full.
pub fn hashes(list: &[ChangeHash], full: bool) -> Vec<String> {
    if full {
        return list.iter().map(ChangeHash::to_string).collect();
    }
    let mut line: Vec<String> = list.iter().take(FEW).map(short).collect();
    if list.len() > FEW {
        line.push(format!("and {} more", number(list.len() - FEW)));
    }
    match line.is_empty() {
        true => Vec::new(),
        false => vec![line.join("  ")],
    }
}

/// Rows of a name, a number and what there is to tell, in columns.
#[derive(Debug, Default)]
pub struct Columns(Vec<[String; 3]>);

impl Columns {
    pub fn row(&mut self, name: &str, n: &str, told: &str) {
        self.0.push([name, n, told].map(str::to_string));
    }

    /// A row with its lines below each other.
    pub fn rows(&mut self, name: &str, n: &str, told: &[String]) {
        let first = told.first().map_or("", String::as_str);
        self.row(name, n, first);
        for line in told.iter().skip(1) {
            self.row("", "", line);
        }
    }
}

impl std::fmt::Display for Columns {
    fn fmt(&self, f: &mut std::fmt::Formatter<'_>) -> std::fmt::Result {
        let width = |k: usize| self.0.iter().map(|row| row[k].chars().count()).max();
        let (names, numbers) = (width(0).unwrap_or(0), width(1).unwrap_or(0));
        for [name, n, told] in &self.0 {
            let line = format!("  {name:names$}  {n:>numbers$}  {told}");
            writeln!(f, "{}", line.trim_end())?;
        }
        Ok(())
    }
}
