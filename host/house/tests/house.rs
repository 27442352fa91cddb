//! What the crates and the documents must keep to.

use house::citations::{of_text, stands, Citation};
use house::edits::{self, Edit};
use house::functions::{self, Function};
use house::names::{home, names, spec_imports, Home};
use house::reach::House;
use house::{costs, crates, document, files, read, root, STATIC};
use std::collections::{BTreeMap, BTreeSet};
use std::path::PathBuf;

/// The functions that stand in a document: `crate::file::name` or, in a line that names
/// the file so, `name` alone.
fn named_in<'a>(text: &str, functions: &'a [Function]) -> Vec<&'a Function> {
    let named = |f: &&Function| {
        let Home { krate, file, name } = &f.home;
        let (file, ends) = (
            format!("`{krate}::{file}::"),
            [format!("`{name}`"), format!("::{name}`")],
        );
        let mut lines = text.lines().filter(|line| line.contains(&file));
        lines.any(|line| ends.iter().any(|end| line.contains(end)))
    };
    functions.iter().filter(named).collect()
}

/// docs/API.md in two: what anyone may call, and what is internal.
fn api() -> (String, String) {
    let api = document("API.md");
    let (public, internal) = api
        .split_once("\n## Internal\n")
        .expect("a section Internal");
    (public.into(), internal.into())
}

#[test]
fn there_is_a_house() {
    let functions = functions::all();
    assert!(functions.iter().filter(|f| f.public).count() > 200);
    assert!(functions.iter().filter(|f| f.exported).count() > 20);
    assert!(edits::all().len() > 100);
}

#[test]
fn no_exported_function_requires_anything() {
    for function in functions::all().iter().filter(|f| f.exported) {
        assert!(!function.requires(), "{}", function.path());
    }
}

/// The crate of the static library.
const EXPORTS: &str = "bisquetower";

/// A text as its words, whatever its layout.
fn words(text: &str) -> String {
    text.split_whitespace().collect::<Vec<_>>().join(" ")
}

/// The static library has an export for each function of the crates NAME_calls that is marked
/// as exported. It repeats the function's contract word for word, in which each name means the
/// same, and its body is the call alone.
#[test]
fn every_export_is_the_function_that_it_calls() {
    let functions = functions::all();
    let marked = functions.iter().filter(|f| f.exported);
    let (exports, called): (Vec<&Function>, Vec<&Function>) =
        marked.partition(|f| f.home.krate == EXPORTS);
    for export in &exports {
        let name = &export.home.name;
        let mut same = called.iter().filter(|f| f.home.name == *name);
        let function = same.next().expect("a function of that name");
        assert!(same.next().is_none(), "{name}");
        assert_eq!(words(&export.contract), words(&function.contract));
        let [here, there] = [export, function].map(|f| spec_imports(&f.source));
        for cited in names(&export.contract) {
            assert_eq!(here.get(cited), there.get(cited), "{name}: {cited}");
        }
        let (_, parameters) = export.contract.split_once('(').expect("parameters");
        let (parameters, _) = parameters.split_once(')').expect("their end");
        let passed = parameters.split(',').filter_map(|one| one.split_once(':'));
        let passed: Vec<&str> = passed.map(|(passed, _)| passed.trim()).collect();
        let body: String = export.body.split_whitespace().collect();
        let call = format!("{}({})", function.path(), passed.join(","));
        assert_eq!(body.replace(",)", ")"), call);
    }
    assert_eq!(exports.len(), called.len());
    assert!(exports.len() > 40, "{}", exports.len());
}

/// A public function that requires nothing is named as one that anyone may call, one
/// that requires something as internal, and neither as the other.
#[test]
fn every_public_function_is_documented_as_what_it_is() {
    let functions = functions::all();
    let (public, internal) = api();
    let paths = |text: &str| -> Vec<String> {
        named_in(text, &functions)
            .iter()
            .map(|f| f.path())
            .collect()
    };
    let (open, closed) = (paths(&public), paths(&internal));
    let exported = document("ABI.md");
    let mut wrong = Vec::new();
    for function in functions.iter().filter(|f| f.public) {
        let path = function.path();
        let called_by_anyone = match function.exported {
            true => names(&exported).contains(&function.home.name[..]),
            false => open.contains(&path),
        };
        if called_by_anyone == function.requires() || closed.contains(&path) != function.requires()
        {
            wrong.push(path);
        }
    }
    assert!(wrong.is_empty(), "docs/API.md: {wrong:#?}");
}

#[test]
fn every_edit_fits_its_file_once() {
    for Edit {
        krate,
        name,
        slip,
        file,
        changes,
    } in edits::all()
    {
        assert!(!slip.is_empty() && !changes.is_empty(), "{krate}/{name}");
        let mut text = read(&root().join("crates").join(&krate).join(&file));
        for (old, new) in changes {
            assert_eq!(text.matches(&old).count(), 1, "{krate}/{name}: {old}");
            text = text.replace(&old, &new);
        }
    }
}

/// What all calls have in common, the words of a refusal, isn't counted.
fn shared(home: &Home) -> bool {
    let Home { krate, file, .. } = home;
    krate == "call_words" && file == "answer" || krate == "rules" && file == "refusal"
}

#[test]
fn two_edits_reach_each_exported_call() {
    let house = House::read();
    let edits = edits::all();
    let mut few = Vec::new();
    for call in house.functions.iter().filter(|f| f.exported) {
        let reaching = house.edits_reaching(call, &edits);
        let own = |edit: &&&Edit| !house.changed(edit).iter().all(shared);
        let count = reaching.iter().filter(own).count();
        if count < 2 {
            few.push(format!("{}: {count}", call.home.name));
        }
    }
    assert!(few.is_empty(), "{few:#?}");
}

/// The structs, enums and constants of the crates' code.
fn declared_in_code() -> Vec<Home> {
    let mut found = Vec::new();
    for krate in crates() {
        for path in files(&root().join("crates").join(&krate).join("src"), ".rt") {
            let file = path.file_stem().expect("a file's name").to_string_lossy();
            for line in read(&path).lines() {
                let line = line.strip_prefix("pub ").unwrap_or(line);
                let kinds = ["struct ", "enum ", "const "].iter();
                let Some(rest) = kinds.filter_map(|kind| line.strip_prefix(kind)).next() else {
                    continue;
                };
                let name = rest.split([' ', '(', ';', ':']).next().expect("a name");
                found.push(home(&krate, &file, name));
            }
        }
    }
    found
}

/// The definitions that stand beside laws, in the files of proofs/. What stands further in
/// belongs to a part of its file, and a function's own folder has the forms of its proof.
fn definitions_of_proofs() -> Vec<Home> {
    let mut found = Vec::new();
    for krate in crates() {
        let folder = root().join("crates").join(&krate).join("proofs");
        let own = |path: &PathBuf| path.parent() == Some(&folder);
        for path in files(&folder, ".antt").into_iter().filter(own) {
            let file = path.file_stem().expect("a file's name").to_string_lossy();
            for line in read(&path).lines() {
                let plain = line.strip_prefix("pub ").unwrap_or(line);
                let kinds = ["abbrev ", "unfoldable ", "record ", "data "].iter();
                let Some(rest) = kinds.filter_map(|kind| plain.strip_prefix(kind)).next() else {
                    continue;
                };
                let rest = rest.strip_prefix("pub ").unwrap_or(rest);
                let name = rest.split([' ', ':']).next().expect("a name");
                found.push(home(&krate, &file, name));
            }
        }
    }
    found
}

/// docs/ARCHITECTURE.md tells of every crate what lives there, and its picture has every
/// crate, with arrows to crates that it names.
#[test]
fn the_picture_is_drawn_from_the_list() {
    let list = read(&root().join("crates.txt"));
    let lines = list.lines().filter(|line| !line.starts_with('#'));
    let named: BTreeMap<&str, BTreeSet<&str>> = lines
        .filter_map(|line| line.split_once(':'))
        .map(|(krate, rest)| (krate.trim_end_matches(STATIC), rest))
        .map(|(krate, rest)| (krate, rest.split_whitespace().collect()))
        .collect();
    let page = document("ARCHITECTURE.md");
    let picture = page.lines().filter(|line| line.starts_with("    "));
    let (mut drawn, mut arrows) = (BTreeSet::new(), 0);
    for chain in picture.flat_map(|line| line.split(';')) {
        let steps: Vec<Vec<&str>> = chain
            .split("─→")
            .map(|step| names(step).into_iter().collect())
            .map(|step: Vec<&str>| step.into_iter().filter(|n| named.contains_key(n)).collect())
            .collect();
        for (from, to) in steps.iter().zip(&steps[1..]) {
            for (from, to) in from.iter().flat_map(|f| to.iter().map(move |t| (f, t))) {
                assert!(named[from].contains(to), "{from} doesn't name {to}");
                arrows += 1;
            }
        }
        drawn.extend(steps.concat());
    }
    let told = |krate: &&&str| {
        let mut rows = page.lines().filter(|line| line.starts_with("| "));
        rows.any(|row| names(row.split(" | ").next().unwrap_or_default()).contains(**krate))
    };
    let left: Vec<&&str> = named
        .keys()
        .filter(|krate| !drawn.contains(**krate) || !told(krate))
        .collect();
    assert!(left.is_empty() && arrows > 40, "{left:?}, {arrows}");
}

/// A page of definitions has a name that no other has, in whichever crate.
#[test]
fn every_page_of_definitions_is_named_once() {
    let mut pages = Vec::new();
    for krate in crates() {
        for path in files(&root().join("crates").join(&krate).join("specs"), ".antt") {
            let page = path.file_stem().expect("a file's name").to_string_lossy();
            if !["Lib", "Internal"].contains(&&page[..]) {
                pages.push(page.to_string());
            }
        }
    }
    pages.sort();
    let twice = pages.windows(2).filter(|two| two[0] == two[1]);
    let twice: Vec<&String> = twice.map(|two| &two[0]).collect();
    assert!(twice.is_empty() && pages.len() > 60, "{twice:?}");
}

/// A definition, of specs/ or beside laws, a type or a constant has a name that no other has,
/// in whichever crate.
#[test]
fn every_name_means_one_thing() {
    let mut meanings: BTreeMap<String, Vec<Home>> = BTreeMap::new();
    let definitions = House::read().definitions.into_iter().map(|d| d.home);
    let (aids, code) = (definitions_of_proofs(), declared_in_code());
    assert!(
        aids.len() > 200 && code.len() > 50,
        "{} {}",
        aids.len(),
        code.len()
    );
    for home in definitions.chain(aids).chain(code) {
        meanings.entry(home.name.clone()).or_default().push(home);
    }
    assert!(meanings.len() > 900, "{}", meanings.len());
    meanings.retain(|_, homes| homes.len() > 1);
    assert!(meanings.is_empty(), "{meanings:#?}");
}

/// What a definition says stands in a line above it.
#[test]
fn every_definition_is_told() {
    let untold: Vec<Home> = House::read()
        .definitions
        .into_iter()
        .filter(|d| !d.text.trim_start().starts_with("--"))
        .map(|d| d.home)
        .collect();
    assert!(untold.is_empty(), "{untold:#?}");
}

/// The table of what crates cost has a row for each, in their order, with as many functions
/// and edits as it has. `make costs` writes it.
#[test]
fn every_proof_names_its_function() {
    for krate in crates() {
        let proofs = root().join("crates").join(&krate).join("proofs");
        // A proof by hand, or what answers the goals of one, or the claims of its loops.
        let kinds = ["Proof", "Answers", "Invariants"].iter();
        let found = kinds.flat_map(|kind| files(&proofs, &format!("/{kind}.antt")));
        // A page of the laws may have such a name too.
        for path in found.filter(|path| path.parent() != Some(&proofs)) {
            let folder = path
                .parent()
                .and_then(|folder| folder.strip_prefix(&proofs).ok());
            let folder = folder
                .expect("a proof's folder")
                .to_string_lossy()
                .replace('/', "::");
            // Of functions that call each other the folder has the names of all, each behind a plus.
            let name = format!("-- `{krate}::{folder}` ");
            let text = read(&path);
            assert!(
                folder.contains('+') || text.starts_with(&name),
                "{}",
                path.display()
            );
        }
    }
}

#[test]
fn every_crate_has_its_costs() {
    let (crates, functions, edits) = (crates(), functions::all(), edits::all());
    let page = document("WORKING.md");
    let today = costs::today(&crates, &functions, &edits, None, &page);
    assert_eq!(costs::rows(&page), today);
    assert_eq!(costs::written(&page, &today), page);
}

/// What a log of the gate says of crates and edits is what the table then has.
#[test]
fn costs_are_read_from_the_gate() {
    let log = "rt: rules proved (7 s)\n\
        rt: wire proved (unchanged since it was last proved)\n\
        rt: must-fail rules/one: refused, as it must be (first at src/a.rt:1:2; 12 s)\n\
        rt: must-fail rules/two: refused, as it must be (first at src/a.rt:3:4; 5 s)\n\
        rt: must-fail wire/three: NOT REFUSED (6 s)\n";
    let names = ["rules", "wire"].map(String::from);
    let edit = |krate, name| edits::parse(krate, name, "");
    let edits = [
        edit("rules", "one"),
        edit("rules", "two"),
        edit("wire", "three"),
    ];
    let page = format!("Above.\n\n{}| all | 0 | 0 | 0 | 0 |\n", costs::HEAD);
    let rows = costs::today(&names, &[], &edits, Some(log), &page);
    let table =
        "| `rules` | 0 | 7 | 2 | 17 |\n| `wire` | 0 | – | 1 | – |\n| all | 0 | – | 3 | – |\n";
    let expected = format!("Above.\n\n{}{table}", costs::HEAD);
    assert_eq!(costs::written(&page, &rows), expected);
    assert_eq!(costs::rows(&expected), rows);
}

/// README.md and every page of docs/.
fn pages() -> Vec<PathBuf> {
    let mut pages = files(&root().join("docs"), ".md");
    pages.push(root().join("README.md"));
    pages
}

/// What the documents cite stands where they say.
#[test]
fn every_citation_stands() {
    let mut count = 0;
    for path in pages() {
        for citation in of_text(&read(&path)) {
            assert!(stands(&citation), "{}: {citation:?}", path.display());
            count += 1;
        }
    }
    assert!(count > 200, "{count}");
}

/// docs/PROOFS.md names no law without saying where it stands. A law's name is small
/// letters and numbers with underscores, as those of functions and definitions may be too.
#[test]
fn every_law_of_the_list_is_cited() {
    let page = document("PROOFS.md");
    let cited: BTreeSet<String> = of_text(&page).into_iter().map(|c| c.name).collect();
    let house = House::read();
    let functions = house.functions.iter().map(|f| &f.home.name[..]);
    let definitions = house.definitions.iter().map(|d| &d.home.name[..]);
    let others: BTreeSet<&str> = functions.chain(definitions).collect();
    let of_a_law = |name: &&str| {
        let plain = |c: char| c.is_ascii_lowercase() || c.is_ascii_digit() || c == '_';
        let could_be = name.contains('_') && name.chars().all(plain);
        could_be && (cited.contains(*name) || !others.contains(name))
    };
    let laws: Vec<&str> = page
        .split('`')
        .skip(1)
        .step_by(2)
        .filter(of_a_law)
        .collect();
    assert!(laws.len() > 100, "{}", laws.len());
    let uncited: Vec<&&str> = laws.iter().filter(|law| !cited.contains(**law)).collect();
    assert!(uncited.is_empty(), "{uncited:#?}");
}

/// The files and folders of crates/ that the documents name are there. A crate in capitals
/// stands for any.
#[test]
fn every_path_into_the_crates_exists() {
    let part_of_a_path = |c: char| c.is_alphanumeric() || "_-./".contains(c);
    let mut count = 0;
    for page in pages() {
        let text = read(&page);
        let words = text.split(|c| !part_of_a_path(c));
        for path in words.filter(|word| word.starts_with("crates/")) {
            let path = path.trim_end_matches(['.', '/']);
            let krate = path.split('/').nth(1).unwrap_or_default();
            if krate.starts_with(|c: char| c.is_ascii_lowercase()) {
                assert!(root().join(path).exists(), "{}: {path}", page.display());
                count += 1;
            }
        }
    }
    assert!(count > 30, "{count}");
}

/// The lines that docs/PROVING.md shows stand in the file that is named above them. A line
/// `..` stands for lines that are left out.
#[test]
fn every_excerpt_stands() {
    let page = document("PROVING.md");
    let pieces: Vec<&str> = page.split("```").collect();
    assert!(pieces.len() > 20, "{}", pieces.len());
    for two in pieces.chunks_exact(2) {
        let above = two[0].trim_end().lines().last();
        let path = above
            .and_then(|line| line.strip_suffix(':'))
            .expect("a path");
        let text = read(&root().join(path));
        let shown = two[1].strip_prefix("text\n").expect("a block of text");
        for part in shown.split("..\n") {
            assert!(text.contains(part), "{path}:\n{part}");
        }
    }
}

/// The edits that docs/RULES.md names, in tables with a column of them, are edits.
#[test]
fn every_edit_that_is_named_exists() {
    let edits = edits::all();
    let rules = document("RULES.md");
    let (mut count, mut named) = (0, false);
    for line in rules.lines() {
        named = line.starts_with('|') && (named || line.ends_with(" edits |"));
        let last = line.trim_end_matches('|').rsplit(" | ").next();
        for name in last
            .iter()
            .filter(|_| named)
            .flat_map(|l| l.split('`').skip(1).step_by(2))
        {
            assert!(edits.iter().any(|edit| edit.name == name), "{name}");
            count += 1;
        }
    }
    assert!(count > 100, "{count}");
}

/// The contract of every public function that requires nothing is shown to have one
/// result: crates/one_answer has a line for it, or docs/LOOSE.md a reason. The program isn't
/// called by anyone, and what the static library exports has the contracts of the crates
/// NAME_calls.
#[test]
fn every_public_contract_is_bound() {
    let mut bound = Vec::new();
    for path in files(&root().join("crates/one_answer/specs"), ".antt") {
        let text = read(&path);
        let imports = |from: &str| -> BTreeMap<(&str, &str), &str> {
            let lines = text
                .lines()
                .filter_map(|line| line.strip_prefix("use Rattle."));
            let lines = lines.filter_map(|line| line.split_once(from));
            let named = lines.map(|(krate, rest)| {
                let (path, name) = rest.split_once(" as ").expect("a name of its own");
                ((krate, path.trim_end_matches(".Reads")), name)
            });
            named.collect()
        };
        let (contracts, reads) = (imports(".specs.contracts."), imports(".proofs."));
        for ((krate, path), name) in contracts {
            let reads = reads.get(&(krate, path)).expect("what it says");
            // A contract that is only named is bound by nothing: its line is a field.
            let field = format!(" : Binds {name}.ended {reads}.Post");
            assert!(
                text.lines()
                    .any(|line| line.starts_with("  pub ") && line.ends_with(&field)),
                "{krate}.{path} has no field"
            );
            bound.push((krate.to_string(), path.to_string()));
        }
    }
    let is_bound = |f: &Function| {
        let Home { krate, file, name } = &f.home;
        let (start, end) = (format!("{file}."), format!(".{name}"));
        bound
            .iter()
            .any(|(of, path)| of == krate && path.starts_with(&start) && path.ends_with(&end))
    };
    let functions = functions::all();
    let loose = document("LOOSE.md");
    let told: Vec<String> = named_in(&loose, &functions)
        .iter()
        .map(|f| f.path())
        .collect();
    let open: Vec<String> = functions
        .iter()
        .filter(|f| f.public && !f.requires())
        .filter(|f| !["sample_replay", EXPORTS].contains(&&f.home.krate[..]))
        .filter(|f| !is_bound(f) && !told.contains(&f.path()))
        .map(Function::path)
        .collect();
    assert!(open.is_empty(), "{open:#?}");
}

/// Every edit stands in docs/EDITS.md with what it does wrong, and those that docs/LOOSE.md
/// names are edits.
#[test]
fn every_edit_is_told() {
    let (page, loose) = (document("EDITS.md"), document("LOOSE.md"));
    let edits = edits::all();
    for Edit {
        krate, name, slip, ..
    } in &edits
    {
        let section = page
            .split("\n## ")
            .find(|part| part.starts_with(&format!("{krate}\n")));
        let row = format!("| `{name}` | {slip} | ");
        assert!(
            section.is_some_and(|part| part.contains(&row)),
            "{krate}/{name}"
        );
    }
    let rows = page.lines().filter(|line| line.starts_with("| `")).count();
    assert_eq!(rows, edits.len());
    let (_, hollow) = loose.split_once("## Hollow programs").expect("a section");
    let named = hollow
        .split([' ', ','])
        .filter_map(|word| word.split_once('/'));
    let crates = crates();
    for (krate, name) in named.filter(|(krate, _)| crates.iter().any(|one| one == krate)) {
        let is = |edit: &Edit| edit.krate == krate && edit.name == name;
        assert!(edits.iter().any(is), "{krate}/{name}");
    }
}

/// Whether a crate has what docs/EDITS.md says that an edit breaks there: "`FACT` of
/// `FILE::FUNCTION`", where a method has its type for a file, or "`LAW` (FILE)".
fn broken_stands(krate: &str, told: &str, functions: &[Function]) -> bool {
    let quoted: Vec<&str> = told.split('`').skip(1).step_by(2).collect();
    if let [_, path] = quoted[..] {
        let (file, names) = path.split_once("::").expect("a file and a function");
        let holds = |f: &Function, name: &str| {
            let of_type = f.method && f.source.contains(&format!("impl {file}"));
            f.home.krate == krate && f.home.name == name && (f.home.file == file || of_type)
        };
        let mut names = names.split(", ");
        return names.all(|name| functions.iter().any(|f| holds(f, name)));
    }
    let file = told.split(['(', ')']).nth(1).expect("a file");
    stands(&Citation {
        name: quoted[0].into(),
        krate: krate.into(),
        file: file.into(),
    })
}

/// What no longer holds after an edit is a function's or a law of the edit's own crate.
#[test]
fn every_edit_breaks_something_of_its_crate() {
    let functions = functions::all();
    let page = document("EDITS.md");
    for section in page.split("\n## ").skip(1) {
        let (krate, rows) = section.split_once('\n').expect("a crate's rows");
        for row in rows.lines().filter(|line| line.starts_with("| `")) {
            let told = row.trim_end_matches(" |").rsplit(" | ").next();
            let told = told.expect("a last column");
            assert!(broken_stands(krate, told, &functions), "{krate}: {row}");
        }
    }
}
