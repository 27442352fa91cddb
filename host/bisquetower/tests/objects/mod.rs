//! The functions of an archive of x86-64 objects, as far as their stack is looked at.

/// A function's bytes, and whether it calls another.
pub struct Function {
    pub name: String,
    pub code: Vec<u8>,
    pub calls: bool,
}

fn number(bytes: &[u8], at: usize, size: usize) -> usize {
    let mut all = [0; 8];
    all[..size].copy_from_slice(&bytes[at..at + size]);
    usize::try_from(u64::from_le_bytes(all)).expect("it fits")
}

fn text(bytes: &[u8], at: usize) -> String {
    let end = bytes[at..]
        .iter()
        .position(|&byte| byte == 0)
        .expect("an end");
    String::from_utf8_lossy(&bytes[at..at + end]).into_owned()
}

struct Section {
    kind: usize,
    place: usize,
    size: usize,
    link: usize,
    info: usize,
}

fn sections(object: &[u8]) -> Vec<Section> {
    let (table, entry, count) = (
        number(object, 0x28, 8),
        number(object, 0x3a, 2),
        number(object, 0x3c, 2),
    );
    let at = (0..count).map(|k| table + k * entry);
    at.map(|at| Section {
        kind: number(object, at + 4, 4),
        place: number(object, at + 0x18, 8),
        size: number(object, at + 0x20, 8),
        link: number(object, at + 0x28, 4),
        info: number(object, at + 0x2c, 4),
    })
    .collect()
}

/// The functions of an object: its symbols of that kind.
fn functions(object: &[u8]) -> Vec<Function> {
    let sections = sections(object);
    let symbols = sections.iter().find(|section| section.kind == 2);
    let symbols = symbols.expect("a table of symbols");
    let names = sections[symbols.link].place;
    let found: Vec<(String, usize, usize, usize)> = (0..symbols.size / 24)
        .map(|k| symbols.place + 24 * k)
        .filter(|&at| object[at + 4] & 15 == 2 && number(object, at + 6, 2) < sections.len())
        .map(|at| {
            let name = text(object, names + number(object, at, 4));
            (
                name,
                number(object, at + 6, 2),
                number(object, at + 8, 8),
                number(object, at + 16, 8),
            )
        })
        .collect();
    found
        .iter()
        .map(|(name, home, start, size)| {
            let place = sections[*home].place;
            let moved = sections
                .iter()
                .filter(|section| section.kind == 4 && section.info == *home);
            let moved: Vec<usize> = moved
                .flat_map(|section| (0..section.size / 24).map(|k| section.place + 24 * k))
                .map(|at| number(object, at, 8))
                .collect();
            // `call`, with where it goes in the next four bytes: to be filled in by a linker, or a function of this section.
            let is_call = |at: usize| {
                let offset = number(object, place + at + 1, 4) as u32 as i32;
                let to = (at + 5).wrapping_add_signed(offset as isize);
                let known = found
                    .iter()
                    .any(|(_, other, first, _)| other == home && *first == to);
                object[place + at] == 0xe8 && (moved.contains(&(at + 1)) || known)
            };
            Function {
                name: name.clone(),
                code: object[place + start..place + start + size].to_vec(),
                calls: (*start..(start + size).saturating_sub(4)).any(is_call),
            }
        })
        .collect()
}

/// The functions of every object of an archive.
pub fn of_archive(archive: &[u8]) -> Vec<Function> {
    let mut all = Vec::new();
    let mut at = b"!<arch>\n".len();
    while at < archive.len() {
        let size = String::from_utf8_lossy(&archive[at + 48..at + 58]);
        let size: usize = size.trim().parse().expect("a member's size");
        let member = &archive[at + 60..at + 60 + size];
        if member.starts_with(b"\x7fELF") {
            all.extend(functions(member));
        }
        at += 60 + size + size % 2;
    }
    all
}
