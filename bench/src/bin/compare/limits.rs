//! The limits loader on the same windows: number, sector, size and stamp, against the plain loader, and against the Rust's parts put together wherever they can be asked.
use crate::rules::{entries_of, large_folder, ONE, TWO};
use crate::tally::Tally;
use bench::inputs::{damage, image, name, noise, Dice, Folder};
use bench::{ours, plain, theirs, Descriptor, Entry, Limits, Said, Table, View};

/// The loader's answers: each has to come, and no other.
const NUMBERS: [u32; 14] = [0, 2, 20, 21, 22, 23, 24, 25, 27, 28, 40, 41, 42, 43];
/// The descriptor's first byte on the image.
const VOLUME: usize = 32 * 2048;

/// When a volume was made, when a file of it is asked for, and how old it may be.
#[derive(Clone, Copy, Debug)]
struct Date {
    stamp: u64,
    time: u64,
    age: u64,
}

impl Date {
    /// Of all sizes.
    fn number(dice: &mut Dice) -> u64 {
        dice.next() >> dice.below(64)
    }

    /// One that is allowed, by nothing or by more.
    fn allowed(dice: &mut Dice) -> Date {
        let stamp = Date::number(dice).max(1);
        let time = stamp.saturating_add([0, 1, Date::number(dice), u64::MAX][dice.below(4)]);
        let age = (time - stamp).saturating_add([0, 1, Date::number(dice), u64::MAX][dice.below(4)]);
        Date { stamp, time, age }
    }

    /// One at the edges of what is allowed, or any.
    fn any(dice: &mut Dice) -> Date {
        let time = [0, 1, Date::number(dice), u64::MAX][dice.below(4)];
        let age = [0, 1, Date::number(dice), u64::MAX][dice.below(4)];
        let last = time.wrapping_sub(age);
        let edges = [0, 1, time, time.wrapping_add(1), time.wrapping_sub(1), last, last.wrapping_sub(1), u64::MAX, Date::number(dice)];
        Date { stamp: edges[dice.below(edges.len())], time, age }
    }

    fn either(dice: &mut Dice) -> Date {
        if dice.below(3) == 0 {
            Date::any(dice)
        } else {
            Date::allowed(dice)
        }
    }

    /// Written into an image, as far as it has the place.
    fn put(&self, image: &mut [u8]) {
        if let Some(place) = image.get_mut(VOLUME + 28..VOLUME + 36) {
            place.copy_from_slice(&self.stamp.to_le_bytes());
        }
    }
}

/// An image from a sector on.
fn from_sector(image: &[u8], first: u32) -> View<'_> {
    View { bytes: image.get(2048 * first as usize..).unwrap_or(&[]), first }
}

/// A window's bytes, so that they can be made again: runs of one byte by their length, all others in hexadecimal.
fn shown(bytes: &[u8]) -> String {
    let mut text = String::new();
    for run in bytes.chunk_by(|a, b| a == b) {
        text += &match run.len() {
            len if len > 8 => format!(" {len}*{:02x} ", run[0]),
            len => format!("{:02x}", run[0]).repeat(len),
        };
    }
    text
}

/// Whether the Rust can be asked for a path in place of rule two: it has rule one, so both have to answer the same; it never returns from a ring of links (25); and it
/// takes bytes above 127 (2).
fn may_follow(v: View, root: Table, sought: &[u8]) -> bool {
    let (one, two) = (plain::path(v, root, sought, ONE), plain::path(v, root, sought, TWO));
    one == two && ![Said::refused(2), Said::refused(25)].contains(&two.0)
}

impl Tally {
    /// One question, of a window whose stamp is the date's.
    fn load(&mut self, what: &str, v: View, sought: &[u8], d: Date) -> Limits {
        let a = ours::load_limits(v, sought, d.time, d.age);
        let c = plain::load_limits(v, sought, d.time, d.age);
        let b = theirs::load_limits(v, sought, d.time, d.age, |root| may_follow(v, root, sought));
        if a != c || b.is_some_and(|b| a != b) {
            let window = if self.limits_wrong == 0 { shown(v.bytes) } else { "shown of the first difference alone".into() };
            let asked = format!("path {sought:?} {d:?} first {} window of {} bytes", v.first, v.bytes.len());
            self.wrong(what, format!("{asked}: ours {a:?}, the Rust {b:?}, plain {c:?}; the window: {window}"));
            self.limits_wrong += 1;
        }
        *self.limits.entry(a.number).or_default() += 1;
        self.limits_asked += b.is_some() as u64;
        self.count(&format!("limits, {what}"), format!("{}{}", a.number, if b.is_some() { "" } else { ", the Rust not asked" }));
        a
    }

    /// Each entry that the Rust lists in an image that it wrote: a file is loaded as it is listed, a directory is 43.
    fn load_listed(&mut self, what: &str, v: View, list: &[(Vec<u8>, Entry)], d: Date) {
        for (path, entry) in list {
            let a = self.load(what, v, path, d);
            let file = Limits { number: 0, sector: entry.sector, size: entry.size, stamp: d.stamp };
            if a != (if entry.attributes & 16 == 0 { file } else { Limits::refused(43) }) {
                self.wrong(what, format!("{path:?} {d:?}: the Rust lists {entry:?}, ours {a:?}"));
            }
            self.limits_listed += 1;
        }
    }
}

/// A small image: files `a` and `b`, directories `d` with a file `f`, and `e` with nothing.
fn sample() -> Vec<u8> {
    let folder = |files: &[&str], folders| Folder { files: files.iter().map(|name| (name.to_string(), 7)).collect(), folders };
    image(&mut folder(&["a", "b"], vec![("d".into(), folder(&["f"], vec![])), ("e".into(), folder(&[], vec![]))]))
}

const SOUGHT: [&[u8]; 10] = [b"a", b"/B/", b"d", b"d/F", b"x", b"d/x", b"a/f", b"d/\x80", b"//", b""];

/// Every stamp, time and greatest age out of some, with all that a path can be answered.
fn dates(tally: &mut Tally) {
    const NOW: u64 = 134_393_040_000_000_000;
    const EDGES: [u64; 12] = [0, 1, 2, 3, NOW - 1, NOW, NOW + 1, 1 << 32, 1 << 63, (1 << 63) + 1, u64::MAX - 1, u64::MAX];
    let mut bytes = sample();
    for stamp in EDGES {
        for (time, age) in EDGES.iter().flat_map(|time| EDGES.map(|age| (*time, age))) {
            let d = Date { stamp, time, age };
            d.put(&mut bytes);
            for (first, sought) in [0, 32, 33].iter().flat_map(|first| SOUGHT.map(|sought| (*first, sought))) {
                tally.load("dates", from_sector(&bytes, first), sought, d);
            }
        }
    }
}

/// Windows from every sector about the descriptor's, cut about every edge of the image, with the root table behind the descriptor and before it; and bytes that start at
/// another sector than the window says.
fn windows(tally: &mut Tally, dice: &mut Dice) {
    let mut bytes = sample();
    let root = theirs::read_descriptor(&bytes[VOLUME..]).expect("a volume").root;
    let at = 2048 * root.sector as usize;
    bytes.copy_within(at..at + 2048, 10 * 2048);
    let edges = [
        10 * 2048,
        VOLUME,
        VOLUME + 20,
        VOLUME + 28,
        VOLUME + 36,
        VOLUME + 2028,
        VOLUME + 2048,
        at + 14,
        at + root.size as usize,
        bytes.len() - 1,
    ];
    let firsts = (0..=41).chain([1 << 21, u32::MAX - 32, u32::MAX - 31, u32::MAX]);
    for (first, sector) in firsts.flat_map(|first| [(first, root.sector), (first, 10)]) {
        bytes[VOLUME + 20..VOLUME + 24].copy_from_slice(&sector.to_le_bytes());
        for cut in edges.iter().flat_map(|edge| [edge - 1, *edge, edge + 1]) {
            for sought in SOUGHT {
                let d = Date::either(dice);
                d.put(&mut bytes);
                let v = from_sector(&bytes[..cut], first);
                tally.load("windows", v, sought, d);
                let said = [first.wrapping_sub(1), first.wrapping_add(1), 32][dice.below(3)];
                tally.load("windows, the sector said wrongly", View { first: said, ..v }, sought, d);
            }
        }
    }
}

/// A path, mostly one of these, in many forms.
fn any_path(dice: &mut Dice, paths: &[String]) -> Vec<u8> {
    let len = 1 + dice.below(3);
    let missing = name(dice, len);
    let path = if paths.is_empty() { &missing } else { &paths[dice.below(paths.len())] };
    let text = match dice.below(16) {
        0 => missing,
        1 => "/".repeat(dice.below(4)),
        2 => format!("{path}/x"),
        3 => format!("/{path}"),
        4 => format!("///{path}/"),
        5 => format!("{path}//"),
        6 => path.replace('/', "//"),
        7 => path.to_ascii_uppercase(),
        8 => path[..path.len() - 1].to_string(),
        9 => path.rsplit_once('/').map_or(path.clone(), |(front, _)| front.to_string()),
        10 => format!("{path}{missing}"),
        _ => path.clone(),
    };
    let mut bytes = text.into_bytes();
    if dice.below(12) == 0 {
        bytes.insert(dice.below(bytes.len() + 1), 128 + dice.below(128) as u8);
    }
    bytes
}

/// A byte of a mark, of the unused part or of any other changed; or another root.
fn damage_volume(dice: &mut Dice, image: &mut [u8], root: Table) {
    let Table { sector, size } = root;
    let volume = &mut image[VOLUME..VOLUME + 2048];
    match dice.below(6) {
        0 => volume[20..24].copy_from_slice(&[0, 10, 31, 32, sector + 1, dice.next() as u32, u32::MAX][dice.below(7)].to_le_bytes()),
        1 | 2 => {
            let sizes = [0, 1, size - 1, size + 1, size.next_multiple_of(2048), dice.below(size as usize) as u32, dice.next() as u32];
            volume[24..28].copy_from_slice(&sizes[dice.below(7)].to_le_bytes());
        }
        at => {
            let at = [dice.below(20), 2028 + dice.below(20), [36 + dice.below(1992), dice.below(2048)][dice.below(2)]][at - 3];
            volume[at] ^= 1 + dice.below(255) as u8;
        }
    }
}

/// Images that the Rust wrote, as they are and damaged, from sector 0, from those about the descriptor's and from others.
fn images(tally: &mut Tally, dice: &mut Dice, rounds: usize) {
    const KINDS: [&str; 4] = ["image", "image, a table damaged", "image, the descriptor damaged", "image, cut"];
    for round in 0..rounds {
        let mut folder = if round % 50 == 49 { large_folder(dice) } else { Folder::random(dice, 3) };
        let paths = folder.paths();
        let mut whole = image(&mut folder);
        let d = Date::allowed(dice);
        d.put(&mut whole);
        let v = View { bytes: &whole, first: 0 };
        let root = theirs::read_descriptor(&whole[VOLUME..]).expect("a volume").root;
        let list = entries_of(v, root).unwrap_or_else(|text| panic!("{text}"));
        tally.load_listed("image, as the Rust lists it", v, &list, d);
        let directories = list.iter().filter(|(_, entry)| entry.attributes & 16 != 0);
        let mut tables = vec![root];
        tables.extend(directories.map(|(_, entry)| Table { sector: entry.sector, size: entry.size }));
        for (kind, what) in KINDS.iter().enumerate() {
            let mut bytes = whole.clone();
            let t = if dice.below(2) == 0 { root } else { tables[dice.below(tables.len())] };
            let from = 2048 * t.sector as usize;
            match kind {
                0 => {}
                1 => damage(dice, &mut bytes[from..], t.size),
                2 => damage_volume(dice, &mut bytes, root),
                _ => {
                    let ends = [VOLUME + dice.below(2100), from + dice.below(t.size as usize + 20), dice.below(bytes.len())];
                    bytes.truncate(ends[dice.below(3)]);
                }
            }
            for _ in 0..64 {
                let d = Date::either(dice);
                d.put(&mut bytes);
                let first = [0, 0, 31, 32, 32, 33, dice.below(41), dice.below(33)][dice.below(8)] as u32;
                let sought = any_path(dice, &paths);
                tally.load(what, from_sector(&bytes, first), &sought, d);
            }
        }
    }
}

/// Random bytes, many of them shaped like entries, as a volume's root table. Directories lead back into them.
fn random_tables(tally: &mut Tally, dice: &mut Dice, rounds: usize) {
    for _ in 0..rounds {
        let (mut table, _, Table { size, .. }) = noise(dice);
        for header in table.chunks_exact_mut(16) {
            if dice.below(3) == 0 {
                header[4..8].copy_from_slice(&33u32.to_le_bytes());
                header[8..12].copy_from_slice(&[0, 16, size][dice.below(3)].to_le_bytes());
                header[12] |= 16;
            }
        }
        let d = Date::either(dice);
        let first = 31 + dice.below(2) as u32;
        let sector = if dice.below(16) == 0 { 31 + dice.below(4) as u32 } else { 33 };
        let volume = theirs::write_descriptor(Descriptor { root: Table { sector, size }, stamp: d.stamp });
        let bytes = [vec![0; 2048 * (32 - first as usize)], volume, table].concat();
        for _ in 0..6 {
            let part = |dice: &mut Dice| (0..1 + dice.below(2)).map(|_| b"abcdEFgh\x00"[dice.below(9)]).collect::<Vec<u8>>();
            let parts: Vec<Vec<u8>> = (0..1 + dice.below(3)).map(|_| part(dice)).collect();
            tally.load("random table", View { bytes: &bytes, first }, &parts.join(&b'/'), d);
        }
    }
}

/// A root table of four entries, one of them at 1,020 or at 262,140, with links to them and absent ones, files and directories that are the same table.
fn small_tables(tally: &mut Tally, dice: &mut Dice, rounds: usize) {
    const LINKS: [u16; 6] = [0, 4, 8, 12, 255, 65535];
    let paths: [&[u8]; 10] = [b"a", b"B", b"c", b"d", b"e", b"F", b"g", b"d/b", b"b/f/D", b"f//"];
    for round in 0..rounds {
        let last = if round % 500 == 0 { 262_140 } else { 1_020 };
        let size = [last + 15, 2048, last, 48][dice.below(4)] as u32;
        let mut table = vec![255; last + 15];
        for at in [0, 16, 32, last] {
            let links = [LINKS[dice.below(6)], LINKS[dice.below(6)]].map(u16::to_le_bytes).concat();
            let numbers = [33, [size, dice.next() as u32, 0][dice.below(3)]].map(u32::to_le_bytes).concat();
            let rest = [[16, 32, 48, 0][dice.below(4)], 1, b"bDf"[dice.below(3)]];
            table[at..at + 15].copy_from_slice(&[&links[..], &numbers, &rest].concat());
        }
        let d = Date::allowed(dice);
        let volume = theirs::write_descriptor(Descriptor { root: Table { sector: 33, size }, stamp: d.stamp });
        let bytes = [volume, table].concat();
        for sought in paths {
            tally.load("small table", View { bytes: &bytes, first: 32 }, sought, d);
        }
    }
}

pub fn all(tally: &mut Tally, dice: &mut Dice, rounds: usize) {
    dates(tally);
    windows(tally, dice);
    images(tally, dice, 10_000 * rounds);
    random_tables(tally, dice, 200_000 * rounds);
    small_tables(tally, dice, 50_000 * rounds);
    for number in NUMBERS {
        if !tally.limits.contains_key(&number) {
            tally.wrong("limits", format!("{number} was never answered"));
        }
    }
    for number in tally.limits.keys().copied().collect::<Vec<u32>>() {
        if !NUMBERS.contains(&number) {
            tally.wrong("limits", format!("{number} is no answer of the loader"));
        }
    }
}
