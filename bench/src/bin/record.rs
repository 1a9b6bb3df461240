//! record FILE SUMMARY: asks the Rust some thousands of questions and writes the answers to FILE in the form that crates/replay/src/main.rt describes, and to SUMMARY what the program
//! `replay` prints where it gives the same answers. The same in each run. Nothing of this repository's readers and writers is asked.
use bench::inputs::{damage, damage_descriptor, descriptor, image, name, names, noise, written, Dice, Folder};
use bench::lists::{list_about, list_near_top, random_list, small_lists};
use bench::plans::{even_request, may_ask, random_request, request_near_sector, request_up_to, spoiled, Columns, Planned, Request};
use bench::{plain, theirs, Descriptor, Entry, Job, Said, Table, View, Wrote};

const BLOCK: usize = 65_536;
const PLACES: usize = 256;

/// The file so far, and how many records of each kind.
#[derive(Default)]
struct Records {
    bytes: Vec<u8>,
    counts: [usize; 8],
    /// Names in the records of names, and how many of them the Rust's lookup does not find.
    names: usize,
    lost: usize,
}

impl Records {
    fn push(&mut self, kind: u8, body: &[u8]) {
        let length = 1 + body.len();
        let left = BLOCK - self.bytes.len() % BLOCK;
        if length > 60_000 {
            return;
        }
        if left < length + 2 {
            self.bytes.resize(self.bytes.len() + left, 0);
        }
        self.bytes.extend((length as u16).to_le_bytes());
        self.bytes.push(kind);
        self.bytes.extend(body);
        let at = b"tilpwdvn".iter().position(|&k| k == kind).expect("a kind");
        self.counts[at] += 1;
    }
}

fn put(body: &mut Vec<u8>, numbers: &[u32]) {
    numbers.iter().for_each(|n| body.extend(n.to_le_bytes()));
}

fn put_short(body: &mut Vec<u8>, n: usize) {
    body.extend((n as u16).to_le_bytes());
}

/// The ten numbers of a reader's answer.
fn numbers(v: View, last: Table, said: &Said, counted: bool) -> [u32; 10] {
    match said {
        Said::Found { entry: e, headers } => {
            let Entry { byte, left, right, sector, size, attributes, name_len } = *e;
            let place = (byte - 2048 * v.first as u64) as u32;
            let (offset, headers) = if counted { ((byte - 2048 * last.sector as u64) as u32, headers.expect("a count")) } else { (0, 0) };
            [0, left as u32, right as u32, sector, size, attributes as u32, name_len as u32, place, offset, headers]
        }
        Said::Refused { number, byte, headers } => {
            let offset = byte.map_or(0, |byte| (byte - 2048 * last.sector as u64) as u32);
            [*number, 0, 0, 0, 0, 0, 0, 0, offset, if counted { headers.unwrap_or(0) } else { 0 }]
        }
        other => panic!("no answer of a reader: {other:?}"),
    }
}

fn put_view(body: &mut Vec<u8>, v: View, t: Table) {
    put(body, &[v.first, t.sector, t.size]);
}

fn sought(records: &mut Records, kind: u8, v: View, t: Table, what: &str, numbers: [u32; 10]) {
    let mut body = Vec::new();
    put_view(&mut body, v, t);
    put_short(&mut body, what.len());
    put(&mut body, &numbers);
    body.extend(what.as_bytes());
    body.extend(v.bytes);
    records.push(kind, &body);
}

fn look_up(records: &mut Records, v: View, t: Table, what: &str) {
    if plain::look_up(v, t, what.as_bytes(), 1) != Said::refused(25) {
        sought(records, b'l', v, t, what, numbers(v, t, &theirs::look_up(v, t, what), true));
    }
}

fn path(records: &mut Records, v: View, t: Table, what: &str) {
    let (said, last) = plain::path(v, t, what.as_bytes(), 1);
    if said == Said::refused(25) {
        return;
    }
    let said = match theirs::path(v, t, what, last) {
        Said::Panicked => return,
        said => said,
    };
    sought(records, b'p', v, t, what, numbers(v, last, &said, false));
}

fn walk(records: &mut Records, v: View, t: Table) {
    if plain::walk(v, t, PLACES) == Said::refused(26) {
        return;
    }
    let (list, number, offset) = match theirs::walk(v, t) {
        Said::Listed(list) => (list, 0, 0),
        Said::Refused { number, byte, .. } => (vec![], number, (byte.expect("a byte") - 2048 * t.sector as u64) as u32),
        other => panic!("no answer of a walk: {other:?}"),
    };
    let mut body = Vec::new();
    put_view(&mut body, v, t);
    put_short(&mut body, list.len());
    put(&mut body, &[number, offset]);
    put(&mut body, &list);
    body.extend(v.bytes);
    records.push(b'w', &body);
}

/// What the Rust answers for a whole list; None where it is not asked, or where docs/DIFFERENCES.md has another answer.
fn whole(job: &Job) -> Option<Wrote> {
    let plain = plain::add_in_turn(job);
    let free = plain.numbers.iter().any(|number| [1, 2, 6].contains(number));
    if free || job.first < 33 || job.list.len() > 64 {
        return None;
    }
    let (numbers, end) = theirs::add_in_turn(job, &vec![true; job.list.len()]);
    let refused = numbers.iter().position(|&number| number != Some(0));
    let wrote = refused.map_or(end, |i| Wrote::Refused { number: numbers[i].expect("an answer"), entry: Some(i as u32) });
    let listed = job.list.iter().any(|new| new.directory && new.size > 4_294_965_248 && new.name.len() > 255);
    (!listed && !matches!(&wrote, Wrote::Done { bytes, .. } if bytes.len() > 16_384)).then_some(wrote)
}

fn table(records: &mut Records, job: &Job) {
    let Some(wrote) = whole(job) else { return };
    let mut body = Vec::new();
    let (answer, bytes) = match &wrote {
        Wrote::Done { size, next, bytes } => ([0, 0, *size, *next], &bytes[..*size as usize]),
        Wrote::Refused { number, entry } => ([*number, entry.unwrap_or(0), 0, 0], &[][..]),
    };
    put(&mut body, &[job.first]);
    put(&mut body, &answer);
    put_short(&mut body, job.list.len());
    put_short(&mut body, job.list.iter().map(|new| new.name.len()).sum());
    let mut start = 0;
    for new in &job.list {
        put(&mut body, &[start]);
        start += new.name.len() as u32;
    }
    job.list.iter().for_each(|new| put(&mut body, &[new.name.len() as u32]));
    job.list.iter().for_each(|new| put(&mut body, &[new.size]));
    body.extend(job.list.iter().map(|new| new.directory as u8));
    job.list.iter().for_each(|new| body.extend(&new.name));
    body.extend(bytes);
    records.push(b't', &body);
}

fn tables(records: &mut Records, dice: &mut Dice) {
    let small = small_lists();
    small.iter().step_by(61).for_each(|job| table(records, job));
    for end in [1_020, 2_040, 2_048, 4_096] {
        for _ in 0..6 {
            let (about, shortest) = (end - 24 + 4 * dice.below(13), [16, 100][dice.below(2)]);
            table(records, &list_about(dice, about, shortest));
        }
    }
    while records.counts[0] < 1_000 {
        let mut job = if dice.below(2) == 0 { random_list(dice) } else { list_near_top(dice) };
        job.list.retain(|new| !new.name.is_empty() && new.name.iter().all(|b| (1..128).contains(b)));
        let most = if dice.below(8) == 0 { 255 } else { 20 };
        job.list.retain(|new| new.name.len() <= most || new.name.len() > 255);
        job.list.truncate(dice.below(12));
        job.places = 64;
        if !job.list.is_empty() {
            table(records, &job);
        }
    }
}

/// What the Rust plans; nothing where it is not asked, nor where a table is refused by 7, which docs/DIFFERENCES.md has as another answer where sectors run out too.
fn plan(records: &mut Records, request: &Request) {
    let plain = plain::plan(request);
    if !may_ask(request, &plain) || matches!(plain, Planned::Refused { number: 7, .. }) {
        return;
    }
    let (number, planned) = match theirs::plan(request) {
        Planned::Done { sizes, tables, sectors, .. } => (0, vec![sizes, tables, sectors]),
        Planned::Refused { number, .. } => (number, vec![]),
    };
    let c = Columns::of(request);
    let mut body = Vec::new();
    put(&mut body, &[number]);
    [c.first.len(), c.start.len(), c.names.len()].iter().for_each(|&n| put_short(&mut body, n));
    [&c.first, &c.share, &c.start, &c.len].iter().for_each(|column| put(&mut body, column));
    c.value.iter().for_each(|value| body.extend(value.to_le_bytes()));
    body.extend(&c.kind);
    body.extend(&c.names);
    planned.iter().for_each(|column| put(&mut body, column));
    records.push(b'i', &body);
}

fn plans(records: &mut Records, dice: &mut Dice) {
    plan(records, &request_up_to(u32::MAX as u64));
    plan(records, &request_up_to(u32::MAX as u64 + 1));
    for _ in 0..14 {
        plan(records, &request_near_sector(dice));
    }
    while records.counts[1] < 600 {
        let request = match dice.below(16) {
            0 => {
                let count = 1 + dice.below(16);
                even_request(dice, count, count + 20)
            }
            _ => random_request(dice),
        };
        let request = if dice.below(4) == 0 { spoiled(dice, request) } else { request };
        let entries: usize = request.directories.iter().map(Vec::len).sum();
        if request.directories.len() <= 16 && entries <= [12, 24, 64][dice.below(3)] {
            plan(records, &request);
        }
    }
}

/// A small table that the Rust wrote, cut behind its last entry, sometimes damaged; its directories lie where it lies itself.
fn small_table(dice: &mut Dice, round: usize) -> (Vec<u8>, u32, Table, Vec<String>) {
    let count = dice.below(8);
    let list = names(dice, count, "", 1..=4);
    let (mut bytes, mut size) = written(&list, true).expect("a table");
    bytes.truncate(size.min(160) as usize + dice.below(20));
    let first = [33, 0, dice.next() as u32 >> 1][dice.below(3)];
    for i in 0..bytes.len() / 4 {
        if dice.below(3) == 0 && bytes.len() > 4 * i + 13 && bytes[4 * i + 12] == 16 {
            bytes[4 * i + 4..4 * i + 8].copy_from_slice(&first.to_le_bytes());
            bytes[4 * i + 8..4 * i + 12].copy_from_slice(&[size, 0, 16, size + 40][dice.below(4)].to_le_bytes());
        }
    }
    if round % 3 == 0 {
        damage(dice, &mut bytes, size);
    }
    if round % 7 == 0 {
        size = dice.below(size as usize + 30) as u32;
    }
    let sector = if dice.below(12) == 0 { first + 1 } else { first };
    (bytes, first, Table { sector, size }, list)
}

fn some(dice: &mut Dice, list: &[String]) -> String {
    if list.is_empty() || dice.below(8) == 0 {
        let len = 1 + dice.below(3);
        return name(dice, len);
    }
    let name = &list[dice.below(list.len())];
    [name.clone(), name.to_ascii_uppercase(), name.to_ascii_lowercase(), format!("{name}x")][dice.below(16) % 5 % 4].clone()
}

fn reads(records: &mut Records, dice: &mut Dice) {
    for round in 0..500 {
        let (bytes, first, t, list) = small_table(dice, round);
        let v = View { bytes: &bytes, first };
        for _ in 0..2 {
            look_up(records, v, t, &some(dice, &list));
            let parts: Vec<String> = (0..1 + dice.below(3)).map(|_| some(dice, &list)).collect();
            let ends = ["", "/", "//"];
            path(records, v, t, &format!("{}{}{}", ends[dice.below(3)], parts.join("/"), ends[dice.below(3)]));
        }
        walk(records, v, t);
    }
    for _ in 0..600 {
        let (mut bytes, first, t) = noise(dice);
        bytes.truncate(120);
        let v = View { bytes: &bytes, first };
        look_up(records, v, t, &name(dice, 1));
        walk(records, v, t);
    }
    for what in ["", "/", "a", "a/b"] {
        path(records, View { bytes: &[], first: 0 }, Table { sector: 0, size: 0 }, what);
    }
}

/// A few images with a table in each of several sectors.
fn images(records: &mut Records, dice: &mut Dice) {
    for _ in 0..40 {
        let mut folder = Folder::random(dice, 1);
        let paths = folder.paths();
        let bytes = image(&mut folder);
        let t = theirs::read_descriptor(&bytes[65_536..]).expect("a volume").root;
        // The tables alone: what is behind the last of them is zeros.
        let end = bytes.iter().rposition(|&b| b != 0).expect("a table") + 1;
        let v = View { bytes: &bytes[2048 * 33..end], first: 33 };
        if v.bytes.len() <= 8_192 && !paths.is_empty() {
            path(records, v, t, &paths[dice.below(paths.len())]);
        }
    }
}

fn put_descriptor(body: &mut Vec<u8>, d: Descriptor) {
    put(body, &[d.root.sector, d.root.size]);
    body.extend(d.stamp.to_le_bytes());
}

fn descriptor_written(records: &mut Records, d: Descriptor) {
    let mut body = Vec::new();
    put_descriptor(&mut body, d);
    body.extend(theirs::write_descriptor(d));
    records.push(b'd', &body);
}

fn descriptor_read(records: &mut Records, bytes: &[u8]) {
    let mut body = Vec::new();
    let said = theirs::read_descriptor(bytes);
    put(&mut body, &[if said.is_some() { 0 } else { 20 }]);
    put_descriptor(&mut body, said.unwrap_or(Descriptor { root: Table { sector: 0, size: 0 }, stamp: 0 }));
    body.extend(bytes);
    records.push(b'v', &body);
}

/// Descriptors written; and others read, a third of them as they were written, the others damaged or cut or both, some with bytes behind them.
fn descriptors(records: &mut Records, dice: &mut Dice) {
    (0..40).for_each(|round| descriptor_written(records, descriptor(dice, round)));
    for round in 0..48 {
        let mut bytes = theirs::write_descriptor(descriptor(dice, round));
        let end = dice.below(3);
        bytes.resize(2048 + end, 9);
        if round % 3 > 0 {
            damage_descriptor(dice, &mut bytes);
        }
        descriptor_read(records, &bytes);
    }
}

/// The names that the Rust's walk lists in a table that the Rust wrote, each with the entry and with the Rust's lookup of it; how many are lost to that.
fn names_of(records: &mut Records, list: &[String], first: u32) {
    let (bytes, size) = written(list, true).expect("a table");
    let (v, t) = (View { bytes: &bytes[..size as usize], first }, Table { sector: first, size });
    let listed = theirs::walked(v, t).expect("a walk of the Rust's own table");
    let mut body = Vec::new();
    put_view(&mut body, v, t);
    put_short(&mut body, listed.len());
    for (entry, name) in &listed {
        let said = theirs::look_up(v, t, std::str::from_utf8(name).expect("an ASCII name"));
        let (number, headers) = match said {
            Said::Found { entry: found, headers } => {
                assert_eq!(found, *entry);
                (0, headers)
            }
            Said::Refused { number: 22, headers, .. } => (22, headers),
            other => panic!("neither found nor 22: {other:?}"),
        };
        let mut row = numbers(v, t, &Said::Found { entry: *entry, headers }, true);
        row[0] = number;
        put(&mut body, &row);
        records.lost += (number == 22) as usize;
    }
    records.names += listed.len();
    body.extend(v.bytes);
    records.push(b'n', &body);
}

/// Whether an entry of the table stands at 1,020 and has entries below it.
fn has_more_below_1020(list: &[String]) -> bool {
    let (bytes, size) = written(list, true).expect("a table");
    let (v, t) = (View { bytes: &bytes, first: 0 }, Table { sector: 0, size });
    let listed = theirs::walked(v, t).expect("a walk of the Rust's own table");
    listed.iter().any(|(entry, _)| entry.byte == 1_020 && (entry.left, entry.right) != (0, 0))
}

/// Tables of a few names, of some dozens, and of so many that an entry stands at 1,020 with others below it.
fn tables_of_names(records: &mut Records, dice: &mut Dice) {
    for round in 0..24 {
        let count = [dice.below(9), 20 + dice.below(40), 60 + dice.below(40)][round % 3];
        let list = names(dice, count, "", 1..=8);
        names_of(records, &list, [33, 0, dice.next() as u32 >> 1][dice.below(3)]);
    }
    let mut kept = 0;
    while kept < 12 {
        let count = 50 + dice.below(60);
        let list = names(dice, count, "", 1..=8);
        if has_more_below_1020(&list) {
            names_of(records, &list, 33);
            kept += 1;
        }
    }
}

fn main() {
    let words: Vec<String> = std::env::args().skip(1).collect();
    let [file, summary] = &words[..] else { panic!("record FILE SUMMARY") };
    let (mut records, mut dice) = (Records::default(), Dice(2024));
    theirs::hear_panics();
    tables(&mut records, &mut dice);
    reads(&mut records, &mut dice);
    images(&mut records, &mut dice);
    plans(&mut records, &mut Dice(2025));
    descriptors(&mut records, &mut Dice(2026));
    tables_of_names(&mut records, &mut Dice(2027));
    let Records { counts: [tables, plans, lookups, paths, walks, written, read, of_names], names, lost, .. } = records;
    std::fs::write(file, &records.bytes).expect("the file");
    let first = format!("{tables} tables\n{plans} plans\n{lookups} lookups\n{paths} paths\n{walks} walks\n");
    let then = format!("{written} descriptors written\n{read} descriptors read\n");
    let rules = format!("{} under no rule\n{names} names under both rules\n", lookups + paths);
    std::fs::write(summary, format!("{first}{then}{rules}0 differ\n")).expect("the summary");
    println!("{of_names} tables of names, {lost} of their names 22 under rule one, {} bytes", records.bytes.len());
}
