//! race [TURNS [WORDS]]: this repository's code and the Rust's in turn on the same tables and lists, and the ratios of their times. With WORDS only the
//! tasks that have one of them in their name are raced (words parted by +).
//!
//! Time is the thread's processor time, so that waiting for a busy machine does not count. A task is cut into pieces of at most a thousand names; in each turn
//! each piece is done by both, one right after the other, now the one first, now the other. A task's least time is the sum of its pieces' least
//! times over the turns, its middle time the sum of their medians.
use bench::inputs::{image, names, shortest_names, written, Dice, Folder};
use bench::plans::even_request;
use bench::{ours, plain, theirs, Limits, Said, Table, View};
use std::hint::black_box;

const PIECE: usize = 1_000;
const ONE: u32 = 1;
const TWO: u32 = 2;
/// A piece is repeated until it takes this long, in seconds.
const SHORTEST: f64 = 0.000_2;

/// The thread's processor time, in seconds.
fn clock() -> f64 {
    #[repr(C)]
    struct Moment {
        seconds: i64,
        nanoseconds: i64,
    }
    extern "C" {
        fn clock_gettime(clock: i32, to: *mut Moment) -> i32;
    }
    const THREAD: i32 = 3;
    let mut moment = Moment { seconds: 0, nanoseconds: 0 };
    assert_eq!(unsafe { clock_gettime(THREAD, &mut moment) }, 0);
    moment.seconds as f64 + moment.nanoseconds as f64 / 1e9
}

fn once(times: usize, piece: usize, work: &mut dyn FnMut(usize) -> u64) -> f64 {
    let start = clock();
    for _ in 0..times {
        black_box(work(piece));
    }
    (clock() - start) / times as f64
}

fn enough(work: &mut dyn FnMut(usize) -> u64) -> usize {
    let mut times = 1;
    while once(times, 0, work) * (times as f64) < SHORTEST {
        times *= 2;
    }
    times
}

/// The least, and the median.
fn least_and_middle(mut list: Vec<f64>) -> (f64, f64) {
    list.sort_by(f64::total_cmp);
    (list[0], list[list.len() / 2])
}

/// Whether a task is to be raced.
fn wanted(what: &str) -> bool {
    std::env::args().nth(2).map_or(true, |words| words.split('+').any(|word| what.contains(word)))
}

/// Both in turn, on so many pieces of a task over so many entries.
fn race(what: &str, turns: usize, pieces: usize, per: usize, mine: &mut dyn FnMut(usize) -> u64, rust: &mut dyn FnMut(usize) -> u64) {
    if !wanted(what) {
        return;
    }
    let (m, r) = (enough(mine), enough(rust));
    let mut times = vec![(vec![], vec![]); pieces];
    for turn in 0..turns {
        for piece in 0..pieces {
            let (a, b) = &mut times[piece];
            if (turn + piece) % 2 == 0 {
                a.push(once(m, piece, mine));
                b.push(once(r, piece, rust));
            } else {
                b.push(once(r, piece, rust));
                a.push(once(m, piece, mine));
            }
        }
    }
    let (mut least, mut middle) = ((0.0, 0.0), (0.0, 0.0));
    for (a, b) in times {
        let (a, b) = (least_and_middle(a), least_and_middle(b));
        least = (least.0 + a.0, least.1 + b.0);
        middle = (middle.0 + a.1, middle.1 + b.1);
    }
    let ns = 1e9 / per as f64;
    println!("| {what} | {:.1} | {:.1} | {:.3} | {:.3} |", least.0 * ns, least.1 * ns, least.0 / least.1, middle.0 / middle.1);
}

/// The answers are the same before their times are compared.
fn compare(v: View, t: Table, list: &[String]) {
    let Said::Listed(offsets) = theirs::walk(v, t) else { panic!("the Rust refuses the table") };
    assert_eq!(offsets.len(), list.len());
    assert_eq!(ours::walk(v, t, list.len()), Said::Listed(offsets.clone()));
    assert_eq!(ours::check(v, t, list.len()), Said::Listed(offsets));
    for name in list {
        let rust = theirs::look_up(v, t, name);
        assert!(ours::look_up(v, t, name.as_bytes(), ONE).agrees(&rust) && plain::look_up(v, t, name.as_bytes(), ONE).agrees(&rust));
        assert!(ours::look_up(v, t, name.as_bytes(), TWO).agrees(&plain::look_up(v, t, name.as_bytes(), TWO)));
    }
}

/// What is sought in a piece, under a rule. Not inlined, so that both rules go through the same code.
#[inline(never)]
fn each(v: View, t: Table, part: &[&String], rule: u32, ask: &impl Fn(View, Table, &[u8], u32) -> u64) -> u64 {
    part.iter().map(|sought| ask(v, t, sought.as_bytes(), rule)).sum()
}

/// Ours under rule two beside ours under rule one. What is not answered the same by both is left out: they would not read the same headers.
fn rules(what: &str, turns: usize, v: View, t: Table, list: &[String], ask: impl Fn(View, Table, &[u8], u32) -> u64) {
    let same = |sought: &&String| match sought.as_bytes() {
        path if path.contains(&b'/') => ours::path(v, t, path, ONE) == ours::path(v, t, path, TWO),
        name => ours::look_up(v, t, name, ONE) == ours::look_up(v, t, name, TWO),
    };
    let list: Vec<&String> = list.iter().filter(same).collect();
    let parts: Vec<&[&String]> = list.chunks(PIECE).collect();
    let mut one = |i: usize| each(v, t, parts[i], black_box(ONE), &ask);
    let mut two = |i: usize| each(v, t, parts[i], black_box(TWO), &ask);
    race(&format!("{what}, rule two to rule one"), turns, parts.len(), list.len(), &mut two, &mut one);
}

/// What is sought by a lookup or a path, beside the Rust, and then under rule two beside rule one.
fn seek(what: &str, turns: usize, v: View, t: Table, list: &[String], ask: impl Fn(View, Table, &[u8], u32) -> u64) {
    let parts: Vec<&[String]> = list.chunks(PIECE).collect();
    let mut rust = |i: usize| parts[i].iter().map(|sought| theirs::fast_look_up(v, t, sought)).sum();
    let mut mine = |i: usize| parts[i].iter().map(|sought| ask(v, t, sought.as_bytes(), ONE)).sum();
    race(what, turns, parts.len(), list.len(), &mut mine, &mut rust);
    rules(what, turns, v, t, list, ask);
}

/// Names that are not in a table, of the same lengths as those that are.
fn missing(label: &str, turns: usize, list: &[String], other: &[String]) {
    let (bytes, size) = written(list, false).unwrap_or_else(|| panic!("the Rust refuses {label}"));
    let (v, t) = (View { bytes: &bytes, first: 33 }, Table { sector: 33, size });
    for sought in other {
        let said = ours::look_up(v, t, sought.as_bytes(), ONE);
        assert!(said.agrees(&theirs::look_up(v, t, sought)) && matches!(said, Said::Refused { number: 22, .. }), "{label}: {sought:?}");
    }
    seek(&format!("{label}: lookup of missing names"), turns, v, t, other, ours::fast_look_up);
}

/// So deep: 16 directories in each, and 40 files in the last.
fn folder(dice: &mut Dice, depth: usize) -> Folder {
    if depth == 0 {
        let files = names(dice, 40, "", 4..=8).into_iter().map(|name| (name, 1)).collect();
        return Folder { files, folders: vec![] };
    }
    let folders = names(dice, 16, "", 4..=8).into_iter().map(|name| (name, folder(dice, depth - 1))).collect();
    Folder { files: vec![], folders }
}

/// Files two directories deep in an image that the Rust wrote.
fn three_parts(turns: usize, dice: &mut Dice) {
    let label = "10240 files two directories deep, names of 4 to 8 bytes: path of three parts";
    if !wanted(label) {
        return;
    }
    let mut root = folder(dice, 2);
    let mut paths: Vec<String> = root.paths().into_iter().filter(|path| path.matches('/').count() == 2).collect();
    dice.shuffle(&mut paths);
    paths.truncate(4_000);
    let bytes = image(&mut root);
    let t = theirs::read_descriptor(&bytes[65_536..]).expect("a volume").root;
    let v = View { bytes: &bytes, first: 0 };
    for path in &paths {
        let (one, two) = (ours::path(v, t, path.as_bytes(), ONE).0, ours::path(v, t, path.as_bytes(), TWO).0);
        let Said::Found { entry, .. } = theirs::path(v, t, path, t) else { panic!("the Rust does not find {path:?}") };
        assert!(one == two && one == Said::Found { entry, headers: None }, "{path:?}");
    }
    seek(label, turns, v, t, &paths, ours::fast_path);
}

/// So deep, with as many names in each directory: four of them at most are directories, and in the last none.
fn even_folder(dice: &mut Dice, count: usize, depth: usize) -> Folder {
    let mut folder = Folder { files: vec![], folders: vec![] };
    for (i, name) in names(dice, count, "", 4..=8).into_iter().enumerate() {
        if depth > 0 && i < 4 {
            folder.folders.push((name, even_folder(dice, count, depth - 1)));
        } else {
            folder.files.push((name, dice.below(5_000) as u64));
        }
    }
    folder
}

/// The limits loader beside the descriptor and then the path, under rule two: a thousand questions in an order drawn once, each of which finds a file.
fn limits(turns: usize, dice: &mut Dice, count: usize, parts: usize) {
    let (s, t) = (if count == 1 { "" } else { "s" }, if parts == 1 { "" } else { "s" });
    let label = format!("{count} name{s} a directory, path of {parts} part{t}: limits loader to descriptor and path");
    if !wanted(&label) {
        return;
    }
    const STAMP: u64 = 134_393_040_000_000_000;
    const TIME: u64 = STAMP + 5;
    const AGE: u64 = 10;
    let mut root = even_folder(dice, count, parts - 1);
    let paths: Vec<String> = root.paths().into_iter().filter(|path| path.split('/').count() == parts).collect();
    let mut bytes = image(&mut root);
    bytes[65_564..65_572].copy_from_slice(&STAMP.to_le_bytes());
    let v = View { bytes: &bytes, first: 0 };
    let t = theirs::read_descriptor(&bytes[65_536..]).expect("a volume").root;
    let asked: Vec<&[u8]> = (0..PIECE).map(|_| paths[dice.below(paths.len())].as_bytes()).collect();
    for path in &asked {
        let Said::Found { entry, .. } = ours::path(v, t, path, TWO).0 else { panic!("{path:?} is not found") };
        let file = Limits { number: 0, sector: entry.sector, size: entry.size, stamp: STAMP };
        assert_eq!(ours::load_limits(v, path, TIME, AGE), file, "{path:?}");
    }
    let (mut cells, mut other) = (ours::Cells::before(), ours::Cells::before());
    let (time, age, rule) = (black_box(TIME), black_box(AGE), black_box(TWO));
    let mut one = |_| asked.iter().map(|path| ours::fast_limits(v, path, time, age, &mut cells)).sum();
    let mut two = |_| asked.iter().map(|path| ours::fast_descriptor_and_path(v, path, rule, &mut other)).sum();
    assert_eq!(one(0), two(0), "{label}");
    race(&label, 4 * turns, 1, PIECE, &mut one, &mut two);
}

fn table(label: &str, turns: usize, list: &[String], order: &[String]) {
    let (bytes, size) = written(list, false).unwrap_or_else(|| panic!("the Rust refuses {label}"));
    let (v, t) = (View { bytes: &bytes, first: 33 }, Table { sector: 33, size });
    compare(v, t, list);
    let count = list.len();
    seek(&format!("{label}: lookup"), turns, v, t, order, ours::fast_look_up);
    seek(&format!("{label}: path of one part"), turns, v, t, order, ours::fast_path);
    let (mut list, mut scratch) = (vec![0u32; count], vec![0u32; count + 1]);
    let mut stack = vec![0u64; count + 1];
    let mut rust = |_| theirs::fast_walk(v, t) as u64;
    race(&format!("{label}: walk"), 4 * turns, 1, count, &mut |_| ours::fast_walk(v, t, &mut list, &mut scratch) as u64, &mut rust);
    let mut mine = |_| {
        let n = ours::fast_walk(v, t, &mut list, &mut scratch);
        list[..n].iter().map(|offset| ours::fast_entry(v, t, *offset)).sum()
    };
    race(&format!("{label}: walk, then each entry read"), 4 * turns, 1, count, &mut mine, &mut rust);
    let mut mine = |_| ours::fast_check(v, t, &mut list, &mut stack) as u64;
    race(&format!("{label}: strict check, the Rust's walk"), 4 * turns, 1, count, &mut mine, &mut rust);
}

/// A whole list written as a table, with the bytes, the size and the next free sector compared first.
fn whole(label: &str, turns: usize, list: &[String]) {
    let entries = ours::Entries::of(list);
    let (mut lent, mut buffers, mut out) = (ours::Lent::new(list.len()), Default::default(), vec![7; 262_144 + 2_048]);
    let rust = theirs::write_list(list, &mut buffers).unwrap_or_else(|| panic!("the Rust refuses {label}"));
    assert_eq!(ours::write_list(&entries, 33, &mut lent, &mut out), Ok(rust), "{label}");
    let (round, lent_bytes) = (buffers.dirtab_bytes.len(), lent.bytes());
    assert!(out[..round] == buffers.dirtab_bytes && out[round..].iter().all(|&x| x == 7) && lent.is_zero(), "{label}");
    assert_eq!(lent_bytes, 15 * list.len(), "memory lent for an entry");
    let mut mine = |_| ours::write_list(&entries, 33, &mut lent, &mut out).map_or(0, |(size, next)| size as u64 + next as u64);
    let mut rust = |_| {
        let answer = theirs::write_list(list, &mut buffers).map_or(0, |(size, next)| size as u64 + next as u64);
        black_box(&buffers.dirtab_bytes);
        answer
    };
    race(&format!("{label}: whole table"), 2 * turns, 1, list.len(), &mut mine, &mut rust);
}

/// A list in the order that it has, and sorted.
fn both_orders(label: &str, turns: usize, list: &[String]) {
    whole(label, turns, list);
    let mut sorted = list.to_vec();
    sorted.sort_by_key(|name| name.to_ascii_uppercase());
    whole(&format!("{label}, in order"), turns, &sorted);
}

/// A plan: the answers are compared first. The Rust makes its list of directories within its time, so both are raced with that making, and the making by itself too.
fn planned(turns: usize, dice: &mut Dice, count: usize, entries: usize) {
    let label = format!("{count} directories, {entries} entries");
    if !wanted(&format!("{label}: plan")) {
        return;
    }
    let request = even_request(dice, count, entries);
    assert!(ours::plan(&request, None).agrees(&theirs::plan(&request)), "{label}");
    let mut ready = ours::Prepared::of(&request);
    let mut rust = |_| theirs::fast_plan(&request);
    race(&format!("{label}: plan, both from the request"), turns, 1, entries, &mut |_| ours::Prepared::of(&request).plan(), &mut rust);
    race(&format!("{label}: plan, ours with its columns at hand"), turns, 1, entries, &mut |_| ready.plan(), &mut rust);
    let mut mine = |_| black_box(ours::Prepared::of(&request)).size() as u64;
    race(&format!("{label}: plan's input made"), turns, 1, entries, &mut mine, &mut |_| black_box(theirs::listed(&request)).len() as u64);
}

fn main() {
    let turns: usize = std::env::args().nth(1).map_or(25, |word| word.parse().expect("a number"));
    let mut dice = Dice(7);
    println!("| what | ours, ns a name | the Rust, ns a name | ratio of least | ratio of middle |");
    println!("|---|---|---|---|---|");
    let shuffled = |dice: &mut Dice, list: &[String]| {
        let mut order = list.to_vec();
        dice.shuffle(&mut order);
        order
    };
    for count in [100, 1_000, 8_000] {
        let list = names(&mut dice, count, "", 4..=8);
        let order = shuffled(&mut dice, &list);
        table(&format!("{count} names of 4 to 8 bytes"), turns, &list, &order);
    }
    let mut list = names(&mut dice, 8_000, "", 4..=8);
    list.sort_by_key(|name| name.to_ascii_uppercase());
    table("8000 names of 4 to 8 bytes, added and sought in order", turns, &list, &list);
    let list = shuffled(&mut dice, &shortest_names(15_000));
    let order = shuffled(&mut dice, &list);
    table("15000 names of 1 to 3 bytes", turns, &list, &order);
    for count in [100, 1_000, 6_500] {
        let list = names(&mut dice, count, "track_of_the_main_ring", 4..=4);
        let order = shuffled(&mut dice, &list);
        table(&format!("{count} names of 26 bytes, 22 of them common"), turns, &list, &order);
    }
    let list = names(&mut dice, 1, "", 4..=4);
    table("1 name of 4 bytes", turns, &list, &list);
    let mut other = Dice(8);
    for (label, front, lens) in [("4 to 8 bytes", "", 4..=8), ("26 bytes, 22 of them common", "track_of_the_main_ring", 4..=4)] {
        let list = names(&mut other, 2_000, front, lens);
        missing(&format!("1000 names of {label}"), turns, &list[..1_000], &list[1_000..]);
    }
    three_parts(turns, &mut other);
    let mut third = Dice(9);
    for parts in [1, 3] {
        for count in [1, 10, 100, 1_000] {
            limits(turns, &mut third, count, parts);
        }
    }
    for count in [100, 1_000, 8_000] {
        both_orders(&format!("{count} names of 4 to 8 bytes"), turns, &names(&mut dice, count, "", 4..=8));
    }
    both_orders("15000 names of 1 to 3 bytes", turns, &shuffled(&mut dice, &shortest_names(15_000)));
    for count in [100, 1_000, 6_500] {
        let list = names(&mut dice, count, "track_of_the_main_ring", 4..=4);
        both_orders(&format!("{count} names of 26 bytes, 22 of them common"), turns, &list);
    }
    for (count, entries) in [(10, 10_000), (1_000, 10_000), (6_000, 100_000), (65_535, 1_000_000)] {
        planned(turns.div_ceil(5), &mut dice, count, entries);
    }
    let (whole, word, long) = (ours::Lent::new(1).bytes(), std::mem::size_of::<u32>(), std::mem::size_of::<u64>());
    println!(
        "\nLent for an entry, besides the caller's own list: {whole} bytes for a whole table, {} for a walk, {} for a strict check.",
        2 * word,
        word + long
    );
}
