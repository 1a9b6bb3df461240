//! The writers on the same lists. Ours and the plain one have to be the same in everything; the Rust is asked where it can be, and the same but where docs/DIFFERENCES.md says so.
use crate::rules::{each_listed, Found};
use crate::tally::Tally;
use bench::inputs::Dice;
use bench::lists::{every_order, list_about, list_near_end, list_near_top, long_lists, random_list, small_lists};
use bench::theirs::heard;
use bench::{ours, plain, theirs, Job, Said, Table, Turns, View, Wrote};

/// How a job was answered, and whether the Rust was asked.
struct Seen {
    how: String,
    asked: bool,
    turns: bool,
    size: u32,
    /// An entry stands at 1,020, where its link is 255.
    at_1020: bool,
    /// What the readers find of a table that the Rust wrote.
    found: Found,
}

fn short(wrote: &Wrote) -> String {
    match wrote {
        Wrote::Done { .. } => "written".into(),
        Wrote::Refused { number, .. } => format!("{number}"),
    }
}

/// The plain answers against the Rust's: "", or how they may differ, or what is wrong.
fn against_rust(job: &Job, plain: &Turns) -> Result<String, String> {
    let asked: Vec<bool> = plain.numbers.iter().map(|number| ![1, 2, 6].contains(number)).collect();
    let (numbers, end) = theirs::add_in_turn(job, &asked);
    let mut how = String::new();
    for (i, (&said, &rust)) in plain.numbers.iter().zip(&numbers).enumerate() {
        match (said, rust) {
            (_, None) => {}
            (3, Some(5)) if job.list[i].directory => how = ", a name too long that the Rust does not come to".into(),
            (said, Some(rust)) if said == rust => {}
            _ => return Err(format!("entry {i}: plain {said}, the Rust {rust:?}")),
        }
    }
    let taken = Job { list: job.list.iter().zip(&plain.numbers).filter(|x| *x.1 == 0).map(|x| x.0.clone()).collect(), ..job.clone() };
    let over = job.first as u64 + taken.sectors() > u32::MAX as u64;
    match (&plain.end, &end) {
        (a, b) if a == b => {}
        (Wrote::Refused { number: 9, .. }, Wrote::Done { bytes, .. }) if bytes.len() > job.room => {}
        (Wrote::Refused { number: 7, .. }, Wrote::Refused { number: 8, .. }) if over => how += ", 7 and 8 together",
        (a, b) => return Err(format!("plain {}, the Rust {}", cut(a), cut(b))),
    }
    Ok(how)
}

/// An answer to be printed: of the bytes only the first.
fn cut(wrote: &Wrote) -> String {
    match wrote {
        Wrote::Done { size, next, bytes } => {
            format!("size {size}, next free {next}, {} bytes {:?}", bytes.len(), &bytes[..bytes.len().min(64)])
        }
        refused => format!("{refused:?}"),
    }
}

/// Whether an entry of the table stands at this offset.
fn stands_at(bytes: &[u8], size: u32, offset: u32) -> bool {
    match plain::walk(View { bytes, first: 0 }, Table { sector: 0, size }, plain::MOST) {
        Said::Listed(list) => list.contains(&offset),
        _ => false,
    }
}

/// All that a job is asked of: in one call, and (`turns`) in turn.
fn answers(job: &Job, turns: bool) -> Result<Seen, String> {
    let wide = Job { places: plain::MOST, ..job.clone() };
    let plain = plain::add_in_turn(&wide);
    let asked = job.first >= 33;
    let mut how = if asked { against_rust(&wide, &plain)? } else { ", the Rust not asked".into() };
    // The Rust's bytes: against_rust has found them to be these.
    let found = match &plain.end {
        Wrote::Done { size, bytes, .. } if asked => each_listed(View { bytes, first: 0 }, Table { sector: 0, size: *size })?,
        _ => Found::default(),
    };
    let (want, whole) = (plain::whole(&plain), ours::whole(job, None));
    if want != whole {
        return Err(format!("one call: ours {}, plain {}", cut(&whole), cut(&want)));
    }
    if plain.numbers.iter().any(|number| [1, 2, 6].contains(number)) {
        how += ", the Rust not asked of an entry";
    }
    if turns {
        let mut in_turn = plain;
        if job.places < job.list.len() {
            in_turn = plain::add_in_turn(job);
            if asked {
                against_rust(job, &in_turn)?;
            }
        }
        let own = ours::add_in_turn(job);
        if own != in_turn {
            return Err(format!("in turn: ours {:?} {}, plain {:?} {}", own.numbers, cut(&own.end), in_turn.numbers, cut(&in_turn.end)));
        }
    }
    let (size, at_1020) = match &want {
        Wrote::Done { size, bytes, .. } => (*size, *size < 10_000 && stands_at(bytes, *size, 1_020)),
        Wrote::Refused { .. } => (0, false),
    };
    Ok(Seen { how: short(&want) + &how, asked, turns, size, at_1020, found })
}

/// What is wrong with a job's answers. A panic on our side is a difference too: the harness looks at lent memory by assertions.
fn fault(job: &Job, turns: bool) -> Option<String> {
    heard(|| answers(job, turns)).unwrap_or_else(Err).err()
}

/// The same job with something less.
fn smaller(job: &Job) -> Vec<Job> {
    let mut jobs = Vec::new();
    let n = job.list.len();
    let mut part = n.div_ceil(2);
    while part > 0 {
        for from in (0..n).step_by(part) {
            let mut list = job.list.clone();
            list.drain(from..(from + part).min(n));
            jobs.push(Job { list, ..job.clone() });
        }
        part = if part == 1 { 0 } else { part.div_ceil(2) };
    }
    jobs.push(Job { places: n, ..job.clone() });
    jobs.push(Job { first: 33, ..job.clone() });
    jobs.push(Job { room: bench::lists::ROOMY, ..job.clone() });
    for i in 0..n.min(50) {
        let with = |change: &dyn Fn(&mut bench::New)| {
            let mut list = job.list.clone();
            change(&mut list[i]);
            Job { list, ..job.clone() }
        };
        jobs.push(with(&|new| new.name.truncate(new.name.len() / 2)));
        jobs.push(with(&|new| new.name.truncate(new.name.len().saturating_sub(1))));
        jobs.push(with(&|new| new.size /= 2));
        jobs.push(with(&|new| new.size = new.size.saturating_sub(1)));
        jobs.push(with(&|new| new.directory = false));
        jobs.push(with(&|new| new.name.iter_mut().for_each(|b| *b = b'a')));
    }
    jobs.retain(|other| other != job);
    jobs
}

fn shrunk(job: &Job, turns: bool) -> Job {
    let mut job = job.clone();
    while let Some(less) = smaller(&job).into_iter().find(|less| fault(less, turns).is_some()) {
        job = less;
    }
    job
}

impl Tally {
    fn table(&mut self, what: &str, job: &Job, turns: bool) {
        match heard(|| answers(job, turns)).unwrap_or_else(Err) {
            Ok(seen) => {
                self.count(what, seen.how);
                self.asked += seen.asked as u64;
                self.tables += 1 + seen.turns as u64;
                self.listed("table of a list", Ok(seen.found));
                if seen.at_1020 {
                    self.input("tables with an entry", "at 1,020");
                }
                for (name, low, high) in [("2,032 to 2,048", 2_032, 2_048), ("262,128 to 262,160", 262_128, 262_160)] {
                    if (low..=high).contains(&seen.size) {
                        self.input("tables of a size of", name);
                    }
                }
            }
            Err(_) if self.wrong >= 5 => self.wrong += 1,
            Err(text) => {
                let least = shrunk(job, turns);
                let text = fault(&least, turns).unwrap_or(text);
                self.wrong(what, format!("{text}\n  of {least:?}"));
            }
        }
    }
}

/// The number of bytes of a table, whatever becomes of it.
fn bytes_of(job: &Job) -> u64 {
    match plain::add_in_turn(&Job { first: 33, room: usize::MAX, places: plain::MOST, ..job.clone() }).end {
        Wrote::Done { size, .. } => size as u64,
        Wrote::Refused { .. } => u64::MAX,
    }
}

/// 6 where a column is shorter than the list, whatever else is the matter.
fn short_columns(tally: &mut Tally, dice: &mut Dice, rounds: usize) {
    for round in 0..rounds {
        let job = random_list(dice);
        if job.list.is_empty() {
            continue;
        }
        match heard(|| ours::whole(&job, Some(round % 7))) {
            Ok(Wrote::Refused { number: 6, entry: None }) => tally.count("a column too short", "6, the Rust not asked".into()),
            other => tally.wrong("a column too short", format!("column {}: {other:?}", round % 7)),
        }
    }
}

pub fn all(tally: &mut Tally, dice: &mut Dice, rounds: usize) {
    small_lists().iter().for_each(|job| tally.table("every list of up to 4 names", job, true));
    every_order(8).iter().for_each(|job| tally.table("8 names in every order", job, true));
    for _ in 0..40_000 * rounds {
        tally.table("random list", &random_list(dice), true);
        tally.table("list near the top sector", &list_near_top(dice), true);
    }
    for end in [1_020, 2_040, 2_048, 4_096] {
        for _ in 0..5_000 * rounds {
            let (about, shortest) = (end - 24 + 4 * dice.below(13), [16, 16, 100][dice.below(3)]);
            tally.table(&format!("list of about {end} bytes"), &list_about(dice, about, shortest), true);
        }
    }
    for round in 0..1_000 * rounds {
        let job = list_near_end(dice, &bytes_of);
        tally.table("list of about 262,144 bytes", &job, round % 100 == 0);
    }
    long_lists().iter().for_each(|job| tally.table("list of 15,000 to 16,385 names", job, false));
    short_columns(tally, dice, 5_000 * rounds);
}
