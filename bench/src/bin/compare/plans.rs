//! Planning on the same trees.
use crate::tally::Tally;
use bench::inputs::Dice;
use bench::plans::{
    broken, may_ask, random_request, request_near_both, request_near_end, request_near_top, request_up_to, Planned, Request,
};
use bench::theirs::heard;
use bench::{ours, plain, theirs};

fn kind(planned: &Planned) -> String {
    match planned {
        Planned::Done { .. } => "planned".into(),
        Planned::Refused { number, .. } => format!("{number}"),
    }
}

/// How a request was answered, and whether the Rust was asked; or what is wrong.
fn answers(request: &Request) -> Result<(String, bool), String> {
    let (own, want) = (ours::plan(request, None), plain::plan(request));
    if own != want {
        return Err(format!("ours {own:?}, plain {want:?}"));
    }
    if !may_ask(request, &want) {
        return Ok((kind(&want) + ", the Rust not asked", false));
    }
    let rust = theirs::plan(request);
    match (&want, &rust) {
        (Planned::Refused { number: 7, .. }, Planned::Refused { number: 8, .. }) if plain::refused_twice(request) => {
            Ok(("7 and 8 together".into(), true))
        }
        (a, b) if a.agrees(b) => Ok((kind(&want), true)),
        _ => Err(format!("the Rust {rust:?}, plain {want:?}")),
    }
}

fn fault(request: &Request) -> Option<String> {
    heard(|| answers(request)).unwrap_or_else(Err).err()
}

/// The same request with something less: an entry that is no directory, a last directory, a shorter name, a smaller file.
fn smaller(request: &Request) -> Vec<Request> {
    let mut list = Vec::new();
    for d in 0..request.directories.len() {
        for i in 0..request.directories[d].len() {
            let mut less = request.clone();
            if !less.directories[d][i].directory {
                less.directories[d].remove(i);
                list.push(less);
            }
            let mut less = request.clone();
            let member = &mut less.directories[d][i];
            let len = member.name.len();
            member.name.truncate(len / 2);
            list.push(less);
            let mut less = request.clone();
            if !less.directories[d][i].directory {
                less.directories[d][i].value /= 2;
                list.push(less);
            }
        }
    }
    let last = request.directories.len() as u64 - 1;
    let mut less = request.clone();
    less.directories.pop();
    less.directories.iter_mut().for_each(|list| list.retain(|member| !member.directory || member.value != last));
    list.push(less);
    list.retain(|other| other != request);
    list
}

fn shrunk(request: &Request) -> Request {
    let mut request = request.clone();
    for _ in 0..400 {
        if request.directories.is_empty() {
            break;
        }
        let Some(less) = smaller(&request).into_iter().find(|less| fault(less).is_some()) else { break };
        request = less;
    }
    request
}

impl Tally {
    fn plan(&mut self, what: &str, request: &Request) {
        self.plans += 1;
        match heard(|| answers(request)).unwrap_or_else(Err) {
            Ok((how, asked)) => {
                self.count(what, how);
                self.asked += asked as u64;
            }
            Err(_) if self.wrong >= 5 => self.wrong += 1,
            Err(text) => {
                let least = shrunk(request);
                let text = fault(&least).unwrap_or(text);
                self.wrong(what, format!("{text}\n  of {least:?}"));
            }
        }
    }
}

/// 6 where a lent column is too short.
fn short_columns(tally: &mut Tally, dice: &mut Dice, rounds: usize) {
    for round in 0..rounds {
        let request = random_request(dice);
        if request.directories.iter().all(|list| list.is_empty()) {
            continue;
        }
        match heard(|| ours::plan(&request, Some(round % 11))) {
            Ok(Planned::Refused { number: 6, entry: None }) => tally.count("plan, a column too short", "6, the Rust not asked".into()),
            other => tally.wrong("plan, a column too short", format!("column {}: {other:?}", round % 11)),
        }
    }
}

pub fn all(tally: &mut Tally, dice: &mut Dice, rounds: usize) {
    for round in 0..30_000 * rounds {
        let request = random_request(dice);
        tally.plan("plan", &request);
        if round % 10 == 0 {
            let request = broken(dice, request);
            tally.plan("plan of no tree", &request);
        }
    }
    for _ in 0..100 * rounds {
        tally.plan("plan near the top sector", &request_near_top(dice));
        tally.plan("plan with a table of about 262,144 bytes", &request_near_end(dice));
    }
    short_columns(tally, dice, 2_000 * rounds);
    for _ in 0..40 * rounds {
        tally.plan("plan near both ends", &request_near_both(dice));
    }
    for next in u32::MAX as u64 - 3..u32::MAX as u64 + 4 {
        tally.plan("plan up to the last sector", &request_up_to(next));
    }
}
