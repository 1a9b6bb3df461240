//! What the writers are given: every small list, and random ones about each limit.
use crate::inputs::Dice;
use crate::plain::{sectors_for, stored, MOST};
use crate::{Job, New};

/// An output that no table exceeds but one that is refused for its links.
pub const ROOMY: usize = 262_144 + 272;

impl Job {
    /// A list with nothing else to stumble over.
    pub fn of(list: Vec<New>) -> Job {
        Job { places: list.len(), list, first: 33, room: ROOMY }
    }

    /// The sectors that the entries of the list take together.
    pub fn sectors(&self) -> u64 {
        self.list.iter().map(|new| sectors_for(stored_or_given(new) as u64)).sum()
    }
}

/// As `stored`, and a size that cannot be rounded as it is.
fn stored_or_given(new: &New) -> u32 {
    if new.size > 4_294_965_248 {
        new.size
    } else {
        stored(new)
    }
}

fn file(name: impl Into<Vec<u8>>, size: u32) -> New {
    New { name: name.into(), size, directory: false }
}

/// Every list of up to four names out of six in every order, each with every choice of kinds; sizes go round.
pub fn small_lists() -> Vec<Job> {
    const NAMES: [&str; 6] = ["a", "b", "A", "ab", "abb", "aBb"];
    const SIZES: [u32; 5] = [0, 1, 2048, 2049, 5000];
    let mut jobs = Vec::new();
    for count in 0..=4u32 {
        for choice in 0..6usize.pow(count) << count {
            let (mut names, mut kinds) = (choice >> count, choice);
            let mut list = Vec::new();
            for i in 0..count as usize {
                list.push(New { name: NAMES[names % 6].into(), size: SIZES[(choice + i) % 5], directory: kinds % 2 == 1 });
                names /= 6;
                kinds /= 2;
            }
            jobs.push(Job::of(list));
        }
    }
    jobs
}

/// So many names in every order.
pub fn every_order(count: usize) -> Vec<Job> {
    fn go(left: &mut Vec<u8>, taken: &mut Vec<u8>, jobs: &mut Vec<Job>) {
        if left.is_empty() {
            jobs.push(Job::of(taken.iter().map(|&b| file([b], b as u32)).collect()));
        }
        for i in 0..left.len() {
            taken.push(left.remove(i));
            go(left, taken, jobs);
            left.insert(i, taken.pop().expect("what was pushed"));
        }
    }
    let mut jobs = Vec::new();
    go(&mut (b'a'..b'a' + count as u8).collect(), &mut Vec::new(), &mut jobs);
    jobs
}

/// A size near one that matters.
fn size(dice: &mut Dice) -> u32 {
    match dice.below(24) {
        0 => 4_294_965_248u32.wrapping_add(dice.below(7) as u32).wrapping_sub(3),
        1 => u32::MAX - dice.below(3) as u32,
        2..=7 => 2048 * dice.below(4) as u32 + [0, 1, 2047][dice.below(3)],
        8 => dice.next() as u32,
        _ => dice.below(5000) as u32,
    }
}

/// The length of a name: mostly short, sometimes near the longest.
fn length(dice: &mut Dice) -> usize {
    match dice.below(40) {
        0 => 0,
        1 => 254 + dice.below(3),
        2 | 3 => dice.below(256),
        4 => 300,
        5..=9 => 8 + dice.below(30),
        _ => 1 + dice.below(5),
    }
}

/// A name of so many bytes out of few letters, so that equal ones and common fronts are met; now and then with a byte that is refused.
fn name(dice: &mut Dice, letters: &[u8], len: usize) -> Vec<u8> {
    let mut name: Vec<u8> = (0..len).map(|_| letters[dice.below(letters.len())]).collect();
    if len > 0 && dice.below(100) == 0 {
        name[dice.below(len)] = [0, 128, 255, 127, 1][dice.below(5)];
    }
    name
}

/// Lists of every kind of entry, refused ones among them; some outputs and arenas too short, some first sectors anywhere.
pub fn random_list(dice: &mut Dice) -> Job {
    let letters: &[u8] = [&b"ab"[..], b"abAB_`{@[", b"abcdefghijklmnopqrstuvwxyzABC0123456789._-", b"\x01\x7f!~aZ"][dice.below(4)];
    let most = [4, 12, 40, 120][dice.below(4)];
    let clean = dice.below(2) == 0;
    let mut list = Vec::new();
    for _ in 0..dice.below(most) {
        let (mut len, mut bytes) = (length(dice), size(dice));
        if clean {
            len = len.clamp(1, 255);
            bytes %= 10_000;
        }
        let mut new = New { name: name(dice, letters, len), size: bytes, directory: dice.below(3) == 0 };
        if clean {
            new.name.iter_mut().for_each(|b| *b = (*b).clamp(1, 127));
        }
        list.push(new);
    }
    let mut job = Job::of(list);
    if dice.below(4) == 0 {
        job.places = dice.below(job.list.len() + 2);
    }
    if dice.below(3) == 0 {
        job.first = [dice.next() as u32, dice.below(40) as u32, u32::MAX - dice.below(100_000) as u32][dice.below(3)];
    }
    if dice.below(4) == 0 {
        job.room = [0, 1, 2047, 2048, 2049, 4095, 4096, dice.below(9000)][dice.below(8)];
    }
    job
}

/// Names in an order of their own, each of which makes an entry of the given length (16 to 272, in fours).
fn list_of_lengths(dice: &mut Dice, lengths: &[usize]) -> Vec<New> {
    let width = if lengths.len() > 90 { 4 } else { 2 };
    let mut list: Vec<New> = (0..lengths.len())
        .map(|i| {
            let number = format!("{i:0width$}");
            let len = (lengths[i] - 14 - dice.below(4).min(lengths[i] - 14 - 1)).clamp(number.len(), 255);
            file(format!("{number}{}", "x".repeat(len - number.len())), dice.below(5000) as u32)
        })
        .collect();
    dice.shuffle(&mut list);
    list
}

/// A list whose entries take together a number of bytes about `end`, so that ends and starts fall on each side of it; no entry is shorter than `shortest` but the last.
pub fn list_about(dice: &mut Dice, end: usize, shortest: usize) -> Job {
    let (mut lengths, mut sum) = (Vec::new(), 0);
    while sum < end {
        let length = (shortest + dice.below(273 - shortest)) / 4 * 4;
        lengths.push(length.clamp(16, 272).min((end - sum).next_multiple_of(4).max(16)));
        sum += lengths[lengths.len() - 1];
    }
    let mut job = Job::of(list_of_lengths(dice, &lengths));
    job.room = match dice.below(3) {
        0 => (end.next_multiple_of(2048) + dice.below(3)).saturating_sub(1),
        _ => ROOMY,
    };
    job
}

/// A list whose last sector is the last one there is, or just past it: the first sector is chosen so.
pub fn list_near_top(dice: &mut Dice) -> Job {
    let mut job = random_list(dice);
    job.room = ROOMY;
    let end = u32::MAX as i64 + dice.below(5) as i64 - 2;
    job.first = (end - job.sectors() as i64).clamp(33, u32::MAX as i64) as u32;
    job
}

/// A list whose table ends about the last place that a link reaches: entries are put in or out until the last of them start there.
pub fn list_near_end(dice: &mut Dice, bytes_of: &dyn Fn(&Job) -> u64) -> Job {
    let (shortest, end) = ([250, 16, 100][dice.below(3)], 225_000 + dice.below(10_000));
    let mut job = list_about(dice, end, shortest);
    let target = 262_100 + 4 * dice.below(40) as u64;
    let mut turn = 0;
    loop {
        let bytes = bytes_of(&job);
        if bytes >= target {
            break;
        }
        for _ in 0..1 + (target - bytes) / 150 {
            let len = if target - bytes < 300 { 0 } else { 4 + dice.below(if turn % 2 == 0 { 60 } else { 6 }) };
            job.list.push(file(format!("~{turn:03}{}", "y".repeat(len)), 1));
            turn += 1;
        }
    }
    job.places = job.list.len();
    job.room = ROOMY;
    if dice.below(3) == 0 {
        // 7 and 8 together, or 8 alone.
        job.first = (u32::MAX as u64 - job.sectors() + dice.below(3) as u64) as u32;
    }
    job
}

/// More entries than an arena may hold, and as many as links reach.
pub fn long_lists() -> Vec<Job> {
    // the shortest names, those with a slash first: shortest_names has none
    let bytes: Vec<u8> = (1u8..128).filter(|b| !b.is_ascii_lowercase() && *b != b'/').collect();
    let mut names = vec![b"/".to_vec(), b"//".to_vec()];
    names.extend(bytes.iter().flat_map(|&b| [vec![b'/', b], vec![b, b'/']]));
    names.extend(crate::inputs::shortest_names(MOST).into_iter().map(String::into_bytes));
    [15_000, 15_080, 15_100, 15_120, 15_140, 15_160, 15_167, 15_168, 16_384, 16_385]
        .map(|count| Job::of(names[..count].iter().map(|name| file(name.clone(), 1)).collect()))
        .to_vec()
}
