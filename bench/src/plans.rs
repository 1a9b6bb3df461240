//! Plans: what is asked, what is answered, and random requests.
use crate::inputs::Dice;
use crate::plain;

/// An entry of a directory: a file of so many bytes, or the directory with this number.
#[derive(Clone, Debug, PartialEq, Eq)]
pub struct Member {
    pub name: Vec<u8>,
    pub directory: bool,
    pub value: u64,
}

/// The directories of an image, the root first.
#[derive(Clone, Debug, PartialEq, Eq)]
pub struct Request {
    pub directories: Vec<Vec<Member>>,
}

/// What planning answers. `entry` is the number of the refused entry in the row of all entries, or of the refused directory with 7 and 8. A reader that does not say something
/// leaves it None.
#[derive(Clone, Debug, PartialEq, Eq)]
pub enum Planned {
    Done { sizes: Vec<u32>, tables: Vec<u32>, sectors: Vec<u32>, next: Option<u32> },
    Refused { number: u32, entry: Option<u32> },
}

impl Planned {
    /// Equal as far as both say.
    pub fn agrees(&self, other: &Planned) -> bool {
        match (self, other) {
            (Planned::Done { sizes: a, tables: b, sectors: c, next: d }, Planned::Done { sizes: e, tables: f, sectors: g, next: h }) => {
                a == e && b == f && c == g && (d.is_none() || h.is_none() || d == h)
            }
            (Planned::Refused { number: a, entry: b }, Planned::Refused { number: c, entry: d }) => {
                a == c && (b.is_none() || d.is_none() || b == d)
            }
            _ => false,
        }
    }
}

/// Whether the Rust may be asked: not for names that docs/SCOPE.md refuses and it does not, nor for what is no tree. `plain` is the plain plan's answer.
pub fn may_ask(request: &Request, plain: &Planned) -> bool {
    let named =
        request.directories.iter().flatten().all(|member| !member.name.is_empty() && member.name.iter().all(|b| (1..128).contains(b)));
    named && !matches!(plain, Planned::Refused { number: 6 | 11, .. })
}

/// A request as columns: of each directory the place of its first entry and how many it has, of each entry its name's start and length, its kind (1 is a directory) and its value.
#[derive(Default)]
pub struct Columns {
    pub first: Vec<u32>,
    pub share: Vec<u32>,
    pub start: Vec<u32>,
    pub len: Vec<u32>,
    pub kind: Vec<u8>,
    pub value: Vec<u64>,
    pub names: Vec<u8>,
}

impl Columns {
    pub fn of(request: &Request) -> Columns {
        let mut c = Columns::default();
        for list in &request.directories {
            c.first.push(c.start.len() as u32);
            c.share.push(list.len() as u32);
            for member in list {
                c.start.push(c.names.len() as u32);
                c.len.push(member.name.len() as u32);
                c.kind.push(member.directory as u8);
                c.value.push(member.value);
                c.names.extend(&member.name);
            }
        }
        c
    }
}

fn name(dice: &mut Dice, letters: &[u8]) -> Vec<u8> {
    let len = match dice.below(60) {
        0 => [254, 255, 256][dice.below(3)],
        1 => 0,
        2..=6 => 20,
        _ => 1 + dice.below(4),
    };
    let mut name: Vec<u8> = (0..len).map(|_| letters[dice.below(letters.len())]).collect();
    if len > 0 && dice.below(300) == 0 {
        name[dice.below(len)] = [0, 128, 255][dice.below(3)];
    }
    name
}

fn file_size(dice: &mut Dice) -> u64 {
    match dice.below(40) {
        0 => u32::MAX as u64 + dice.below(3) as u64 - 1,
        1 => dice.next(),
        2..=9 => [0, 1, 2047, 2048, 2049][dice.below(5)],
        _ => dice.below(1 << 20) as u64,
    }
}

/// A random tree, its directories in an order of its own, each after the one that names it; names are mostly apart.
pub fn random_request(dice: &mut Dice) -> Request {
    let count = [1, 2, 3, 5, 9, 20][dice.below(6)];
    let most = [1, 4, 10, 30][dice.below(4)];
    let letters: &[u8] = [&b"ab"[..], b"abcdefgAB_", b"abcdefghijklmnopqrstuvwxyz0123"][dice.below(3)];
    let clean = dice.below(4) > 0;
    let mut directories = vec![Vec::new(); count];
    for child in 1..count {
        directories[dice.below(child)].push(Member { name: vec![], directory: true, value: child as u64 });
    }
    for list in directories.iter_mut() {
        for _ in 0..dice.below(most) {
            let value = if clean { file_size(dice) % 3_000_000_000 } else { file_size(dice) };
            list.push(Member { name: vec![], directory: false, value });
        }
        dice.shuffle(list);
        let mut seen = std::collections::HashSet::new();
        for (i, member) in list.iter_mut().enumerate() {
            member.name = name(dice, letters);
            if clean {
                member.name.truncate(255);
                member.name.iter_mut().for_each(|b| *b = (*b).clamp(1, 127));
            }
            let equal = !seen.insert(member.name.to_ascii_uppercase()) || member.name.is_empty();
            if equal && (clean || dice.below(8) > 0) {
                member.name = format!("~{i}").into();
            }
        }
    }
    Request { directories }
}

/// So many files of the largest size, in a few directories: the last sectors there are.
pub fn request_near_top(dice: &mut Dice) -> Request {
    let count = 1 + dice.below(3);
    let mut request = Request { directories: vec![Vec::new(); count] };
    for child in 1..count {
        request.directories[child - 1].push(Member { name: b"d".into(), directory: true, value: child as u64 });
    }
    let files = 2_046 + dice.below(4);
    for i in 0..files {
        let value = if dice.below(3_000) == 0 { 2048 * dice.below(2_000_000) as u64 } else { u32::MAX as u64 };
        let at = dice.below(count);
        request.directories[at].push(Member { name: format!("{i}").into(), directory: false, value });
    }
    request
}

/// A directory of 2,048 files after which this is the next free sector; 4,294,967,295 is the last that there is.
pub fn request_up_to(next: u64) -> Request {
    let file = |i: usize| Member { name: format!("{i}").into(), directory: false, value: if i < 2_047 { u32::MAX as u64 } else { 0 } };
    let mut request = Request { directories: vec![(0..2_048).map(file).collect()] };
    let Planned::Done { next: Some(free), .. } = plain::plan(&request) else { panic!("a plan of 2,048 files") };
    request.directories[0][2_047].value = 2048 * (next - free as u64 + 1);
    request
}

/// A directory with a table about as long as links reach.
pub fn request_near_end(dice: &mut Dice) -> Request {
    let mut request = Request { directories: vec![vec![Member { name: b"d".into(), directory: true, value: 1 }], Vec::new()] };
    for i in 0..880 + dice.below(40) {
        let name = format!("{i}{}", "x".repeat(238 + dice.below(14)));
        request.directories[1].push(Member { name: name.into(), directory: false, value: 1 });
    }
    request
}

/// One or two directories whose tables take about a sector, or somewhat more: names of 24 to 80 letters.
pub fn request_near_sector(dice: &mut Dice) -> Request {
    let count = 1 + dice.below(2);
    let entries = 30 * count + dice.below(5);
    let mut request = even_request(dice, count, entries);
    request.directories.iter_mut().flatten().for_each(|member| member.name.extend(vec![b'x'; 20 + dice.below(53)]));
    request
}

/// One directory that is near both ends: so many files of the largest size, with names about so long that links still reach them.
pub fn request_near_both(dice: &mut Dice) -> Request {
    let len = 109 + dice.below(10);
    let file = |i: usize| Member { name: format!("{i:0len$}").into(), directory: false, value: u32::MAX as u64 };
    Request { directories: vec![(0..2_046 + dice.below(4)).map(file).collect()] }
}

/// One or two entries that are refused, in most cases: a name of 256 bytes, a name that is there already, a file too large.
pub fn spoiled(dice: &mut Dice, mut request: Request) -> Request {
    for _ in 0..1 + dice.below(2) {
        let at = dice.below(request.directories.len());
        let list = &mut request.directories[at];
        if list.is_empty() {
            continue;
        }
        let (i, other) = (dice.below(list.len()), dice.below(list.len()));
        match dice.below(3) {
            0 => list[i].name = vec![b'x'; 256],
            1 => list[i].name = list[other].name.to_ascii_uppercase(),
            _ if list[i].directory => {}
            _ => list[i].value = u32::MAX as u64 + 1 + dice.below(2) as u64,
        }
    }
    request
}

/// Something that makes no tree of it, or a place that is no directory's.
pub fn broken(dice: &mut Dice, mut request: Request) -> Request {
    let count = request.directories.len();
    let at = dice.below(count);
    match dice.below(4) {
        0 => request.directories.clear(),
        1 => request.directories.push(vec![]),
        2 => request.directories[at].push(Member { name: b"~".into(), directory: true, value: dice.below(count + 2) as u64 }),
        _ => {
            if let Some(member) = request.directories[at].iter_mut().find(|member| member.directory) {
                member.value = [dice.below(count + 2) as u64, u64::MAX, 1 << 32][dice.below(3)];
            }
        }
    }
    request
}

/// A tree of so many directories, eight in each that has any, with so many entries in all, evenly shared: names of 4 to 8 letters.
pub fn even_request(dice: &mut Dice, count: usize, entries: usize) -> Request {
    let mut directories: Vec<Vec<Member>> = vec![Vec::new(); count];
    for child in 1..count {
        directories[(child - 1) / 8].push(Member { name: vec![], directory: true, value: child as u64 });
    }
    for (d, list) in directories.iter_mut().enumerate() {
        let share = entries / count + usize::from(d < entries % count);
        while list.len() < share {
            list.push(Member { name: vec![], directory: false, value: dice.below(5_000) as u64 });
        }
        dice.shuffle(list);
        let names = crate::inputs::names(dice, list.len(), "", 4..=8);
        list.iter_mut().zip(names).for_each(|(member, name)| member.name = name.into());
    }
    Request { directories }
}
