//! `check`: the strict check of tables, and whether a lookup under a rule finds each name that is listed.
use crate::arguments::CheckArguments;
use crate::fault::{offset_of, words, Fault};
use crate::image::{open_volume, Image, JsonTable, Partition, Volume};
use crate::listing::{entries_at, Listed};
use crate::output::{Colour, Printer, Screen};
use crate::place::{directory, Spelled};
use crate::text::{counted, exact, hex, rule_name, shown, JsonPath};
use indicatif::{ProgressBar, ProgressDrawTarget, ProgressStyle};
use serde::Serialize;
use std::collections::{HashMap, HashSet};
use std::os::unix::ffi::OsStrExt;
use std::time::{Duration, Instant};
use xdvdfs_tables::{Error, Found, Rule, Table, Window};

/// More entries than the sectors of any disc. An image whose directories list more is not gone through to its end.
const MOST_ENTRIES: u64 = 4_194_304;
/// So many entry headers are read at most: an image that the writer made takes less than twenty for an entry.
const MOST_HEADERS: u64 = 1_000_000_000;
/// Directories inside of one another. A deeper one is not gone into.
const MOST_DEEP: usize = 128;
/// Findings that are told, as many as one table can have entries; of more only the number is told.
const MOST_TOLD: usize = 65_536;
/// What a lookup or walk that does not end well has read at most: a header at every offset that a link can name.
const MOST_IN_TABLE: u64 = 65_536;

#[derive(Clone, Copy, Debug, PartialEq, Eq)]
pub enum Kind {
    /// The strict check refuses the table.
    Strict,
    /// The table cannot be listed.
    Walk,
    /// A lookup under the rule does not find the name that is listed.
    Hidden,
    /// The directory has one of those above it as its table.
    Cycle,
    /// The directory's table was checked as another directory's.
    Shared,
    /// There is more than the bounds allow.
    Stopped,
}

impl Kind {
    fn name(self) -> &'static str {
        match self {
            Kind::Strict => "strict",
            Kind::Walk => "walk",
            Kind::Hidden => "hidden",
            Kind::Cycle => "cycle",
            Kind::Shared => "shared",
            Kind::Stopped => "stopped",
        }
    }
}

/// What was found of a directory, or of an entry in it.
#[derive(Clone, Debug)]
pub struct Finding<'a> {
    kind: Kind,
    directory: usize,
    offset: Option<u32>,
    name: Option<&'a [u8]>,
    number: Option<u32>,
    message: String,
}

/// A directory that was met: its name, in which other directory, and its table.
struct Directory<'a> {
    above: Option<usize>,
    name: &'a [u8],
    table: Table,
}

/// A directory whose own directories are being gone through.
struct Open<'a> {
    directory: usize,
    below: Vec<(&'a [u8], Table)>,
    next: usize,
}

struct Checker<'a, 'b> {
    window: Window<'a>,
    rule: Rule,
    start: &'b Spelled,
    directories: Vec<Directory<'a>>,
    /// By its place and size, the directory that a table was checked as, and whether that is being gone through.
    met: HashMap<(u32, u32), (usize, bool)>,
    list: Vec<u32>,
    scratch: Vec<u32>,
    strict_scratch: Vec<u64>,
    tables: u64,
    entries: u64,
    headers: u64,
    findings: Vec<Finding<'a>>,
    faults: u64,
    hidden: u64,
    untold: u64,
    stopped: bool,
    progress: Progress,
}

impl<'a, 'b> Checker<'a, 'b> {
    fn new(window: Window<'a>, rule: Rule, start: &'b Spelled, progress: Progress) -> Checker<'a, 'b> {
        Checker {
            window,
            rule,
            start,
            directories: Vec::new(),
            met: HashMap::new(),
            list: Vec::new(),
            scratch: Vec::new(),
            strict_scratch: Vec::new(),
            tables: 0,
            entries: 0,
            headers: 0,
            findings: Vec::new(),
            faults: 0,
            hidden: 0,
            untold: 0,
            stopped: false,
            progress,
        }
    }

    /// Checks the table, and with `all` those of the directories below it, each once.
    fn run(&mut self, table: Table, all: bool) {
        let mut open = vec![self.enter(None, b"", table)];
        loop {
            let deep = open.len();
            let Some(top) = open.last_mut() else {
                return;
            };
            let Some(&(name, table)) = top.below.get(top.next).filter(|_| all) else {
                let table = self.directories[top.directory].table;
                if let Some(met) = self.met.get_mut(&(table.sector, table.size)) {
                    met.1 = false;
                }
                open.pop();
                continue;
            };
            top.next += 1;
            let above = top.directory;
            if table.size == 0 {
                continue;
            }
            if let Some(&(first, is_open)) = self.met.get(&(table.sector, table.size)) {
                self.met_again(above, name, table, first, is_open);
            } else if self.is_spent() {
                self.stop(above);
                return;
            } else if deep > MOST_DEEP {
                self.add(Kind::Stopped, above, None, None, format!("directories more than {MOST_DEEP} deep are not gone into"));
                open.pop();
            } else {
                let entered = self.enter(Some(above), name, table);
                open.push(entered);
            }
        }
    }

    fn met_again(&mut self, above: usize, name: &'a [u8], table: Table, first: usize, is_open: bool) {
        let here = self.directories.len();
        self.directories.push(Directory { above: Some(above), name, table });
        let as_other = self.path(first).shown();
        if is_open {
            let message =
                format!("the directory has the table of {as_other}, which it is inside of: a listing of the image would never end");
            self.add(Kind::Cycle, here, None, None, message);
        } else {
            self.add(Kind::Shared, here, None, None, format!("the directory has the table of {as_other}, which is checked there"));
        }
    }

    /// Checks one table: the directories that it lists are below it.
    fn enter(&mut self, above: Option<usize>, name: &'a [u8], table: Table) -> Open<'a> {
        let directory = self.directories.len();
        self.directories.push(Directory { above, name, table });
        self.met.insert((table.sector, table.size), (directory, true));
        self.tables += 1;
        self.progress.tell(self.tables, self.entries);
        let entries = self.listed(directory, table);
        self.entries = self.entries.saturating_add(entries.len() as u64);
        self.look_up_each(directory, table, &entries);
        let below = entries.iter().filter_map(|l| l.entry.header.table().map(|table| (l.entry.name, table))).collect();
        Open { directory, below, next: 0 }
    }

    /// The entries of a table, none twice; the strict check's fault, and the walk's, are noted.
    fn listed(&mut self, directory: usize, table: Table) -> Vec<Listed<'a>> {
        let most = table.most_entries();
        self.list.resize(most, 0);
        self.scratch.resize(most + 1, 0);
        self.strict_scratch.resize(most + 1, 0);
        let strict = self.window.check_table(table, &mut self.list, &mut self.strict_scratch);
        let walked = match strict {
            // it lists what the walk lists
            Ok(count) => Ok(count),
            Err(error) => {
                self.add_strict_fault(directory, table, error);
                self.window.walk(table, &mut self.list, &mut self.scratch)
            }
        };
        let count = match walked {
            Ok(count) => count,
            Err(error) => {
                self.headers = self.headers.saturating_add(MOST_IN_TABLE);
                let message = format!("the table cannot be listed, so its names are not looked up: {}", words(error));
                self.add(Kind::Walk, directory, offset_of(error).map(|o| (o, None)), Some(error.number()), message);
                return Vec::new();
            }
        };
        self.headers = self.headers.saturating_add(count as u64);
        let mut offsets: Vec<u32> = self.list.iter().copied().take(count).collect();
        if strict.is_err() {
            let mut seen = HashSet::new();
            offsets.retain(|&o| seen.insert(o));
        }
        // what the walk lists can be read
        entries_at(self.window, table, &offsets).unwrap_or_default()
    }

    fn add_strict_fault(&mut self, directory: usize, table: Table, error: Error) {
        let mut message = words(error);
        let mut at = None;
        if let Some(offset) = offset_of(error) {
            let name = self.window.read_entry(table, offset).ok().flatten().map(|e| e.name);
            if let Some(name) = name {
                message += &format!("; the entry is {}", shown(name));
            }
            self.headers = self.headers.saturating_add(MOST_IN_TABLE);
            let way = way_to(self.window, table, offset);
            let told = match (error, name) {
                (Error::OutOfOrder { .. }, Some(name)) => {
                    way.iter().find(|above| above.is_misplaced(name)).map(|above| (above, above.subtree()))
                }
                (_, Some(_)) => way.first().map(|parent| (parent, "its parent is")),
                (_, None) => way.first().map(|parent| (parent, "the link is that of")),
            };
            if let Some((above, its)) = told {
                message += &format!("; {its} {} at offset {}", shown(above.at.entry.name), above.at.offset);
            }
            at = Some((offset, name));
        }
        self.add(Kind::Strict, directory, at, Some(error.number()), message);
    }

    fn look_up_each(&mut self, directory: usize, table: Table, entries: &[Listed<'a>]) {
        let mut behind = None;
        for (i, l) in entries.iter().enumerate() {
            if i % 1024 == 1023 {
                self.progress.tell(self.tables, self.entries.saturating_add(i as u64));
            }
            if self.headers > MOST_HEADERS {
                self.stop(directory);
                return;
            }
            let rule = rule_name(self.rule);
            let (number, why) = match self.look_up(table, l.entry.name, self.rule) {
                Ok(found) if found.offset != l.offset => {
                    (None, format!("a lookup under {rule} finds the entry at offset {}", found.offset))
                }
                Ok(_) if l.entry.name.contains(&b'/') => (None, "no path leads to it, for its name has a slash".to_owned()),
                Ok(_) => continue,
                Err(error) => {
                    let mut why = format!("a lookup under {rule} does not find it: {}", words(error));
                    if let (Rule::One, Error::DoesNotExist { .. }) = (self.rule, error) {
                        let behind = behind.get_or_insert_with(|| behind_unfollowed(entries));
                        if let Some(at) = behind.get(&l.offset) {
                            let name = shown(at.entry.name);
                            why += &format!("; a link of {name} at offset {} is {UNFOLLOWED}, which {rule} takes for none", at.offset);
                        }
                        if self.look_up(table, l.entry.name, Rule::Two).is_ok_and(|found| found.offset == l.offset) {
                            why += "; rule two finds it";
                        }
                    }
                    (Some(error.number()), why)
                }
            };
            let message = format!("{} at offset {} is listed, but {why}", shown(l.entry.name), l.offset);
            self.add(Kind::Hidden, directory, Some((l.offset, Some(l.entry.name))), number, message);
        }
    }

    /// A lookup whose headers count.
    fn look_up(&mut self, table: Table, name: &[u8], rule: Rule) -> Result<Found<'a>, Error> {
        let looked_up = self.window.look_up(table, name, rule);
        let read = match looked_up {
            Ok(found) => u64::from(found.headers),
            Err(Error::DoesNotExist { headers: Some(headers) }) => u64::from(headers),
            Err(_) => MOST_IN_TABLE,
        };
        self.headers = self.headers.saturating_add(read);
        looked_up
    }

    fn add(&mut self, kind: Kind, directory: usize, at: Option<(u32, Option<&'a [u8]>)>, number: Option<u32>, message: String) {
        match kind {
            Kind::Hidden => self.hidden += 1,
            Kind::Shared => {}
            Kind::Strict | Kind::Walk | Kind::Cycle | Kind::Stopped => self.faults += 1,
        }
        if self.findings.len() >= MOST_TOLD {
            self.untold += 1;
            return;
        }
        let (offset, name) = (at.map(|a| a.0), at.and_then(|a| a.1));
        self.findings.push(Finding { kind, directory, offset, name, number, message });
    }

    /// Told once, where it came to that.
    fn stop(&mut self, directory: usize) {
        if !self.stopped {
            self.stopped = true;
            self.add(Kind::Stopped, directory, None, None, self.spent());
        }
    }

    fn is_spent(&self) -> bool {
        self.entries > MOST_ENTRIES || self.headers > MOST_HEADERS
    }

    fn spent(&self) -> String {
        if self.entries > MOST_ENTRIES {
            format!("the directories list more than {MOST_ENTRIES} entries")
        } else {
            format!("there is too much to read: more than {MOST_HEADERS} entry headers")
        }
    }

    fn path(&self, directory: usize) -> Spelled {
        let mut names = Vec::new();
        let mut at = self.directories.get(directory);
        while let Some(Directory { above: Some(above), name, .. }) = at {
            names.push(*name);
            at = self.directories.get(*above);
        }
        names.iter().rev().fold(self.start.clone(), |path, name| path.join(name))
    }
}

/// The link that the walk and rule two follow and rule one does not: an entry at offset 1,020, and what is below it, is listed and not found.
const UNFOLLOWED: u16 = 255;

/// Of each offset to which such a link is on the way, the entry that has it; the first on the way down. Entries come in walk order, each after the one that leads to it.
fn behind_unfollowed<'a>(entries: &[Listed<'a>]) -> HashMap<u32, Listed<'a>> {
    let mut behind = HashMap::new();
    for l in entries {
        let above = behind.get(&l.offset).copied();
        for link in [l.entry.header.left, l.entry.header.right] {
            if let Some(at) = above.or((link == UNFOLLOWED).then_some(*l)) {
                behind.entry(4 * u32::from(link)).or_insert(at);
            }
        }
    }
    behind
}

/// An entry on the way to another, and whether that one is in its left subtree or in its right.
#[derive(Clone, Copy)]
struct Above<'a> {
    at: Listed<'a>,
    is_left: bool,
}

impl Above<'_> {
    /// A name in that subtree that is on the wrong side of this entry's, or equal to it.
    fn is_misplaced(&self, name: &[u8]) -> bool {
        let (name, bound) = (name.to_ascii_uppercase(), self.at.entry.name.to_ascii_uppercase());
        if self.is_left {
            name >= bound
        } else {
            name <= bound
        }
    }

    fn subtree(&self) -> &'static str {
        if self.is_left {
            "it stands in the left subtree of"
        } else {
            "it stands in the right subtree of"
        }
    }
}

/// The entries of a table on the way to an offset, the nearest first, by the links by which the walk first comes to it.
fn way_to<'a>(window: Window<'a>, table: Table, offset: u32) -> Vec<Above<'a>> {
    let mut met: HashMap<u32, Option<Above>> = HashMap::new();
    let mut waiting = vec![(0, None)];
    while let Some((here, above)) = waiting.pop() {
        if met.contains_key(&here) {
            continue;
        }
        met.insert(here, above);
        if here == offset {
            break;
        }
        let Ok(Some(entry)) = window.read_entry(table, here) else {
            continue;
        };
        for (link, is_left) in [(entry.header.right, false), (entry.header.left, true)] {
            if link != 0 && link != u16::MAX {
                waiting.push((4 * u32::from(link), Some(Above { at: Listed { offset: here, entry }, is_left })));
            }
        }
    }
    let above = |offset: u32| met.get(&offset).copied().flatten();
    std::iter::successors(above(offset), |nearer| above(nearer.at.offset)).collect()
}

/// Tells on a terminal how far it is, once that takes more than a second.
struct Progress {
    wanted: bool,
    started: Instant,
    bar: Option<ProgressBar>,
}

impl Progress {
    fn new(screen: Screen) -> Progress {
        Progress { wanted: screen.err, started: Instant::now(), bar: None }
    }

    fn tell(&mut self, tables: u64, entries: u64) {
        if !self.wanted || (self.bar.is_none() && self.started.elapsed() < Duration::from_secs(1)) {
            return;
        }
        let bar = self.bar.get_or_insert_with(|| {
            let bar = ProgressBar::with_draw_target(None, ProgressDrawTarget::stderr());
            let style = ProgressStyle::with_template("{spinner} {elapsed}  {msg}").unwrap_or_else(|_| ProgressStyle::default_spinner());
            bar.with_style(style).with_elapsed(self.started.elapsed())
        });
        bar.set_message(format!("{}, {}", counted(tables, "table", "tables"), counted(entries, "entry", "entries")));
        bar.tick();
    }

    fn clear(&mut self) {
        if let Some(bar) = self.bar.take() {
            bar.finish_and_clear();
        }
    }
}

pub fn check(a: &CheckArguments, printer: &mut Printer) -> Result<u8, Fault> {
    let image = Image::open(&a.image.image)?;
    let volume = open_volume(&image, &a.image.image, a.image.offset)?;
    let sought = a.path.as_ref().map_or(&b""[..], |p| p.as_bytes());
    let (path, table) = directory(&volume, sought, a.rule.rule)?;
    let mut checker = Checker::new(volume.window, a.rule.rule, &path, Progress::new(printer.screen()));
    checker.run(table, a.all);
    checker.progress.clear();
    let good = checker.faults == 0 && checker.hidden == 0;
    if printer.json() {
        print_json(a, &volume, &checker, good, printer)?;
    } else {
        print_text(&checker, good, printer)?;
    }
    Ok(if good { crate::DONE } else { crate::REFUSED })
}

fn print_text(checker: &Checker, good: bool, printer: &mut Printer) -> Result<(), Fault> {
    for f in &checker.findings {
        let colour = if f.kind == Kind::Shared { Colour::Faint } else { Colour::Bad };
        let mark = printer.coloured(colour, f.kind.name());
        printer.line(format_args!("{mark}: {}: {}", checker.path(f.directory).shown(), f.message))?;
    }
    if checker.untold > 0 {
        printer.line(format_args!("and {} more that are not told", checker.untold))?;
    }
    let rule = rule_name(checker.rule);
    let verdict = if good {
        printer.coloured(Colour::Good, &format!("good, and a lookup under {rule} finds every name"))
    } else {
        let (faults, hidden) = (counted(checker.faults, "fault", "faults"), counted(checker.hidden, "hidden name", "hidden names"));
        printer.coloured(Colour::Bad, &format!("{faults}, {hidden} under {rule}"))
    };
    let (tables, entries) = (counted(checker.tables, "table", "tables"), counted(checker.entries, "entry", "entries"));
    printer.line(format_args!("{tables}, {entries}: {verdict}"))
}

#[derive(Serialize)]
struct JsonFinding<'c> {
    #[serde(flatten)]
    path: JsonPath,
    table: JsonTable,
    kind: &'static str,
    number: Option<u32>,
    message: &'c str,
    offset: Option<u32>,
    name: Option<String>,
    name_hex: Option<String>,
}

/// The findings of some kinds, made as they are written.
struct Told<'c, 'a, 'b> {
    checker: &'c Checker<'a, 'b>,
    wanted: fn(Kind) -> bool,
}

impl Serialize for Told<'_, '_, '_> {
    fn serialize<S: serde::Serializer>(&self, serializer: S) -> Result<S::Ok, S::Error> {
        let chosen = self.checker.findings.iter().filter(|f| (self.wanted)(f.kind));
        serializer.collect_seq(chosen.map(|f| JsonFinding {
            path: JsonPath::of(self.checker.path(f.directory).bytes()),
            table: self.checker.directories[f.directory].table.into(),
            kind: f.kind.name(),
            number: f.number,
            message: &f.message,
            offset: f.offset,
            name: f.name.and_then(exact),
            name_hex: f.name.map(hex),
        }))
    }
}

#[derive(Serialize)]
struct Answer<'c, 'a, 'b> {
    command: &'static str,
    image: String,
    partition: Partition,
    #[serde(flatten)]
    path: JsonPath,
    rule: u32,
    all: bool,
    good: bool,
    tables: u64,
    entries: u64,
    faults: Told<'c, 'a, 'b>,
    hidden: Told<'c, 'a, 'b>,
    shared: Told<'c, 'a, 'b>,
    untold: u64,
}

fn print_json(a: &CheckArguments, volume: &Volume, checker: &Checker, good: bool, printer: &mut Printer) -> Result<(), Fault> {
    let told = |wanted| Told { checker, wanted };
    printer.object(&Answer {
        command: "check",
        image: a.image.image.to_string_lossy().into_owned(),
        partition: volume.partition,
        path: JsonPath::of(checker.start.bytes()),
        rule: checker.rule.number(),
        all: a.all,
        good,
        tables: checker.tables,
        entries: checker.entries,
        faults: told(|k| !matches!(k, Kind::Hidden | Kind::Shared)),
        hidden: told(|k| k == Kind::Hidden),
        shared: told(|k| k == Kind::Shared),
        untold: checker.untold,
    })
}
