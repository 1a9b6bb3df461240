//! The command line. Help has at most 80 columns; tests/help/ has what it looks like.
use clap::{Args, Parser, Subcommand};
use std::ffi::OsString;
use std::path::PathBuf;
use std::time::Duration;
use xdvdfs_tables::{BadDate, Rule, Stamp};

const AFTER: &str = "\
Examples:
  xdvdfs ls game.iso              the root directory
  xdvdfs ls -l game.iso maps      a directory, with sectors, sizes and offsets
  xdvdfs find game.iso maps/one   where a file stands
  xdvdfs check --all game.iso     whether every table is sound, every name found
  xdvdfs plan --dir folder        where an image of a folder has everything

The game partition is sought at the bytes 0, 0x18300000 (XGD1), 0x0fd90000
(XGD2) and 0x02080000 (XGD3) of the file, and starts at the first of them that
has a volume descriptor at its sector 32. Sectors have 2048 bytes and are
counted from the start of the partition.

A name is looked up under one of two rules. Rule one (--rule 1, or no --rule) is
that of the boards in the field: links of 0 and 255 are absent to it, so it does
not find what stands below a link of 255, though ls lists it. Rule two (--rule
2) is that of newer loaders: links of 0 and 65535 are absent to it, as they are
to ls. What rule two finds and rule one does not is refused under rule one all
the same, and a second line on standard error says where it is. limits takes no
--rule: it looks up under rule two.

Names are bytes. As text a backslash is doubled, and a byte that cannot be
printed is \\xNN. In JSON a name is there twice: name is a string, or null where
the bytes are not UTF-8, and name_hex is the bytes; so with path and path_hex.

A refusal goes to standard error, in words and with its number. With --json
there is an object on standard output too, {command, refused: {number, message,
offset, headers, rule_two}}; what does not apply is null. rule_two is what rule
two finds and rule one does not: {path, path_hex, table: {sector, size}, entry}.

Exit status: 0 done; 1 refused, or check found a fault; 2 wrong usage.
Each command says more with --help.";

/// Lists, searches, checks and plans XDVDFS images with proved code
#[derive(Debug, Parser)]
#[command(name = "xdvdfs", version, after_help = AFTER, arg_required_else_help = true, disable_help_subcommand = true)]
pub struct Arguments {
    /// Answer with one JSON object on one line
    #[arg(long, global = true)]
    pub json: bool,
    #[command(subcommand)]
    pub command: Command,
}

#[derive(Debug, Subcommand)]
pub enum Command {
    Ls(LsArguments),
    Find(FindArguments),
    Check(CheckArguments),
    Info(InfoArguments),
    Limits(LimitsArguments),
    Plan(PlanArguments),
    Table(TableArguments),
}

impl Command {
    pub fn name(&self) -> &'static str {
        match self {
            Command::Ls(_) => "ls",
            Command::Find(_) => "find",
            Command::Check(_) => "check",
            Command::Info(_) => "info",
            Command::Limits(_) => "limits",
            Command::Plan(_) => "plan",
            Command::Table(_) => "table",
        }
    }
}

#[derive(Debug, Args)]
pub struct ImageArguments {
    /// The image: a file or a block device
    pub image: PathBuf,
    /// Byte of the file at which the game partition starts
    #[arg(long, value_name = "BYTE", value_parser = number)]
    pub offset: Option<u64>,
}

#[derive(Debug, Args)]
pub struct RuleArguments {
    /// The rule under which names are looked up
    #[arg(long, value_name = "1|2", value_parser = rule, default_value = "1")]
    pub rule: Rule,
}

const LS: &str = "\
The entries come in the order of the table's tree. A directory's name ends with
a slash. An empty directory prints nothing. The rule is for the path: under rule
one a directory that stands below a link of 255 is not found.

Examples:
  xdvdfs ls game.iso
  xdvdfs ls -l game.iso maps/day
  xdvdfs ls --json game.iso | jq -r '.entries[].name'

JSON: {command, image, partition: {offset, name}, path, path_hex,
       table: {sector, size}, entries: [{name, name_hex, kind, sector, size,
       offset, attributes}]}
kind is \"file\" or \"directory\".";

/// Lists a directory
#[derive(Debug, Args)]
#[command(after_help = LS)]
pub struct LsArguments {
    #[command(flatten)]
    pub image: ImageArguments,
    /// The directory; nothing or slashes alone: the root
    pub path: Option<OsString>,
    /// With kind, first sector, size, and offset in the table
    #[arg(short, long)]
    pub long: bool,
    #[command(flatten)]
    pub rule: RuleArguments,
}

const FIND: &str = "\
A name is found whatever the case of its letters a to z. The headers are the
entry headers that the lookup read, the found one among them.

Under rule one the answer is that of the boards in the field, under rule two
that of newer loaders. What stands below a link of 255 is found under rule two
alone: under rule one it is refused, and a second line on standard error says
where it is.

Examples:
  xdvdfs find game.iso default.xbe
  xdvdfs find game.iso Maps/ONE.BIN
  xdvdfs find --rule 2 game.iso default.xbe
  xdvdfs find --json game.iso default.xbe | jq .entry.sector

JSON: {command, image, partition: {offset, name}, path, path_hex, rule, entry,
       byte, headers, steps: [{name, name_hex, table: {sector, size}, offset,
       headers}]}
entry is as ls has it, byte the one of the file at which its data starts; there
is a step for each part of the path.";

/// Finds a file or a directory by its path
#[derive(Debug, Args)]
#[command(after_help = FIND)]
pub struct FindArguments {
    #[command(flatten)]
    pub image: ImageArguments,
    /// The path, its parts separated by slashes
    pub path: OsString,
    #[command(flatten)]
    pub rule: RuleArguments,
}

const CHECK: &str = "\
Two things are checked of a table. The strict check: no entry is reached twice,
none overlaps another, crosses a sector line or leaves the table, and each name
is on the right side of those of all entries above it; the first fault is told.
And of each name that is listed, whether a lookup of it finds that same entry: a
table may list a file that no lookup finds. A name that has a byte above 127, or
a slash, cannot be asked for, and counts as hidden.

Under rule one, that of the boards in the field, names below a link of 255 are
hidden, and tables that are sound may have some. Under rule two, that of newer
loaders, they are not: in a table without a fault no name is hidden then, but
one that cannot be asked for. In a table with a fault a name is hidden under
both where it is on the wrong side of some entry above it, or below one of the
same name.

With --all every directory is gone through, each table once; a directory inside
of itself is a fault. So is what is too much to go through: directories more
than 128 deep, 4194304 entries, a billion headers to read.

Examples:
  xdvdfs check game.iso
  xdvdfs check game.iso maps
  xdvdfs check --all game.iso && echo good
  xdvdfs check --all --rule 2 game.iso && echo good for newer loaders

JSON: {command, image, partition: {offset, name}, path, path_hex, rule, all,
       good, tables, entries, faults, hidden, shared, untold}
faults, hidden and shared are lists of {path, path_hex, table: {sector, size},
kind, number, message, offset, name, name_hex}: faults with kind \"strict\",
\"walk\" (the table cannot be listed), \"cycle\" or \"stopped\"; names that a lookup
does not find; directories whose table was checked under another name, which is
no fault. untold is how many of these are left out, after 65536.";

/// Checks a directory's table, or every table of the image
#[derive(Debug, Args)]
#[command(after_help = CHECK)]
pub struct CheckArguments {
    #[command(flatten)]
    pub image: ImageArguments,
    /// The directory; nothing or slashes alone: the root
    pub path: Option<OsString>,
    /// The tables of all directories below it too
    #[arg(long)]
    pub all: bool,
    #[command(flatten)]
    pub rule: RuleArguments,
}

const INFO: &str = "\
Examples:
  xdvdfs info game.iso
  xdvdfs info --json game.iso | jq .root.sector

JSON: {command, image, length, partition: {offset, name}, sectors,
       root: {sector, size}, stamp, date}
length is that of the file; sectors are the whole ones from the partition's
start to the end of the file. stamp counts 100 ns since the start of 1601, UTC,
and is a string of digits: many readers of JSON round numbers above 2^53. date
is the date of the stamp as ISO 8601 has it, null where the stamp is 0.";

/// Shows where the partition and the root directory are, and the date
#[derive(Debug, Args)]
#[command(after_help = INFO)]
pub struct InfoArguments {
    #[command(flatten)]
    pub image: ImageArguments,
}

const LIMITS: &str = "\
Sector, size and date are printed together or not at all. They are printed
exactly where the volume has a date, the time is not before it, from the date to
the time is at most AGE, and the path finds a file, under rule two. Else there
is a refusal, the first of these: 20, no volume; 40, no date; 41, the time is
before the date; 42, the date is too old; those of a path, as find has them; 43,
the path leads to a directory.

AGE is a whole number with a unit: s, m, h, d (24 hours) or w (7 days). More
than 1844674407370s, which is as far as stamps reach, is wrong usage. TIME is a
date as info prints it, a fraction having one to seven digits; or a stamp, which
is digits alone. Where --now is not given, it is the machine's clock.

Examples:
  xdvdfs limits game.iso maps/one.bin --max-age 30d
  xdvdfs limits --json game.iso maps/one.bin --max-age 36h | jq .sector
  xdvdfs limits old.iso limits --max-age 2w --now 2026-11-20T12:00:00Z

JSON: {command, image, partition: {offset, name}, path, path_hex, sector, byte,
       size, stamp, date, age, greatest_age, time: {stamp, date}}
path is as it was given, byte the one of the image at which the data starts.
stamp and date are the volume's, as info has them; time is what was taken as
now, and age what is from the one to the other. Stamps and ages count 100 ns and
are strings of digits.";

/// Loads a file's sector and size with the volume's date, or none of them
#[derive(Debug, Args)]
#[command(after_help = LIMITS)]
pub struct LimitsArguments {
    #[command(flatten)]
    pub image: ImageArguments,
    /// The path of the file, its parts separated by slashes
    pub path: OsString,
    /// The greatest age of the volume: 90s, 15m, 36h, 30d, 4w
    #[arg(long, value_name = "AGE", value_parser = age)]
    pub max_age: Duration,
    /// The time that is taken as now, instead of the clock's
    #[arg(long, value_name = "TIME", value_parser = time)]
    pub now: Option<Stamp>,
}

#[derive(Debug, Args)]
pub struct SourceArguments {
    /// The list of directories and files; - for standard input
    #[arg(required_unless_present = "dir", conflicts_with = "dir")]
    pub manifest: Option<PathBuf>,
    /// The directories and files of a folder instead
    #[arg(long, value_name = "FOLDER")]
    pub dir: Option<PathBuf>,
}

macro_rules! with_manifest {
    ($rest:literal) => {
        concat!(
            "\
A manifest is text or a JSON list. In text a line is a file with its size, or a
directory; the path goes to the end of the line; empty lines and lines that
start with # do not count:
  d maps
  f 5000 maps/two.bin
  f 7 limits
The same in JSON:
  [{\"directory\": \"maps\"}, {\"file\": \"maps/two.bin\", \"size\": 5000},
   {\"file\": \"limits\", \"size\": 7}]
The directories that a path leads through need no line of their own. Sectors
are given out directory by directory: to what the root has, then to what the
others have, in the order in which the manifest first names them. A folder is
read level by level, its names sorted by their bytes; links to files are
followed.

",
            $rest
        )
    };
}

const PLAN: &str = with_manifest!(
    "\
Printed are, by sector, kind, first sector, number of sectors, size and path; a
directory's size is that of its table, not rounded.

Examples:
  xdvdfs plan game.txt
  printf 'f 7 limits\\nf 5000 maps/two.bin\\n' | xdvdfs plan -
  xdvdfs plan --dir folder --json | jq .next_free

JSON: {command, directories: [{path, path_hex, sector, sectors, size}],
       files: [the same], next_free, bytes}
next_free is the first sector that nothing takes, bytes the length of an image
that ends there."
);

/// Plans an image: where each directory's table and each file would be
#[derive(Debug, Args)]
#[command(after_help = PLAN, override_usage = "xdvdfs plan [OPTIONS] <MANIFEST|--dir <FOLDER>>")]
pub struct PlanArguments {
    #[command(flatten)]
    pub source: SourceArguments,
}

const TABLE: &str = with_manifest!(
    "\
The bytes are whole sectors. They go to the sector that plan has for the
directory. They are not written to a terminal.

Examples:
  xdvdfs table game.txt -o root.table
  xdvdfs table game.txt --path maps | xxd -l 64

JSON, which needs -o FILE: {command, path, path_hex, sector, size, bytes, first,
       output}
sector is where the table goes, size not rounded, bytes the number written,
first the sector of the first of its entries, null where there is none."
);

/// Writes the table of one directory of a planned image
#[derive(Debug, Args)]
#[command(after_help = TABLE, override_usage = "xdvdfs table [OPTIONS] <MANIFEST|--dir <FOLDER>>")]
pub struct TableArguments {
    #[command(flatten)]
    pub source: SourceArguments,
    /// The directory, the root if not given
    #[arg(long, value_name = "PATH")]
    pub path: Option<OsString>,
    /// Where to write, standard output if not given
    #[arg(short, long, value_name = "FILE")]
    pub output: Option<PathBuf>,
}

/// A rule by its number.
fn rule(text: &str) -> Result<Rule, String> {
    match text {
        "1" => Ok(Rule::One),
        "2" => Ok(Rule::Two),
        _ => Err("no rule; 1 and 2 are".to_owned()),
    }
}

/// An age, which is no longer than stamps reach.
fn age(text: &str) -> Result<Duration, String> {
    const UNITS: [(char, u64); 5] = [('s', 1), ('m', 60), ('h', 3600), ('d', 86_400), ('w', 604_800)];
    const MOST: u64 = u64::MAX / 10_000_000;
    let split = UNITS.iter().find_map(|&(letter, seconds)| Some((text.strip_suffix(letter)?, seconds)));
    let Some((digits, seconds)) = split.filter(|(digits, _)| is_digits(digits)) else {
        return Err("no age; 90s, 15m, 36h, 30d and 4w are".to_owned());
    };
    let age = digits.parse().ok().and_then(|number: u64| number.checked_mul(seconds));
    age.filter(|&age| age <= MOST).map(Duration::from_secs).ok_or(format!("stamps do not reach so far; the greatest age is {MOST}s"))
}

/// A date, or the digits of a stamp.
fn time(text: &str) -> Result<Stamp, String> {
    if !is_digits(text) {
        return text.parse().map_err(|e: BadDate| e.to_string());
    }
    match text.parse() {
        Ok(0) => Err("the stamp 0 is no date".to_owned()),
        Ok(stamp) => Ok(Stamp(stamp)),
        Err(_) => Err(format!("no stamp; the greatest is {}", u64::MAX)),
    }
}

/// Whether there are digits 0 to 9, and nothing else.
fn is_digits(text: &str) -> bool {
    !text.is_empty() && text.bytes().all(|b| b.is_ascii_digit())
}

/// A number of bytes, decimal or with 0x in front.
fn number(text: &str) -> Result<u64, String> {
    let (digits, base) = match text.strip_prefix("0x").or_else(|| text.strip_prefix("0X")) {
        Some(digits) => (digits, 16),
        None => (text, 10),
    };
    if digits.is_empty() || !digits.chars().all(|c| c.is_digit(base)) {
        return Err("no number; 12345 or 0x3039 is one".to_owned());
    }
    u64::from_str_radix(digits, base).map_err(|e| e.to_string())
}
