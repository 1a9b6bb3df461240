//! tables IMAGE PATH: shows the date of an image's volume, lists its root directory, looks a path up in it, then builds a small image in memory, reads it back, loads limits out
//! of it, and plans it.
use std::error::Error;
use std::process::ExitCode;
use std::time::{Duration, UNIX_EPOCH};
use xdvdfs_tables::{
    plan, read_descriptor, write_descriptor, write_table, Arena, Content, Descriptor, Entry, Kind, NewEntry, PlanEntry, Rule, Stamp, Table,
    Window,
};

const SECTOR: usize = 2048;
const DESCRIPTOR: u32 = 32;

/// Reads the descriptor that the bytes start with: the root table. The volume's date is printed.
fn read_volume(bytes: &[u8]) -> Result<Table, xdvdfs_tables::Error> {
    let Descriptor { root, stamp } = read_descriptor(bytes)?;
    println!("date: {stamp}");
    Ok(root)
}

/// `d` or `f`, the sector, the size, the name.
fn line(e: &Entry) -> String {
    let mark = if e.header.is_directory() { 'd' } else { 'f' };
    format!("{mark} {} {} {}", e.header.sector, e.header.size, e.name.escape_ascii())
}

/// Nothing is printed of a table before the walk is known to end well.
fn list(window: Window, table: Table) -> Result<(), xdvdfs_tables::Error> {
    let entries = window.list(table, 4096)?;
    for e in &entries {
        println!("{}", line(e));
    }
    println!("entries {}", entries.len());
    Ok(())
}

/// Under rule two, as a new loader looks up.
fn find(window: Window, table: Table, path: &str) {
    match window.find_path(table, path.as_bytes(), Rule::Two) {
        Ok(e) => println!("{path}: {}", line(&e)),
        Err(e) => println!("{path}: {e} (refusal {})", e.number()),
    }
}

/// Loads a file's limits with their date, which must not be more than 30 days old. Where that is refused there is nothing to go on with.
fn load(window: Window, path: &str, time: Stamp) {
    match window.load_limits(path.as_bytes(), time, Duration::from_secs(30 * 86_400)) {
        Ok(limits) => println!("load: {path} at {time}: sector {}, size {}, of {}", limits.sector, limits.size, limits.stamp),
        Err(e) => println!("load: {path} at {time}: {e} (refusal {})", e.number()),
    }
}

/// An image of three sectors from sector 32 on: the descriptor, a root table and the table of its directory.
fn build() -> Result<Vec<u8>, xdvdfs_tables::Error> {
    let file = |name: &'static str, size| NewEntry { name: name.as_bytes(), kind: Kind::File, size };
    // The root's entries take sectors in walk order, "maps" first: its table is at 34, and the files of "maps" go where the root's end.
    let (maps, inner) = write_table(&[file("one.bin", 100), file("two.bin", 5000)], 37)?;
    let entries = [file("limits", 7), NewEntry { name: b"maps", kind: Kind::Directory, size: inner.size }, file("save", 2048)];
    let (root, outer) = write_table(&entries, 34)?;
    println!("built: root of {} bytes, next free sector {}", outer.size, outer.next_free);

    // one entry at a time: the same bytes
    let mut arena = Arena::with_room(entries.len());
    for e in &entries {
        arena.add(e.name, e.kind, e.size)?;
    }
    let mut again = vec![0; SECTOR];
    let written = arena.serialise(34, &mut again)?;
    assert_eq!((written, &again), (outer, &root));
    println!("one by one: the same bytes");

    let noon = UNIX_EPOCH + Duration::from_secs(1_794_830_400); // 2026-11-16T12:00:00Z
    let stamp = Stamp::from_system_time(noon).expect("a time after the start of 1601");
    let mut image = vec![0; SECTOR];
    write_descriptor(&mut image, Descriptor { root: Table { sector: 33, size: outer.size }, stamp })?;
    image.extend(root);
    image.extend(maps);
    Ok(image)
}

/// The plan of the same image; `directory` is the one that the entry "maps" names.
fn show_plan(directory: u32) -> Result<(), xdvdfs_tables::Error> {
    let entry = |name: &'static str, content| PlanEntry { name: name.as_bytes(), content };
    let root = [entry("limits", Content::File(7)), entry("maps", Content::Directory(directory)), entry("save", Content::File(2048))];
    let maps = [entry("one.bin", Content::File(100)), entry("two.bin", Content::File(5000))];
    let planned = plan(&[&root, &maps])?;
    for (i, table) in planned.tables.iter().enumerate() {
        println!("plan: directory {i} at {}, {} bytes", table.sector, table.size);
    }
    for (e, sector) in root.iter().chain(&maps).zip(&planned.sectors) {
        println!("plan: {} at {sector}", e.name.escape_ascii());
    }
    println!("plan: next free sector {}", planned.next_free);
    Ok(())
}

fn run(file: &str, path: &str) -> Result<(), Box<dyn Error>> {
    let image = std::fs::read(file)?;
    let bytes = image.get(DESCRIPTOR as usize * SECTOR..).unwrap_or(&[]);
    let window = Window { bytes, first: DESCRIPTOR };
    let root = read_volume(bytes)?;
    list(window, root)?;
    find(window, root, path);

    let image = build()?;
    let window = Window { bytes: &image, first: DESCRIPTOR };
    let root = read_volume(&image)?;
    list(window, root)?;
    println!("check: good, entries {}", window.check_table(root, &mut [0; 16], &mut [0; 17])?);
    for path in ["Maps/TWO.bin", "limits/x", "maps/three.bin", "//"] {
        find(window, root, path);
    }
    for time in ["2026-12-16T12:00:00Z", "2026-12-16T12:00:00.0000001Z"] {
        load(window, "limits", time.parse()?);
    }
    let twice = NewEntry { name: b"Ab", kind: Kind::File, size: 1 };
    let refused = write_table(&[twice, NewEntry { name: b"aB", ..twice }], 33).unwrap_err();
    println!("twice: {refused} (refusal {})", refused.number());
    show_plan(1)?;
    let refused = show_plan(0).unwrap_err();
    println!("plan: {refused} (refusal {})", refused.number());
    Ok(())
}

fn main() -> ExitCode {
    let args: Vec<String> = std::env::args().collect();
    let [_, file, path] = args.as_slice() else {
        eprintln!("usage: tables IMAGE PATH");
        return ExitCode::from(2);
    };
    match run(file, path) {
        Ok(()) => ExitCode::SUCCESS,
        Err(e) => {
            println!("{file}: {e}");
            ExitCode::FAILURE
        }
    }
}
