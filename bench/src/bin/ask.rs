//! ask IMAGE BYTE: what the Rust answers about an image file whose game partition starts at a byte, for the tests of tool/. A question is a line of standard input:
//! `root`, `walk SECTOR SIZE` or `path PATH`. Answers: `root SECTOR SIZE`; `listed N` and N lines OFFSET SECTOR SIZE ATTRIBUTES NAME, the name in hex; `found BYTE SECTOR
//! SIZE ATTRIBUTES HEADERS`, the byte being the entry's from the partition's start on; `refused NUMBER`; `panicked`.
use bench::{theirs, Said, Table, View};
use std::io::{BufRead, Write};

fn listed(v: View, t: Table, offsets: &[u32], out: &mut impl Write) -> std::io::Result<()> {
    writeln!(out, "listed {}", offsets.len())?;
    for &offset in offsets {
        let Some(Said::Found { entry, .. }) = theirs::entry(v, t, offset) else {
            panic!("no entry at an offset that the walk lists");
        };
        let name = &v.bytes[entry.byte as usize + 14..][..entry.name_len as usize];
        let name: String = name.iter().map(|b| format!("{b:02x}")).collect();
        writeln!(out, "{offset} {} {} {} {name}", entry.sector, entry.size, entry.attributes)?;
    }
    Ok(())
}

fn main() -> std::io::Result<()> {
    let args: Vec<String> = std::env::args().collect();
    let [_, file, byte] = args.as_slice() else {
        eprintln!("usage: ask IMAGE BYTE");
        std::process::exit(2);
    };
    std::panic::set_hook(Box::new(|_| ()));
    let image = std::fs::read(file)?;
    let v = View { bytes: byte.parse().ok().and_then(|b: usize| image.get(b..)).unwrap_or(&[]), first: 0 };
    let root = theirs::read_descriptor(v.bytes.get(65536..).unwrap_or(&[])).map(|d| d.root);
    let mut out = std::io::stdout().lock();
    for line in std::io::stdin().lock().lines() {
        let line = line?;
        let (what, rest) = line.split_once(' ').unwrap_or((&line, ""));
        let said = match (what, root) {
            ("root", Some(t)) => {
                writeln!(out, "root {} {}", t.sector, t.size)?;
                continue;
            }
            (_, None) => Said::refused(20),
            ("walk", _) => {
                let numbers: Vec<u32> = rest.split(' ').filter_map(|n| n.parse().ok()).collect();
                let [sector, size] = numbers[..] else {
                    panic!("walk SECTOR SIZE");
                };
                let t = Table { sector, size };
                match theirs::walk(v, t) {
                    Said::Listed(offsets) => {
                        listed(v, t, &offsets, &mut out)?;
                        continue;
                    }
                    said => said,
                }
            }
            (_, Some(t)) => theirs::path(v, t, rest, t),
        };
        match said {
            Said::Found { entry: e, headers } => {
                writeln!(out, "found {} {} {} {} {}", e.byte, e.sector, e.size, e.attributes, headers.unwrap_or(0))?
            }
            Said::Refused { number, .. } => writeln!(out, "refused {number}")?,
            Said::Panicked => writeln!(out, "panicked")?,
            Said::Listed(_) => unreachable!("listed above"),
        }
    }
    Ok(())
}
