//! What the program `xdvdfs` does, as a library, so that tests call it in their own process. Every answer about an image, a table or a plan comes from the proved
//! library through `xdvdfs_tables`; this crate opens files, splits paths, and puts answers into words or JSON.
#![deny(unsafe_code)] // but for the map of the image, image.rs
mod arguments;
mod check;
mod fault;
mod find;
mod image;
mod info;
mod limits;
mod listing;
mod manifest;
mod output;
mod place;
mod planning;
mod text;

use arguments::{Arguments, Command};
use clap::Parser;
use fault::Fault;
use output::Printer;
pub use output::Screen;
use std::ffi::OsString;
use std::io::Write;

/// Exit statuses: done; refused, or `check` found a fault; a usage fault.
pub const DONE: u8 = 0;
pub const REFUSED: u8 = 1;
pub const USAGE: u8 = 2;

/// Runs the program: its exit status. Answers go to `out`, refusals and usage faults to `err`. A reader that closes `out` early is no fault.
pub fn run(arguments: impl IntoIterator<Item = OsString>, out: &mut dyn Write, err: &mut dyn Write, screen: Screen) -> u8 {
    let parsed = match Arguments::try_parse_from(arguments) {
        Ok(parsed) => parsed,
        Err(told) => return tell_usage(&told, out, err, screen),
    };
    let name = parsed.command.name();
    let mut printer = Printer::new(out, screen, parsed.json);
    let answered = match &parsed.command {
        Command::Ls(a) => listing::ls(a, &mut printer),
        Command::Find(a) => find::find(a, &mut printer),
        Command::Check(a) => check::check(a, &mut printer),
        Command::Info(a) => info::info(a, &mut printer),
        Command::Limits(a) => limits::limits(a, &mut printer),
        Command::Plan(a) => planning::plan_image(a, &mut printer),
        Command::Table(a) => planning::write_one(a, &mut printer),
    };
    match answered.and_then(|status| printer.flush().map(|()| status)) {
        Ok(status) => status,
        Err(fault) => tell_fault(name, &fault, &mut printer, err),
    }
}

/// A fault in words on `err`, with a line of its own for what rule two finds, and with `--json` as an object on `out` too.
fn tell_fault(command: &str, fault: &Fault, printer: &mut Printer, err: &mut dyn Write) -> u8 {
    if fault.is_closed_pipe() {
        return DONE;
    }
    // nothing is left to be done about a stream that takes no words
    let _ = writeln!(err, "{} {fault}", printer.error_mark());
    if let Some(found) = fault.rule_two() {
        let _ = writeln!(err, "{} {found}", printer.error_mark());
    }
    if printer.json() && fault.status() == REFUSED {
        let _ = printer.object(&fault.told(command)).and_then(|()| printer.flush());
    }
    fault.status()
}

/// Help and version go to `out`, usage faults to `err`.
fn tell_usage(told: &clap::Error, out: &mut dyn Write, err: &mut dyn Write, screen: Screen) -> u8 {
    let styled = told.render();
    let written = match (told.use_stderr(), screen.colours_err(), screen.colours_out()) {
        (true, true, _) => write!(err, "{}", styled.ansi()),
        (true, false, _) => write!(err, "{styled}"),
        (false, _, true) => write!(out, "{}", styled.ansi()),
        (false, _, false) => write!(out, "{styled}"),
    };
    let _ = written.and_then(|()| out.flush());
    if told.use_stderr() {
        USAGE
    } else {
        DONE
    }
}
