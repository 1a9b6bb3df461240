//! The program `xdvdfs`: its arguments and its streams, handed to the library.
use std::io::{BufWriter, IsTerminal};
use std::process::ExitCode;
use xdvdfs_tool::{run, Screen};

fn main() -> ExitCode {
    let (out, err) = (std::io::stdout(), std::io::stderr());
    let screen =
        Screen { out: out.is_terminal(), err: err.is_terminal(), plain: std::env::var_os("NO_COLOR").is_some_and(|v| !v.is_empty()) };
    ExitCode::from(run(std::env::args_os(), &mut BufWriter::new(out.lock()), &mut err.lock(), screen))
}
