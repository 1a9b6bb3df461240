//! Where answers go: text, coloured on a terminal alone, or one JSON object on a line of its own.
use crate::fault::Fault;
use serde::Serialize;
use std::fmt;
use std::io::Write;

/// What the two streams lead to. `plain`: no colours are wanted even on a terminal.
#[derive(Clone, Copy, Debug)]
pub struct Screen {
    pub out: bool,
    pub err: bool,
    pub plain: bool,
}

impl Screen {
    pub fn colours_out(self) -> bool {
        self.out && !self.plain
    }

    pub fn colours_err(self) -> bool {
        self.err && !self.plain
    }
}

#[derive(Clone, Copy)]
pub enum Colour {
    Directory,
    Good,
    Bad,
    Faint,
}

pub struct Printer<'a> {
    out: &'a mut dyn Write,
    screen: Screen,
    json: bool,
}

impl<'a> Printer<'a> {
    pub fn new(out: &'a mut dyn Write, screen: Screen, json: bool) -> Printer<'a> {
        Printer { out, screen, json }
    }

    /// Whether the answer is wanted as JSON.
    pub fn json(&self) -> bool {
        self.json
    }

    pub fn screen(&self) -> Screen {
        self.screen
    }

    pub fn line(&mut self, text: impl fmt::Display) -> Result<(), Fault> {
        Ok(writeln!(self.out, "{text}")?)
    }

    pub fn object(&mut self, answer: &impl Serialize) -> Result<(), Fault> {
        serde_json::to_writer(&mut *self.out, answer).map_err(|e| Fault::Output(e.into()))?;
        Ok(writeln!(self.out)?)
    }

    pub fn bytes(&mut self, bytes: &[u8]) -> Result<(), Fault> {
        Ok(self.out.write_all(bytes)?)
    }

    pub fn flush(&mut self) -> Result<(), Fault> {
        Ok(self.out.flush()?)
    }

    /// The text in a colour, where there are any. It holds no control byte of its own: names go through `text::shown` first.
    pub fn coloured(&self, colour: Colour, text: &str) -> String {
        paint(self.screen.colours_out(), colour, text)
    }

    /// What a line on the error stream begins with.
    pub fn error_mark(&self) -> String {
        paint(self.screen.colours_err(), Colour::Bad, "xdvdfs:")
    }
}

fn paint(on: bool, colour: Colour, text: &str) -> String {
    let code = match colour {
        Colour::Directory => "1;34",
        Colour::Good => "32",
        Colour::Bad => "1;31",
        Colour::Faint => "2",
    };
    if on {
        format!("\x1b[{code}m{text}\x1b[0m")
    } else {
        text.to_owned()
    }
}

/// The digits of a number, for the width of a column.
pub fn width(greatest: u32) -> usize {
    greatest.to_string().len()
}
