//! XDVDFS directory tables, read and written by proved code.
//!
//! A safe skin over libcapi.a (`(cd crates/capi && rt lib)`): slices in, `Result<_, Error>` out. Every number and every byte is accepted: bad input is an [`Error`], whose message
//! says in words what is wrong. The date of a [`Stamp`], and the stamp of a date, is worked out in this crate, tested and not proved.
//!
//! ```
//! use xdvdfs_tables::{write_table, Kind, NewEntry, Rule, Table, Window};
//!
//! let (bytes, written) = write_table(&[NewEntry { name: b"ab", kind: Kind::File, size: 5 }], 33)?;
//! let table = Table { sector: 100, size: written.size };
//! let window = Window { bytes: &bytes, first: 100 };
//! let found = window.look_up(table, b"AB", Rule::Two)?;
//! assert_eq!((found.entry.name, found.entry.header.sector, found.headers), (&b"ab"[..], 33, 1));
//! # Ok::<(), xdvdfs_tables::Error>(())
//! ```
mod date;
mod error;
mod limits;
mod plan;
mod read;
mod sys;
mod write;

pub use date::{BadDate, Date, Stamp};
pub use error::Error;
pub use limits::Limits;
pub use plan::{plan, Content, Plan, PlanEntry};
pub use read::{read_descriptor, Descriptor, Entry, Found, Header, Rule, Table, Window};
pub use write::{
    required_sectors, write_descriptor, write_list, write_table, Arena, Kind, List, NewEntry, Scratch, SectorCounter, Written,
};

#[cfg(test)]
mod date_tests;
#[cfg(test)]
mod empty_slices;
#[cfg(test)]
mod limits_tests;
#[cfg(test)]
mod tests;
