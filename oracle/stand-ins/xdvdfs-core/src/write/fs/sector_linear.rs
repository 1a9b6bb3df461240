//! Stands in for write/fs/sector_linear.rs: a file system of the tool, of which nothing is used here.
