//! Stands in for write/fs/stdfs.rs: a file system of the tool, of which nothing is used here.
