//! Stands in for write/fs/memory.rs: a file system of the tool, of which nothing is used here.
