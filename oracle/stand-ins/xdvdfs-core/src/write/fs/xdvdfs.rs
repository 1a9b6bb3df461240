//! Stands in for write/fs/xdvdfs.rs: a file system of the tool, of which nothing is used here.
