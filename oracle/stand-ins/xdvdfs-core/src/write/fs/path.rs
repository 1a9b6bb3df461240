//! Stands in for write/fs/path.rs. It assumes that a path is its parts in order, that a joined path has one part more, and that paths are compared
//! by their parts.
use alloc::string::{String, ToString};
use alloc::vec::Vec;
use core::cmp::Ordering;

/// A path, lent: parts that stand somewhere, or a path and one part more.
#[derive(Debug, Copy, Clone)]
pub enum PathRef<'a> {
    Parts(&'a [String]),
    Join(&'a PathRef<'a>, &'a str),
}

#[derive(Default, Debug, Clone, PartialEq, Eq, PartialOrd, Ord, serde::Serialize, serde::Deserialize)]
pub struct PathVec(pub Vec<String>);

#[derive(Debug, Clone, PartialEq, Eq, PartialOrd, Ord)]
pub enum PathCow<'a> {
    Borrowed(PathRef<'a>),
    Owned(PathVec),
}

impl<'a> PathRef<'a> {
    pub fn join<'b>(&'b self, part: &'b str) -> PathRef<'b> {
        PathRef::Join(self, part)
    }

    pub fn parts(&self) -> Vec<String> {
        match self {
            PathRef::Parts(parts) => parts.to_vec(),
            PathRef::Join(front, last) => {
                let mut parts = front.parts();
                parts.push(last.to_string());
                parts
            }
        }
    }
}

impl PartialEq for PathRef<'_> {
    fn eq(&self, other: &Self) -> bool {
        self.parts() == other.parts()
    }
}

impl Eq for PathRef<'_> {}

impl PartialOrd for PathRef<'_> {
    fn partial_cmp(&self, other: &Self) -> Option<Ordering> {
        Some(self.cmp(other))
    }
}

impl Ord for PathRef<'_> {
    fn cmp(&self, other: &Self) -> Ordering {
        self.parts().cmp(&other.parts())
    }
}

impl PathVec {
    pub fn as_path_ref(&self) -> PathRef<'_> {
        PathRef::Parts(&self.0)
    }
}

impl<'a> From<&'a PathVec> for PathRef<'a> {
    fn from(path: &'a PathVec) -> Self {
        path.as_path_ref()
    }
}

impl<'a> From<PathRef<'a>> for PathCow<'a> {
    fn from(path: PathRef<'a>) -> Self {
        PathCow::Borrowed(path)
    }
}

impl PathCow<'_> {
    pub fn to_owned(&self) -> PathVec {
        match self {
            PathCow::Borrowed(path) => PathVec(path.parts()),
            PathCow::Owned(path) => path.clone(),
        }
    }
}
