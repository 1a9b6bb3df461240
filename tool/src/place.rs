//! Where a path leads, part by part.
use crate::fault::{Fault, FoundByTwo};
use crate::image::Volume;
use crate::listing::Listed;
use crate::text::shown;
use xdvdfs_tables::{Entry, Error, Found, Rule, Table};

/// A part of a path that was found, and the table that it was found in.
#[derive(Clone, Copy, Debug)]
pub struct Step<'a> {
    pub table: Table,
    pub found: Found<'a>,
}

/// The path of a directory or a file as the image spells it: a slash and a name for each part, so the root's is empty.
#[derive(Clone, Debug, Default, PartialEq, Eq)]
pub struct Spelled(Vec<u8>);

impl Spelled {
    pub fn join(&self, name: &[u8]) -> Spelled {
        Spelled([&self.0[..], b"/", name].concat())
    }

    /// With `/` for the root.
    pub fn bytes(&self) -> &[u8] {
        if self.0.is_empty() {
            b"/"
        } else {
            &self.0
        }
    }

    pub fn shown(&self) -> String {
        shown(self.bytes())
    }
}

/// The parts of a path: leading slashes and one trailing slash do not count.
pub fn parts(path: &[u8]) -> Vec<&[u8]> {
    let start = path.iter().position(|&b| b != b'/').unwrap_or(path.len());
    let (_, rest) = path.split_at(start);
    let rest = rest.strip_suffix(b"/").unwrap_or(rest);
    if rest.is_empty() {
        return Vec::new();
    }
    rest.split(|&b| b == b'/').collect()
}

/// What following a path gives: the entry, its path, and the step of each part.
pub struct Followed<'a> {
    pub entry: Entry<'a>,
    pub path: Spelled,
    pub steps: Vec<Step<'a>>,
}

/// Follows a path under a rule. Where rule one does not find it and rule two does, the fault says so too.
pub fn follow<'a>(volume: &Volume<'a>, path: &[u8], rule: Rule) -> Result<Followed<'a>, Fault> {
    follow_by(volume, path, rule).map_err(|(what, error)| match (rule, error) {
        (Rule::One, Error::DoesNotExist { .. }) => Fault::not_found_by_one(what, error, found_by_two(volume, path)),
        _ => Fault::refused(what, error),
    })
}

fn found_by_two(volume: &Volume, path: &[u8]) -> Option<FoundByTwo> {
    let followed = follow_by(volume, path, Rule::Two).ok()?;
    let last = followed.steps.last()?;
    Some(FoundByTwo::new(&followed.path, last.table, Listed { offset: last.found.offset, entry: followed.entry }))
}

/// The entry is the library's answer to the whole path; the steps, its answers to each part, say where it stands and how much was read. Of a refusal what was asked, and it.
fn follow_by<'a>(volume: &Volume<'a>, path: &[u8], rule: Rule) -> Result<Followed<'a>, (String, Error)> {
    let answer = volume.window.find_path(volume.root, path, rule);
    let mut steps = Vec::new();
    let mut table = Some(volume.root);
    let mut walked = Spelled::default();
    // where the steps end early: what was sought there, and the refusal with its values, which a path's answer has not
    let mut ended = None;
    for part in parts(path) {
        let Some(here) = table else {
            ended = Some((format!("{} is a file", walked.shown()), Error::IsNotDirectory));
            break;
        };
        match volume.window.look_up(here, part, rule) {
            Ok(found) => {
                steps.push(Step { table: here, found });
                table = found.entry.header.table();
                walked = walked.join(found.entry.name);
            }
            Err(error) => {
                ended = Some((format!("{} in {}", shown(part), walked.shown()), error));
                break;
            }
        }
    }
    match (answer, ended) {
        (Ok(entry), _) => Ok(Followed { entry, path: walked, steps }),
        (Err(answer), Some((what, error))) if error.number() == answer.number() => Err((what, error)),
        (Err(answer), _) => Err((shown(path), answer)),
    }
}

/// A directory's path and its table. A path that has no part is the root.
pub fn directory(volume: &Volume, path: &[u8], rule: Rule) -> Result<(Spelled, Table), Fault> {
    if volume.window.find_path(volume.root, path, rule) == Err(Error::NoDirent) {
        return Ok((Spelled::default(), volume.root));
    }
    let followed = follow(volume, path, rule)?;
    match followed.entry.header.table() {
        Some(table) => Ok((followed.path, table)),
        None => Err(Fault::Unfit(format!("{} is a file, no directory", followed.path.shown()))),
    }
}

#[cfg(test)]
mod tests {
    use super::*;

    #[test]
    fn parts_of_a_path() {
        let all = |path: &str| parts(path.as_bytes()).iter().map(|p| String::from_utf8(p.to_vec()).unwrap()).collect::<Vec<_>>();
        for none in ["", "/", "//", "///"] {
            assert!(all(none).is_empty());
        }
        assert_eq!(all("a"), ["a"]);
        assert_eq!(all("//a/b/"), ["a", "b"]);
        assert_eq!(all("a//"), ["a", ""]);
        assert_eq!(all("a//b"), ["a", "", "b"]);
    }
}
