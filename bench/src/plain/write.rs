//! The writer once more, written from docs/SCOPE.md with no thought of speed.
use super::raised;
use crate::{Job, New, Turns, Wrote};
use std::cmp::Ordering;
use std::collections::HashSet;

/// How many entries an arena can hold at most, and the largest size of a directory.
pub const MOST: usize = 16_384;
const LARGEST: u32 = 4_294_965_248;

/// A tree of the numbers of entries, with heights.
type Tree = Option<Box<Node>>;

struct Node {
    left: Tree,
    key: usize,
    right: Tree,
    height: i32,
}

fn height(t: &Tree) -> i32 {
    t.as_ref().map_or(0, |n| n.height)
}

fn node(left: Tree, key: usize, right: Tree) -> Box<Node> {
    let height = 1 + height(&left).max(height(&right));
    Box::new(Node { left, key, right, height })
}

fn turned_right(n: Node) -> Box<Node> {
    let l = n.left.expect("a left child");
    node(l.left, l.key, Some(node(l.right, n.key, n.right)))
}

fn turned_left(n: Node) -> Box<Node> {
    let r = n.right.expect("a right child");
    node(Some(node(n.left, n.key, r.left)), r.key, r.right)
}

/// The balance is left height minus right height, and -1, 0 or 1 afterwards.
fn balanced(mut n: Box<Node>) -> Box<Node> {
    match height(&n.left) - height(&n.right) {
        2 => {
            let l = n.left.take().expect("a left child");
            n.left = Some(if height(&l.left) < height(&l.right) { turned_left(*l) } else { l });
            turned_right(*n)
        }
        -2 => {
            let r = n.right.take().expect("a right child");
            n.right = Some(if height(&r.right) < height(&r.left) { turned_right(*r) } else { r });
            turned_left(*n)
        }
        _ => n,
    }
}

fn inserted(t: Tree, key: usize, order: &dyn Fn(usize) -> Ordering) -> Box<Node> {
    let Some(n) = t else { return node(None, key, None) };
    let Node { left, key: own, right, .. } = *n;
    match order(own) {
        Ordering::Less => balanced(node(Some(inserted(left, key, order)), own, right)),
        _ => balanced(node(left, own, Some(inserted(right, key, order)))),
    }
}

fn preorder(t: &Tree, list: &mut Vec<usize>) {
    if let Some(n) = t {
        list.push(n.key);
        preorder(&n.left, list);
        preorder(&n.right, list);
    }
}

/// Root, and of each node left, right, parent and height, with 65,535 for none.
fn told(t: &Tree, count: usize) -> (u16, Vec<[u16; 4]>) {
    fn of(t: &Tree) -> u16 {
        t.as_ref().map_or(65535, |n| n.key as u16)
    }
    fn go(t: &Tree, parent: u16, nodes: &mut [[u16; 4]]) {
        if let Some(n) = t {
            nodes[n.key] = [of(&n.left), of(&n.right), parent, n.height as u16];
            go(&n.left, n.key as u16, nodes);
            go(&n.right, n.key as u16, nodes);
        }
    }
    let mut nodes = vec![[0; 4]; count];
    go(t, 65535, &mut nodes);
    (of(t), nodes)
}

/// The number of an entry by itself: 1, 2, 3, 5, or 0.
fn refusal(new: &New) -> u32 {
    if new.name.is_empty() {
        1
    } else if new.name.iter().any(|&b| b == 0 || b > 127) {
        2
    } else if new.name.len() > 255 {
        3
    } else if new.directory && new.size > LARGEST {
        5
    } else {
        0
    }
}

/// The sectors that a length takes.
pub fn sectors_for(length: u64) -> u64 {
    length.div_ceil(2048).max(1)
}

/// The size that is written of an entry.
pub fn stored(new: &New) -> u32 {
    if new.directory {
        new.size.next_multiple_of(2048)
    } else {
        new.size
    }
}

/// Where each entry of the preorder starts, and the last end.
fn places(list: &[&New], order: &[usize]) -> (Vec<u64>, u64) {
    let (mut at, mut end) = (vec![0; list.len()], 0u64);
    for &i in order {
        let length = (14 + list[i].name.len() as u64).next_multiple_of(4);
        if end / 2048 != (end + length - 1) / 2048 {
            end = end.next_multiple_of(2048);
        }
        at[i] = end;
        end += length;
    }
    (at, if list.is_empty() { 2048 } else { end })
}

fn bytes_of(list: &[&New], tree: &[[u16; 4]], at: &[u64], sectors: &[u64], size: u64) -> Vec<u8> {
    let mut out = vec![255; size.next_multiple_of(2048) as usize];
    for (i, new) in list.iter().enumerate() {
        let link = |child: u16| if child == 65535 { 0 } else { (at[child as usize] / 4) as u16 };
        let mut entry = Vec::new();
        entry.extend(link(tree[i][0]).to_le_bytes());
        entry.extend(link(tree[i][1]).to_le_bytes());
        entry.extend((sectors[i] as u32).to_le_bytes());
        entry.extend(stored(new).to_le_bytes());
        entry.extend([if new.directory { 16 } else { 32 }, new.name.len() as u8]);
        entry.extend(&new.name);
        out[at[i] as usize..at[i] as usize + entry.len()].copy_from_slice(&entry);
    }
    out
}

/// The table of a tree of entries: 7, 8, 9, or the bytes.
fn table(list: &[&New], tree: &Tree, first: u32, room: usize) -> Wrote {
    let mut order = Vec::new();
    preorder(tree, &mut order);
    let (at, size) = places(list, &order);
    let refused = |number| Wrote::Refused { number, entry: None };
    if at.iter().any(|at| at / 4 > 65_535) {
        return refused(7);
    }
    let (mut sectors, mut next) = (vec![0; list.len()], first as u64);
    for &i in &order {
        sectors[i] = next;
        next += sectors_for(stored(list[i]) as u64);
    }
    if next > u32::MAX as u64 {
        return refused(8);
    }
    if (room as u64) < size.next_multiple_of(2048) {
        return refused(9);
    }
    let bytes = bytes_of(list, &told(tree, list.len()).1, &at, &sectors, size);
    Wrote::Done { size: size as u32, next: next as u32, bytes }
}

/// Each entry added in turn to an arena of `job.places`, a refused one left out, and the table of those that were taken.
pub fn add_in_turn(job: &Job) -> Turns {
    let (mut tree, mut list, mut numbers) = (None, Vec::<&New>::new(), Vec::new());
    let (mut keys, mut seen) = (Vec::<Vec<u8>>::new(), HashSet::new());
    for new in &job.list {
        let key = raised(&new.name);
        let number = match refusal(new) {
            0 if seen.contains(&key) => 4,
            0 if list.len() == job.places || list.len() >= MOST => 6,
            number => number,
        };
        numbers.push(number);
        if number == 0 {
            tree = Some(inserted(tree, list.len(), &|other| key.cmp(&keys[other])));
            list.push(new);
            seen.insert(key.clone());
            keys.push(key);
        }
    }
    let told = told(&tree, list.len());
    Turns { numbers, end: table(&list, &tree, job.first, job.room), tree: Some(told) }
}

/// The preorder of a list of entries that are taken, where each starts, and the last end.
pub fn laid(list: &[New]) -> (Vec<usize>, Vec<u64>, u64) {
    let keys: Vec<Vec<u8>> = list.iter().map(|new| raised(&new.name)).collect();
    let (mut tree, mut order) = (None, Vec::new());
    for i in 0..list.len() {
        tree = Some(inserted(tree, i, &|other| keys[i].cmp(&keys[other])));
    }
    preorder(&tree, &mut order);
    let (at, end) = places(&list.iter().collect::<Vec<_>>(), &order);
    (order, at, end)
}

/// A whole list: the first entry that is refused, else its table.
pub fn whole(turns: &Turns) -> Wrote {
    match turns.numbers.iter().position(|&number| number != 0) {
        Some(i) => Wrote::Refused { number: turns.numbers[i], entry: Some(i as u32) },
        None => turns.end.clone(),
    }
}
