//! What the Rust alone says, outside document 01. None of these changes a map of the session; a panic is caught and told.
//!
//! - `rust-read BYTES NUMBERS`: `took IMAGE NUMBERS LEN KEYS`, the image that it writes again (both bits of a pair or neither), the
//!   map's own length, and the keys of its iterator as KEY=N joined by commas; or `refused WHY`, or `panicked WHY`
//! - `rust-get BYTES NUMBERS KEY`, `rust-remove BYTES NUMBERS KEY`: the same call on the map loaded from the image: `took N LEN`,
//!   `-` for no number
//! - `rust-put BYTES NUMBERS KEY N`: insert on the map loaded from the image, and then what `rust-read` says of it
//! - `rust-insert P KEY N`: `took LEN NODES` of the map with that key, of any length
//! - `rust-write P`: the image with the allocated bits as they stand
//! - `rust-part P PREFIX`: the same of the part that a split takes out, the prefix taken off
//! - `rust-split P PREFIX`: `PatriciaMap::split_by_prefix`: the image and numbers of the part, and how many of its own keys it finds
//! - `rust-levels N`: a key of 255 · N bytes, written: the records, the highest level and the last one
use crate::image::{from_image, to_image};
use crate::records::{levels, nodes, under};
use crate::words::{Word, hex, list, number};
use crate::{Map, image_of};
use std::panic::{AssertUnwindSafe, catch_unwind};

/// The answer, or what it panics with.
fn caught(ask: impl FnOnce() -> String) -> String {
    catch_unwind(AssertUnwindSafe(ask)).unwrap_or_else(|why| {
        let text = why.downcast_ref::<&str>().map(|s| s.to_string()).or(why.downcast_ref::<String>().cloned());
        format!("panicked {}", text.unwrap_or_default())
    })
}

fn keys(map: &Map) -> String {
    let all: Vec<String> = map.iter().map(|(key, n)| format!("{}={n}", hex(&key))).collect();
    if all.is_empty() { "-".into() } else { all.join(",") }
}

fn loaded(tree: &[u8], numbers: &[u64], then: impl FnOnce(Map) -> String) -> String {
    caught(|| match from_image::<Map>(tree, numbers) {
        Err(why) => format!("refused {why}"),
        Ok(map) => then(map),
    })
}

fn took(map: &Map) -> String {
    let (tree, numbers) = image_of(map);
    format!("took {} {} {} {}", hex(&tree), list(&numbers), map.len(), keys(map))
}

fn shown(n: Option<u64>) -> String {
    n.map_or("-".into(), |n| n.to_string())
}

fn split(map: &Map, prefix: &[u8]) -> String {
    caught(|| {
        let part = map.clone().split_by_prefix(prefix);
        let (tree, numbers) = image_of(&part);
        let found = part.iter().filter(|(key, _)| part.get(key).is_some()).count();
        format!("{} {} finds {found} of {}", hex(&tree), list(&numbers), part.len())
    })
}

fn deep(n: usize) -> String {
    caught(|| {
        let mut map = Map::new();
        map.insert(vec![7; 255 * n], 1);
        let all = levels(&to_image(&map).tree);
        format!("{} records, highest level {}, last level {}", all.len(), all.iter().max().unwrap(), all[all.len() - 1])
    })
}

/// The answer to one line, `None` where it is no question.
pub fn answer(maps: &[Map; 2], words: &[&[u8]]) -> Option<String> {
    Some(match (words[0], &words[1..]) {
        (b"rust-read", [tree, numbers]) => loaded(&tree.bytes()?, &numbers.numbers()?, |map| took(&map)),
        (b"rust-get", [tree, numbers, key]) => {
            let key = key.bytes()?;
            loaded(&tree.bytes()?, &numbers.numbers()?, |map| format!("took {} {}", shown(map.get(&key).copied()), map.len()))
        }
        (b"rust-remove", [tree, numbers, key]) => {
            let key = key.bytes()?;
            loaded(&tree.bytes()?, &numbers.numbers()?, |mut map| {
                let old = map.remove(&key);
                format!("took {} {}", shown(old), map.len())
            })
        }
        (b"rust-put", [tree, numbers, key, n]) => {
            let (key, n) = (key.bytes()?, number(n)?);
            loaded(&tree.bytes()?, &numbers.numbers()?, |mut map| {
                map.insert(&key, n);
                took(&map)
            })
        }
        (b"rust-insert", [p, key, n]) => {
            let (key, n) = (key.bytes()?, number(n)?);
            let mut map = maps[p.pool()?].clone();
            caught(|| {
                map.insert(&key, n);
                format!("took {} {}", map.len(), nodes(&to_image(&map).tree))
            })
        }
        (b"rust-write", [p]) => {
            let made = to_image(&maps[p.pool()?]);
            format!("{} {}", hex(&made.tree), list(&made.numbers))
        }
        (b"rust-part", [p, prefix]) => {
            let (p, prefix) = (p.pool()?, prefix.bytes()?);
            caught(|| {
                let made = to_image(&maps[p].clone().split_by_prefix(&prefix));
                format!("{} {}", hex(&under(&made.tree, prefix.len())), list(&made.numbers))
            })
        }
        (b"rust-split", [p, prefix]) => split(&maps[p.pool()?], &prefix.bytes()?),
        (b"rust-levels", [n]) => deep(number(n)? as usize),
        _ => return None,
    })
}
