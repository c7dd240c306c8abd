//! The oracle: answers the commands of `box` by the Rust, on two maps named 0 and 1. Whatever the Rust has no notion of is
//! answered by the thin layer here, from document 01: the key limit (2), no room in 128 slots (4), an output that is too short
//! (5), the numbers of a refused image (`strict.rs`), and how many nodes a search looked at (`looked.rs`). Commands
//! that begin with `rust-` ask the Rust alone and change nothing.
mod ask;
mod image;
mod looked;
mod records;
mod strict;
mod words;

use image::{from_image, to_image};
use looked::looked;
use patricia_tree::PatriciaMap;
use records::{nodes, pairs_agree, under};
use std::io::{BufRead, BufReader, BufWriter, Write};
use words::{Word, hex, list, number};

pub type Map = PatriciaMap<u64>;

/// The slots of a pool, the bytes of a key, and the bytes of a line.
const SLOTS: usize = 128;
const KEY_MAX: usize = 4096;
const LINE_MAX: usize = 131_072;

/// What `write` prints: flags have both bits of a pair or neither.
pub fn image_of(map: &Map) -> (Vec<u8>, Vec<u64>) {
    let made = to_image(map);
    (pairs_agree(&made.tree), made.numbers)
}

/// The answer of a search, and how many nodes it looked at in the map as it stood.
fn searched(map: &Map, key: &[u8], answer: String) -> String {
    format!("{answer} /{}", looked(&to_image(map).tree, key))
}

fn insert(map: &mut Map, key: &[u8], n: u64) -> String {
    if key.len() > KEY_MAX {
        return "2".into();
    }
    // The Rust has room for any tree: no room is said of the tree that it would make.
    let mut made = map.clone();
    let old = made.insert(key, n);
    if nodes(&to_image(&made).tree) > SLOTS {
        return "4".into();
    }
    let answer = match old {
        None => "0".into(),
        Some(old) => format!("0 {old}"),
    };
    let told = searched(map, key, answer);
    *map = made;
    told
}

fn get(map: &Map, key: &[u8]) -> String {
    if key.len() > KEY_MAX {
        return "2".into();
    }
    let answer = match map.get(key) {
        None => "3".into(),
        Some(n) => format!("0 {n}"),
    };
    searched(map, key, answer)
}

fn remove(map: &mut Map, key: &[u8]) -> String {
    if key.len() > KEY_MAX {
        return "2".into();
    }
    let before = map.clone();
    let answer = match map.remove(key) {
        None => "3".into(),
        Some(n) => format!("0 {n}"),
    };
    searched(&before, key, answer)
}

fn longest(map: &Map, key: &[u8]) -> String {
    if key.len() > KEY_MAX {
        return "2".into();
    }
    let answer = match map.get_longest_common_prefix(key) {
        None => "3".into(),
        Some((part, n)) => format!("0 {} {n}", part.len()),
    };
    searched(map, key, answer)
}

fn shared(map: &Map, key: &[u8]) -> String {
    if key.len() > KEY_MAX {
        return "2".into();
    }
    searched(map, key, format!("0 {}", map.longest_common_prefix_len(key)))
}

fn walk(map: &Map, prefix: &[u8]) -> String {
    if prefix.len() > KEY_MAX {
        return "2".into();
    }
    let mut line = String::new();
    for (key, n) in map.iter_prefix(prefix) {
        line += &format!("{}={n} ", hex(&key));
    }
    line + "3"
}

/// One step of a walk that is handed in. The Rust has no such walk: its iterator under the prefix gives the keys in order, and the
/// first behind the last key given is the step's.
fn step(map: &Map, prefix: &[u8], last: Option<&[u8]>, room: usize) -> String {
    if prefix.len() > KEY_MAX || last.is_some_and(|last| last.len() > KEY_MAX) {
        return "2".into();
    }
    match map.iter_prefix(prefix).find(|(key, _)| last.is_none_or(|last| key.as_slice() > last)) {
        None => "3".into(),
        Some((key, _)) if key.len() > room => format!("5 {}", key.len()),
        Some((key, n)) => format!("0 {} {n}", hex(&key)),
    }
}

/// `Node::split_by_prefix` is not public; `PatriciaMap::split_by_prefix` calls it and puts the prefix over the node that it
/// gives, merged with that node where the two labels fit in one. `under` takes the prefix off again and puts the empty root over.
fn split(maps: &mut [Map; 2], p: usize, prefix: &[u8]) -> String {
    if prefix.len() > KEY_MAX {
        return "2".into();
    }
    let mut rest = maps[p].clone();
    let part = rest.split_by_prefix(prefix);
    if !prefix.is_empty() && part.is_empty() {
        return "3".into();
    }
    let made = to_image(&part);
    let tree = under(&made.tree, prefix.len());
    if nodes(&tree) > SLOTS {
        return "4".into();
    }
    maps[1 - p] = from_image(&tree, &made.numbers).expect("the Rust reads its own records");
    maps[p] = rest;
    "0".into()
}

fn counts(map: &Map) -> String {
    format!("0 {} {}", map.len(), nodes(&to_image(map).tree))
}

fn write(map: &Map) -> String {
    let (tree, numbers) = image_of(map);
    format!("0 {} {}", hex(&tree), list(&numbers))
}

/// The strict reader of document 01 decides; what it takes, the Rust has to take too, and to write again byte for byte, but
/// for allocated bits that stand alone.
fn read(map: &mut Map, tree: &[u8], numbers: &[u64]) -> String {
    if let Err(refusal) = strict::check(tree, numbers.len(), SLOTS) {
        return refusal;
    }
    match from_image::<Map>(tree, numbers) {
        Err(e) => format!("! the Rust refuses it: {e}"),
        Ok(made) if image_of(&made) != (pairs_agree(tree), numbers.to_vec()) => {
            "! the Rust writes another image".into()
        }
        Ok(made) => {
            *map = made;
            "0".into()
        }
    }
}

/// The answer to one line, `None` where it is no command.
fn answer(maps: &mut [Map; 2], line: &[u8]) -> Option<String> {
    let words: Vec<&[u8]> = line.split(|&b| b == b' ').collect();
    if words[0].starts_with(b"rust-") {
        return ask::answer(maps, &words);
    }
    let p = words.get(1)?.pool()?;
    Some(match (words[0], &words[2..]) {
        (b"make", []) => {
            maps[p] = Map::new();
            "0".into()
        }
        (b"clear", []) => {
            maps[p].clear();
            "0".into()
        }
        (b"insert", [key, n]) => {
            let (key, n) = (key.bytes()?, number(n)?);
            insert(&mut maps[p], &key, n)
        }
        (b"get", [key]) => get(&maps[p], &key.bytes()?),
        (b"remove", [key]) => remove(&mut maps[p], &key.bytes()?),
        (b"longest", [key]) => longest(&maps[p], &key.bytes()?),
        (b"shared", [key]) => shared(&maps[p], &key.bytes()?),
        (b"walk", [prefix]) => walk(&maps[p], &prefix.bytes()?),
        (b"step", [prefix, last, room]) => {
            let (prefix, room) = (prefix.bytes()?, number(room)? as usize);
            let last = if *last == b"." { None } else { Some(last.bytes()?) };
            if room > KEY_MAX {
                return None;
            }
            step(&maps[p], &prefix, last.as_deref(), room)
        }
        (b"split", [prefix, q]) => {
            let (prefix, q) = (prefix.bytes()?, q.pool()?);
            if p == q {
                return None;
            }
            split(maps, p, &prefix)
        }
        (b"counts", []) => counts(&maps[p]),
        (b"write", []) => write(&maps[p]),
        (b"read", [tree, numbers]) => {
            let (tree, numbers) = (tree.bytes()?, numbers.numbers()?);
            read(&mut maps[p], &tree, &numbers)
        }
        _ => return None,
    })
}

fn session() {
    let mut input = BufReader::new(std::io::stdin());
    let mut output = BufWriter::new(std::io::stdout());
    let mut maps: [Map; 2] = [Map::new(), Map::new()];
    let mut line = Vec::new();
    while input.read_until(b'\n', &mut line).expect("standard input") > 0 {
        if line.last() == Some(&b'\n') {
            line.pop();
        }
        if !line.is_empty() && line[0] != b'#' {
            let over = line.len() > LINE_MAX && !line.starts_with(b"rust-");
            let said = if over { None } else { answer(&mut maps, &line) };
            writeln!(output, "{}", said.as_deref().unwrap_or("?")).expect("standard output");
        }
        line.clear();
    }
    output.flush().expect("standard output");
}

/// The Rust goes down a tree by calling itself: the session runs on a stack of so many MiB, 1,024 if none are named.
fn main() {
    let args: Vec<String> = std::env::args().collect();
    let mib = match args.get(1).map(String::as_str) {
        Some("--stack") => args[2].parse().expect("MiB"),
        _ => 1024,
    };
    std::panic::set_hook(Box::new(|_| ()));
    std::thread::Builder::new().stack_size(mib << 20).spawn(session).expect("a thread").join().expect("the session ends");
}
