//! The records of an image that the Rust has written: flags, label length, two bytes of level, label.

/// The records, one after another.
pub fn records(tree: &[u8]) -> Vec<&[u8]> {
    let mut left = tree;
    let mut all = Vec::new();
    while !left.is_empty() {
        let (one, rest) = left.split_at(4 + left[1] as usize);
        all.push(one);
        left = rest;
    }
    all
}

pub fn nodes(tree: &[u8]) -> usize {
    records(tree).len()
}

/// The level of each record.
pub fn levels(tree: &[u8]) -> Vec<u16> {
    records(tree).iter().map(|r| u16::from_be_bytes([r[2], r[3]])).collect()
}

/// The image with both bits of a flag pair or neither: the allocated bits say how the Rust has laid a node out.
pub fn pairs_agree(tree: &[u8]) -> Vec<u8> {
    let mut made = Vec::new();
    for record in records(tree) {
        let upper = record[0] & 0b10_1010;
        made.push(upper | upper >> 1);
        made.extend(&record[1..]);
    }
    made
}

/// The tree under a prefix of n bytes, the prefix taken off, of the image that `PatriciaMap::split_by_prefix` has made: below
/// the root comes a node, or a chain of nodes, with the prefix, and below that the node that was cut off. Where the prefix ends
/// inside a label, the two are merged: the rest of that label stays, and an empty root is put over it. Where it ends behind a
/// label, that node becomes the root, or its only child does, if that one has no label of its own.
pub fn under(tree: &[u8], n: usize) -> Vec<u8> {
    let all = records(tree);
    let label = |i: usize| &all[i][4..];
    let (mut i, mut passed) = (1, 0);
    while passed + label(i).len() < n {
        passed += label(i).len();
        i += 1;
    }
    if passed + label(i).len() == n && i + 1 < all.len() && label(i + 1).is_empty() {
        passed = n;
        i += 1;
    }
    let rest = &label(i)[n - passed..];
    let mut made = Vec::new();
    if !rest.is_empty() {
        made.extend([0b1100, 0, 0, 0]);
    }
    let lifted = (i - usize::from(!rest.is_empty())) as u16;
    for j in i..all.len() {
        let kept = if j == i { rest } else { label(j) };
        made.extend([all[j][0], kept.len() as u8]);
        made.extend((u16::from_be_bytes([all[j][2], all[j][3]]) - lifted).to_be_bytes());
        made.extend(kept);
    }
    made
}
