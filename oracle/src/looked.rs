//! How many nodes a search looks at, counted by document 01's words on the records that the Rust writes of its tree.
use crate::records::records;

/// The root is looked at, and then, while key bytes remain, the children of the node come to, in order, as far as the
/// first whose first byte is not below the key's next byte. A child whose label the key goes on with is gone into. The
/// records stand in preorder: of a child that was passed over those below it, at a deeper level, are not looked at.
pub fn looked(tree: &[u8], key: &[u8]) -> usize {
    let (mut count, mut level, mut left) = (1, 1, key);
    for record in &records(tree)[1..] {
        let at = u16::from_be_bytes([record[2], record[3]]);
        if left.is_empty() || at < level {
            break;
        }
        if at > level {
            continue;
        }
        count += 1;
        let label = &record[4..];
        if label[0] < left[0] {
            continue;
        }
        let Some(rest) = left.strip_prefix(label) else {
            break;
        };
        left = rest;
        level += 1;
    }
    count
}
