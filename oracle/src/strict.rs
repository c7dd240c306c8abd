//! Document 01's order of tests on an image, with request 2's rule of flags, which the Rust has no counterpart of. Written
//! from those two alone.

struct Reading<'a> {
    tree: &'a [u8],
    at: usize,
    numbers: usize,
    nodes: usize,
}

/// What a node leaves to its parent: whether a sibling follows, and its first byte.
struct Child {
    sibling: bool,
    first: u8,
}

fn refusal(number: u32, at: usize) -> Result<Child, String> {
    Err(format!("{number} {at}"))
}

impl Reading<'_> {
    fn node(&mut self, level: usize, above: usize, elder: Option<u8>) -> Result<Child, String> {
        let at = self.at;
        let root = level == 0;
        let left = &self.tree[at..];
        if left.len() < 4 {
            return refusal(6, at);
        }
        let pairs = [1, 4, 16].map(|low: u8| (left[0] & low != 0, left[0] & low << 1 != 0));
        let [number, child, sibling] = pairs.map(|(_, initialised)| initialised);
        let lacking = pairs.iter().any(|&(allocated, initialised)| initialised && !allocated);
        if left[0] >= 64 || lacking || (root && sibling) {
            return refusal(7, at);
        }
        if usize::from(left[2]) * 256 + usize::from(left[3]) != level {
            return refusal(8, at);
        }
        let len = usize::from(left[1]);
        if root != (len == 0) {
            return refusal(9, at);
        }
        if left.len() - 4 < len {
            return refusal(6, at);
        }
        let first = if root { 0 } else { left[4] };
        if elder.is_some_and(|elder| first <= elder) {
            return refusal(10, at);
        }
        if above + len > 4096 {
            return Err("2".into());
        }
        if !root && !number && !child {
            return refusal(11, at);
        }
        if number && self.numbers == 0 {
            return refusal(12, at);
        }
        self.numbers -= usize::from(number);
        self.nodes += 1;
        self.at = at + 4 + len;
        if child {
            self.children(level + 1, above + len)?;
        }
        Ok(Child { sibling, first })
    }

    fn children(&mut self, level: usize, above: usize) -> Result<(), String> {
        let mut last = self.node(level, above, None)?;
        while last.sibling {
            last = self.node(level, above, Some(last.first))?;
        }
        Ok(())
    }
}

/// Nothing for an image that document 01 takes, or the number and the offset of its refusal.
pub fn check(tree: &[u8], numbers: usize, slots: usize) -> Result<(), String> {
    let mut reading = Reading { tree, at: 0, numbers, nodes: 0 };
    reading.node(0, 0, None)?;
    if reading.at < tree.len() {
        return Err(format!("13 {}", reading.at));
    }
    if reading.numbers > 0 {
        return Err(format!("12 {}", tree.len()));
    }
    if reading.nodes > slots {
        return Err("4".into());
    }
    Ok(())
}
