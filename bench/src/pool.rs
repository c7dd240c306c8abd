//! The store behind its C interface (`include/yarnhollow.h`). Every call is expected to be done.
#[link(name = "host", kind = "static")]
unsafe extern "C" {
    fn yarnhollow_get(labels: *const u8, labels_len: usize, words: *const u32, words_len: usize, key: *const u8, key_len: usize, number: &mut u64, looked: &mut usize) -> u32;
    fn yarnhollow_insert(labels: *mut u8, labels_len: usize, words: *mut u32, words_len: usize, key: *const u8, key_len: usize, number: u64, had_old: &mut u32, old: &mut u64, looked: &mut usize) -> u32;
    fn yarnhollow_remove(labels: *mut u8, labels_len: usize, words: *mut u32, words_len: usize, key: *const u8, key_len: usize, old: &mut u64, looked: &mut usize) -> u32;
    fn yarnhollow_longest(labels: *const u8, labels_len: usize, words: *const u32, words_len: usize, query: *const u8, query_len: usize, prefix_length: &mut usize, number: &mut u64, looked: &mut usize) -> u32;
    fn yarnhollow_split(labels: *mut u8, labels_len: usize, words: *mut u32, words_len: usize, prefix: *const u8, prefix_len: usize, labels2: *mut u8, labels2_len: usize, words2: *mut u32, words2_len: usize) -> u32;
    fn yarnhollow_counts(labels: *const u8, labels_len: usize, words: *const u32, words_len: usize, keys: &mut usize, nodes: &mut usize) -> u32;
    fn yarnhollow_write(labels: *const u8, labels_len: usize, words: *const u32, words_len: usize, tree: *mut u8, tree_len: usize, numbers: *mut u64, numbers_len: usize, tree_length: &mut usize, numbers_length: &mut usize) -> u32;
    fn yarnhollow_read(labels: *mut u8, labels_len: usize, words: *mut u32, words_len: usize, tree: *const u8, tree_len: usize, numbers: *const u64, numbers_len: usize, offset: &mut usize) -> u32;
}

/// Lookups without the test, which only the benchmark has.
#[link(name = "probe", kind = "static")]
unsafe extern "C" {
    fn probe_gets(labels: *const u8, labels_len: usize, words: *const u32, words_len: usize, key: *const u8, key_len: usize, times: usize) -> u32;
}

/// The passes as a sketch in C, `bench/sketch.c`.
#[link(name = "sketch", kind = "static")]
unsafe extern "C" {
    fn sketch_test(labels: *const u8, words: *const u32, slots: usize) -> i32;
    fn sketch_test_once(labels: *const u8, words: *const u32, slots: usize) -> i32;
    fn sketch_get(labels: *const u8, words: *const u32, key: *const u8, key_len: usize) -> u64;
    fn sketch_write(labels: *const u8, words: *const u32, slots: usize, out: *mut u8, room: usize, numbers: *mut u64, numbers_room: usize) -> usize;
    fn sketch_read(labels: *mut u8, words: *mut u32, slots: usize, tree: *const u8, tree_len: usize, numbers: *const u64, numbers_len: usize) -> i32;
}

#[derive(Clone, PartialEq)]
pub struct Pool {
    labels: Vec<u8>,
    words: Vec<u32>,
}

fn done(number: u32) {
    assert_eq!(number, 0);
}

impl Pool {
    pub fn new(slots: usize) -> Pool {
        Pool { labels: vec![0; 255 * slots], words: vec![0; 8 * slots + 8] }
    }

    pub fn copy_from(&mut self, other: &Pool) {
        self.labels.copy_from_slice(&other.labels);
        self.words.copy_from_slice(&other.words);
    }

    pub fn counts(&self) -> (usize, usize) {
        let (mut keys, mut nodes) = (0, 0);
        done(unsafe { yarnhollow_counts(self.labels.as_ptr(), self.labels.len(), self.words.as_ptr(), self.words.len(), &mut keys, &mut nodes) });
        (keys, nodes)
    }

    pub fn get(&self, key: &[u8]) -> u64 {
        let (mut number, mut looked) = (0, 0);
        done(unsafe { yarnhollow_get(self.labels.as_ptr(), self.labels.len(), self.words.as_ptr(), self.words.len(), key.as_ptr(), key.len(), &mut number, &mut looked) });
        number
    }

    pub fn gets(&self, key: &[u8], times: usize) {
        done(unsafe { probe_gets(self.labels.as_ptr(), self.labels.len(), self.words.as_ptr(), self.words.len(), key.as_ptr(), key.len(), times) });
    }

    pub fn longest(&self, query: &[u8]) -> (usize, u64) {
        let (mut prefix_length, mut number, mut looked) = (0, 0, 0);
        done(unsafe { yarnhollow_longest(self.labels.as_ptr(), self.labels.len(), self.words.as_ptr(), self.words.len(), query.as_ptr(), query.len(), &mut prefix_length, &mut number, &mut looked) });
        (prefix_length, number)
    }

    pub fn insert(&mut self, key: &[u8], number: u64) -> Option<u64> {
        let (mut had_old, mut old, mut looked) = (0, 0, 0);
        done(unsafe { yarnhollow_insert(self.labels.as_mut_ptr(), self.labels.len(), self.words.as_mut_ptr(), self.words.len(), key.as_ptr(), key.len(), number, &mut had_old, &mut old, &mut looked) });
        (had_old == 1).then_some(old)
    }

    pub fn remove(&mut self, key: &[u8]) -> u64 {
        let (mut old, mut looked) = (0, 0);
        done(unsafe { yarnhollow_remove(self.labels.as_mut_ptr(), self.labels.len(), self.words.as_mut_ptr(), self.words.len(), key.as_ptr(), key.len(), &mut old, &mut looked) });
        old
    }

    pub fn split(&mut self, prefix: &[u8], into: &mut Pool) {
        done(unsafe {
            yarnhollow_split(self.labels.as_mut_ptr(), self.labels.len(), self.words.as_mut_ptr(), self.words.len(), prefix.as_ptr(), prefix.len(), into.labels.as_mut_ptr(), into.labels.len(), into.words.as_mut_ptr(), into.words.len())
        });
    }

    pub fn read(&mut self, tree: &[u8], numbers: &[u64]) {
        let mut offset = 0;
        done(unsafe { yarnhollow_read(self.labels.as_mut_ptr(), self.labels.len(), self.words.as_mut_ptr(), self.words.len(), tree.as_ptr(), tree.len(), numbers.as_ptr(), numbers.len(), &mut offset) });
    }

    pub fn write(&self, tree: &mut [u8], numbers: &mut [u64]) -> (usize, usize) {
        let (mut tree_length, mut numbers_length) = (0, 0);
        done(unsafe {
            yarnhollow_write(self.labels.as_ptr(), self.labels.len(), self.words.as_ptr(), self.words.len(), tree.as_mut_ptr(), tree.len(), numbers.as_mut_ptr(), numbers.len(), &mut tree_length, &mut numbers_length)
        });
        (tree_length, numbers_length)
    }

    fn slots(&self) -> usize {
        self.labels.len() / 255
    }

    pub fn sketch_test(&self) -> bool {
        unsafe { sketch_test(self.labels.as_ptr(), self.words.as_ptr(), self.slots()) == 1 }
    }

    pub fn sketch_test_once(&self) -> bool {
        unsafe { sketch_test_once(self.labels.as_ptr(), self.words.as_ptr(), self.slots()) == 1 }
    }

    pub fn sketch_get(&self, key: &[u8]) -> u64 {
        unsafe { sketch_get(self.labels.as_ptr(), self.words.as_ptr(), key.as_ptr(), key.len()) }
    }

    pub fn sketch_write(&self, tree: &mut [u8], numbers: &mut [u64]) -> usize {
        unsafe { sketch_write(self.labels.as_ptr(), self.words.as_ptr(), self.slots(), tree.as_mut_ptr(), tree.len(), numbers.as_mut_ptr(), numbers.len()) }
    }

    pub fn sketch_read(&mut self, tree: &[u8], numbers: &[u64]) {
        assert_eq!(unsafe { sketch_read(self.labels.as_mut_ptr(), self.words.as_mut_ptr(), self.slots(), tree.as_ptr(), tree.len(), numbers.as_ptr(), numbers.len()) }, 1);
    }
}
