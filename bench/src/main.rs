//! The store and the Rust side by side, on the same keys and images, in one run: `driver PASSES`. A pass measures every call at
//! both sizes; a table has the medians over the passes, and the lowest and highest ratio inside one pass.
mod image;
mod pool;

use image::{Image, from_image, to_image};
use patricia_tree::PatriciaMap;
use pool::Pool;
use std::hint::black_box;
use std::time::{Duration, Instant};

/// One row of a pass: nanoseconds a call here, of the Rust, where it has such a call, and of the sketch in C, where that has it.
struct Row {
    what: &'static str,
    here: f64,
    rust: Option<f64>,
    sketch: Option<f64>,
}

fn row(what: &'static str, here: f64, rust: Option<f64>, sketch: Option<f64>) -> Row {
    Row { what, here, rust, sketch }
}

fn middle(mut values: Vec<f64>) -> f64 {
    values.sort_by(f64::total_cmp);
    values[values.len() / 2]
}

/// The median over five rounds of what one of `times` calls takes; `call` says itself how long it took.
fn timed(times: usize, mut call: impl FnMut() -> Duration) -> f64 {
    middle((0..5).map(|_| (0..times).map(|_| call()).sum::<Duration>().as_nanos() as f64 / times as f64).collect())
}

/// The same of a call that needs nothing put right before it: `times` of them are timed as one.
fn straight(times: usize, mut call: impl FnMut()) -> f64 {
    timed(1, || {
        let start = Instant::now();
        for _ in 0..times {
            call();
        }
        start.elapsed()
    }) / times as f64
}

fn once<T>(call: impl FnOnce() -> T) -> Duration {
    let start = Instant::now();
    black_box(call());
    start.elapsed()
}

/// The keys, the Rust's map of them, and the image that both can read.
struct Data {
    slots: usize,
    nodes: usize,
    names: Vec<Vec<u8>>,
    map: PatriciaMap<u64>,
    image: Image,
    few: usize,
}

impl Data {
    fn new(keys: usize, slots: usize) -> Data {
        let names: Vec<Vec<u8>> =
            (0..keys).map(|i| format!("/assets/public/shop{}/category{}/item{}", i % 25, i / 25 % 20, 4000 + i).into_bytes()).collect();
        let mut map = PatriciaMap::new();
        for (i, name) in names.iter().enumerate() {
            map.insert(name, i as u64);
        }
        let mut image = to_image(&map);
        // The Rust's own layout shows in the lower bit of a flag pair; ours has both bits or neither.
        let (mut at, mut nodes) = (0, 0);
        while at < image.tree.len() {
            let upper = image.tree[at] & 0b10_1010;
            image.tree[at] = upper | upper >> 1;
            at += 4 + image.tree[at + 1] as usize;
            nodes += 1;
        }
        Data { slots, nodes, names, map, image, few: if keys < 1000 { 2000 } else { 20 } }
    }

    /// The i-th of keys that are spread over all.
    fn name(&self, i: usize) -> &[u8] {
        &self.names[i * 7 % self.names.len()]
    }
}

fn searches(data: &Data, pool: &Pool) -> Vec<Row> {
    let mut i = 0;
    let mut next = || {
        i += 1;
        data.name(i)
    };
    let test = straight(data.few, || { black_box(pool.counts()); });
    let get = straight(data.few, || { black_box(pool.get(next())); });
    let longest = straight(data.few, || { black_box(pool.longest(next())); });
    // A thousand lookups of one key follow one test, whose share is taken off; the Rust looks one key up as often.
    let many = straight(data.few, || pool.gets(next(), 1000));
    let one = straight(data.few, || pool.gets(next(), 0));
    let rust_get = straight(20_000, || { black_box(data.map.get(next())); });
    let rust_longest = straight(20_000, || { black_box(data.map.get_longest_common_prefix(next())); });
    let rust_many = straight(data.few, || {
        let name = next();
        for _ in 0..1000 {
            black_box(data.map.get(black_box(name)));
        }
    });
    let sketch_test = straight(data.few, || assert!(black_box(pool.sketch_test())));
    let sketch_once = straight(data.few, || assert!(black_box(pool.sketch_test_once())));
    let sketch_many = straight(data.few, || {
        let name = next();
        for _ in 0..1000 {
            black_box(pool.sketch_get(black_box(name)));
        }
    });
    let nodes = data.nodes as f64;
    vec![
        row("counts: the test of the pool, and the keys", test, None, Some(sketch_test)),
        row("the same a node", test / nodes, None, Some(sketch_test / nodes)),
        row("the same beside the sketch of another form", test / nodes, None, Some(sketch_once / nodes)),
        row("get, one key after another", get, Some(rust_get), None),
        row("longest, one key after another", longest, Some(rust_longest), None),
        row("get without the test, one key again and again", (many - one) / 1000.0, Some(rust_many / 1000.0), Some(sketch_many / 1000.0)),
    ]
}

/// Some keys are taken out, one after another, and put back, which leaves the same tree.
fn changes(data: &Data, pool: &mut Pool, test: f64) -> Vec<Row> {
    let count = data.few.min(data.names.len() / 4);
    let rounds = data.few / count;
    let mut map = data.map.clone();
    let mut times: [Vec<f64>; 4] = Default::default();
    for _ in 0..5 {
        let mut sums = [Duration::ZERO; 4];
        for _ in 0..rounds {
            sums[0] += once(|| (0..count).for_each(|i| { black_box(pool.remove(data.name(i))); }));
            sums[1] += once(|| (0..count).for_each(|i| { black_box(pool.insert(data.name(i), (i * 7 % data.names.len()) as u64)); }));
            sums[2] += once(|| (0..count).for_each(|i| { black_box(map.remove(data.name(i))); }));
            sums[3] += once(|| (0..count).for_each(|i| { black_box(map.insert(data.name(i), 0)); }));
        }
        for (all, sum) in times.iter_mut().zip(sums) {
            all.push(sum.as_nanos() as f64 / (rounds * count) as f64);
        }
    }
    let [remove, insert, rust_remove, rust_insert] = times.map(middle);
    vec![
        row("insert of a new key", insert, Some(rust_insert), None),
        row("the same in tests of the pool", insert / test, None, None),
        row("remove", remove, Some(rust_remove), None),
        row("the same in tests of the pool", remove / test, None, None),
    ]
}

/// A split changes its tree: each starts from a copy, which is not timed.
fn splits(data: &Data, full: &Pool) -> Vec<Row> {
    let prefix = b"/assets/public/shop7/";
    let (mut pool, mut into) = (full.clone(), Pool::new(data.slots));
    let here = timed(data.few, || {
        pool.copy_from(full);
        once(|| pool.split(prefix, &mut into))
    });
    let rust = timed(data.few, || {
        let mut map = data.map.clone();
        let start = Instant::now();
        let part = black_box(map.split_by_prefix(prefix));
        let took = start.elapsed();
        assert_eq!(part.len(), into.counts().0);
        took
    });
    vec![row("split, a 25th of the keys", here, Some(rust), None)]
}

fn images(data: &Data, pool: &mut Pool) -> Vec<Row> {
    let (tree, numbers) = (&data.image.tree, &data.image.numbers);
    let (mut out, mut values) = (vec![0u8; tree.len()], vec![0u64; numbers.len()]);
    let write = straight(data.few, || { black_box(pool.write(&mut out, &mut values)); });
    let rust_write = straight(data.few, || { black_box(to_image(&data.map)); });
    assert_eq!((&out, &values), (tree, numbers));
    assert_eq!(from_image::<PatriciaMap<u64>>(tree, numbers).unwrap().len(), data.names.len());
    let read = straight(data.few, || pool.read(tree, numbers));
    let rust_read = straight(data.few, || { black_box(from_image::<PatriciaMap<u64>>(tree, numbers).unwrap()); });
    let sketch_write = straight(data.few, || { black_box(pool.sketch_write(&mut out, &mut values)); });
    assert_eq!((&out, &values), (tree, numbers));
    let mut other = Pool::new(data.slots);
    let sketch_read = straight(data.few, || other.sketch_read(tree, numbers));
    assert!(other.write(&mut out, &mut values) == (tree.len(), numbers.len()) && &out == tree && &values == numbers);
    vec![row("write", write, Some(rust_write), Some(sketch_write)), row("read", read, Some(rust_read), Some(sketch_read))]
}

fn pass(data: &Data) -> Vec<Row> {
    let mut pool = Pool::new(data.slots);
    pool.read(&data.image.tree, &data.image.numbers);
    assert!(data.names.iter().step_by(data.names.len() / 40).all(|name| Some(&pool.get(name)) == data.map.get(name)));
    let mut rows = searches(data, &pool);
    rows.extend(changes(data, &mut pool, rows[0].here));
    rows.extend(splits(data, &pool));
    rows.extend(images(data, &mut pool));
    rows
}

fn figure(value: f64) -> String {
    if value < 10.0 { format!("{value:.2}") } else { format!("{value:.0}") }
}

fn table(data: &Data, passes: &[Vec<Row>]) {
    println!("\n{} keys, {} nodes, {} slots; nanoseconds a call, medians of {} passes\n", data.names.len(), data.nodes, data.slots, passes.len());
    println!("| call | here | sketch in C | Rust | Rust / here | lowest to highest |\n|---|---|---|---|---|---|");
    for at in 0..passes[0].len() {
        let column = |of: &dyn Fn(&Row) -> f64| passes.iter().map(|rows| of(&rows[at])).collect::<Vec<f64>>();
        let here = column(&|row| row.here);
        let spread = |values: &[f64]| format!("{} to {}", figure(values.iter().copied().fold(f64::MAX, f64::min)), figure(values.iter().copied().fold(0.0, f64::max)));
        let what = passes[0][at].what;
        let sketch = passes[0][at].sketch.map_or(String::new(), |_| figure(middle(column(&|row| row.sketch.unwrap()))));
        if passes[0][at].rust.is_none() {
            println!("| {what} | {} | {sketch} | | | {} |", figure(middle(here.clone())), spread(&here));
            continue;
        }
        let rust = column(&|row| row.rust.unwrap());
        let ratio = column(&|row| row.rust.unwrap() / row.here);
        println!("| {what} | {} | {sketch} | {} | {:.3} | {:.3} to {:.3} |", figure(middle(here)), figure(middle(rust)), middle(ratio.clone()), ratio.iter().copied().fold(f64::MAX, f64::min), ratio.iter().copied().fold(0.0, f64::max));
    }
}

fn main() {
    let passes = std::env::args().nth(1).map_or(5, |text| text.parse().expect("a number of passes"));
    for (keys, slots) in [(80, 128), (10_000, 16_384)] {
        let data = Data::new(keys, slots);
        let rows: Vec<Vec<Row>> = (0..passes).map(|_| pass(&data)).collect();
        table(&data, &rows);
    }
}
