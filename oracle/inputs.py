# Inputs for the box and the oracle: lists of commands, the same at every run.
import importlib.machinery, importlib.util, itertools, os, random, sys

here = os.path.dirname(os.path.abspath(__file__))


def load_verdicts():
    sys.dont_write_bytecode = True
    loader = importlib.machinery.SourceFileLoader('verdicts', os.path.join(here, '..', 'bench', 'verdicts'))
    module = importlib.util.module_from_spec(importlib.util.spec_from_loader('verdicts', loader))
    loader.exec_module(module)
    return module


verdicts = load_verdicts()

# Stored numbers at which a half, a sign or the width could go wrong.
BOUNDARIES = (0, (1 << 32) - 1, 1 << 32, 1 << 63, (1 << 64) - 1)


def hexed(key):
    return key.hex() or '-'


def listed(numbers):
    return ','.join(map(str, numbers)) or '-'


def words(alphabet, most):
    return [bytes(w) for n in range(most + 1) for w in itertools.product(alphabet, repeat=n)]


def look(p, queries):
    for q in queries:
        for name in ('get', 'longest', 'shared', 'walk'):
            yield '%s %d %s' % (name, p, hexed(q))


# One step of a walk that is handed in; no last key means that none was given.
def step(p, prefix, last, room):
    return 'step %d %s %s %d' % (p, hexed(prefix), '.' if last is None else hexed(last), room)


def show(p):
    return ['counts %d' % p, 'write %d' % p, 'walk %d -' % p]


def build(p, keys):
    return ['make %d' % p] + ['insert %d %s %d' % (p, hexed(k), i) for i, k in enumerate(keys, 1)]


# Every set of keys of up to three letters out of two: its image, its counts, its walk, and that of what a removal or a split leaves.
def every_set():
    keys = words(b'ab', 3)
    for chosen in range(1 << len(keys)):
        here = [k for i, k in enumerate(keys) if chosen >> i & 1]
        yield from build(0, here)
        yield from show(0)
        yield 'split 0 %s 1' % hexed(keys[chosen % len(keys)])
        yield from show(0) + show(1)
        for k in here[:4]:
            yield 'remove 0 %s' % hexed(k)
            yield 'write 0'


# Every set of keys of up to two letters: each look, each step, each removal, each split, from the same start.
def every_look():
    keys, queries = words(b'ab', 2), words(b'abc', 3)
    for chosen in range(1 << len(keys)):
        here = [k for i, k in enumerate(keys) if chosen >> i & 1]
        yield from build(0, here)
        yield from look(0, queries)
        yield from (step(0, q, last, room) for q in keys for last in [None] + keys for room in (1, 2))
        for q in keys:
            yield from build(0, here) + ['remove 0 %s' % hexed(q)] + show(0)
            yield from build(0, here) + ['split 0 %s 1' % hexed(q)] + show(0) + show(1)


# Up to five of the keys of up to two letters, in every order.
def every_order():
    for n in range(6):
        for order in itertools.permutations(words(b'ab', 2), n):
            yield from build(0, order)
            yield 'write 0'


EDGES = [0, 1, 2, 9, 10, 11, 244, 245, 254, 255, 256, 257, 265, 266, 500, 509, 510, 511, 512, 765, 766, 4095, 4096, 4097]


# A key around a boundary: nearly all one byte, so that keys share much.
def long_key(r, edges):
    n = r.choice(edges)
    key = bytearray(b'\x07' * n)
    for _ in range(r.choice((0, 0, 0, 1, 1, 2))):
        if n:
            key[r.choice((n - 1, r.randrange(n), min(n - 1, 254), min(n - 1, 255)))] = r.choice((6, 8, 255, 0))
    return bytes(key)


def short_key(r):
    return bytes(r.choice(b'abc/') for _ in range(r.choice((0, 1, 2, 3, 4, 5, 8))))


KINDS = ['insert'] * 9 + ['get', 'remove', 'remove', 'longest', 'shared', 'walk', 'step', 'split', 'counts', 'write', 'clear', 'make']


def one(r, kind, key):
    p = r.randrange(2)
    if kind == 'insert':
        return 'insert %d %s %d' % (p, hexed(key()), r.choice((0, 1, r.randrange(1 << 32), r.randrange(1 << 64), r.choice(BOUNDARIES))))
    if kind == 'split':
        q = key()
        return 'split %d %s %d' % (p, hexed(q[:r.randrange(len(q) + 1)]), 1 - p)
    if kind in ('counts', 'write', 'clear', 'make'):
        return '%s %d' % (kind, p)
    if kind == 'step':
        q, last = key(), key()
        prefix = q[:r.choice((0, 0, 1, r.randrange(len(q) + 1)))]
        return step(p, prefix, r.choice((None, last, last, last[:r.randrange(len(last) + 1)])), r.choice((0, 2, 255, 4096, 4096)))
    q = key()
    if kind in ('walk', 'longest', 'shared') and r.random() < 0.5:
        q = q[:r.randrange(len(q) + 1)] + (b'' if kind == 'walk' else bytes([r.randrange(256)]))
    return '%s %d %s' % (kind, p, hexed(q))


# A run of calls in any order; the keys come from a stock, so that they meet again.
def run_of(r, n, make_key, stock):
    keys = [make_key() for _ in range(stock)]
    yield from ('make 0', 'make 1')
    for _ in range(n):
        kind = r.choice(KINDS)
        if kind in ('clear', 'make') and r.random() < 0.8:
            kind = 'insert'
        yield one(r, kind, lambda: r.choice(keys))
        if r.random() < 0.2:
            yield 'write %d' % r.randrange(2)


def short_runs(runs, seed=1):
    r = random.Random(seed)
    for _ in range(runs):
        yield from run_of(r, 200, lambda: short_key(r), r.choice((4, 12, 40)))


def long_runs(runs, seed=2):
    r = random.Random(seed)
    for i in range(runs):
        edges = EDGES if i % 4 == 0 else [n for n in EDGES if n < 1000]
        yield from run_of(r, 120, lambda: long_key(r, edges), r.choice((3, 6, 12)))


# Pools that are full, or nearly: keys of one or two letters of many, and calls that need 0, 1, 2 or 3 nodes.
def full_runs(runs, seed=3):
    r = random.Random(seed)
    for _ in range(runs):
        letters = bytes(range(r.choice((60, 100, 124, 126, 127))))
        yield from build(0, [bytes([b]) for b in letters])
        for _ in range(40):
            q = bytes(r.choice(b'\x00\x05\x20\xf0') for _ in range(r.choice((1, 2, 3)))) + b'\x07' * r.choice((0, 0, 0, 254, 255, 510, 511))
            yield 'insert 0 %s 1' % hexed(q)
            if r.random() < 0.3:
                yield 'remove 0 %02x' % r.randrange(128)
        yield from show(0)
        yield from ['split 0 %s 1' % r.choice(('-', '00', '05')), 'split 1 - 0'] + show(0) + show(1)


def grown(r):
    return sorted({short_key(r) for _ in range(r.randrange(9))})


# Images cut, changed in up to three bytes, with bytes added, and with too many or too few numbers; each read, and shown if taken.
def damaged(runs, seed=4):
    r = random.Random(seed)
    for _ in range(runs):
        keys = grown(r)
        tree, numbers = bytearray(verdicts.image(keys)), list(range(1, len(keys) + 1))
        how = r.randrange(8)
        if how == 0:
            tree = tree[:r.randrange(len(tree) + 1)]
        elif how == 1:
            tree += bytes(r.randrange(4) for _ in range(r.randrange(1, 6)))
        elif how == 2:
            numbers = numbers[:-1] if r.random() < 0.5 else numbers + [0]
        elif how < 7:
            for _ in range(r.choice((1, 1, 2, 3))):
                at = r.randrange(len(tree))
                tree[at] = r.choice((r.randrange(256), tree[at] ^ 1 << r.randrange(8), tree[at] + 1 & 255, tree[at] - 1 & 255))
        yield 'read 1 %s %s' % (hexed(bytes(tree)), listed(numbers))
        yield 'write 1'


# Every cut and every one-byte change of the images of `bench/verdicts`, each with the numbers that the whole image has.
def changed_images():
    for keys in verdicts.SETS:
        whole, numbers = verdicts.image(keys), list(range(1, len(keys) + 1))
        for n in range(len(whole) + 1):
            yield whole[:n], numbers
        for at in range(len(whole)):
            for byte in range(256):
                yield whole[:at] + bytes([byte]) + whole[at + 1:], numbers


def every_change():
    for tree, numbers in changed_images():
        yield 'read 0 %s %s' % (hexed(tree), listed(numbers))


# Paths of 4,095 to 4,097 bytes, and 127 to 130 nodes, as images.
def edge_images():
    for last in (14, 15, 16, 17):
        labels = [255] * 16 + [last] if last else [255] * 16
        tree = b'\x0c\0\0\0' + b''.join(bytes([12 if i < len(labels) else 3, n, 0, i]) + b'\x07' * n for i, n in enumerate(labels, 1))
        yield from ('read 0 %s 9' % tree.hex(), 'counts 0', 'walk 0 -')
    for n in (126, 127, 128, 129):
        tree = b'\x0c\0\0\0' + b''.join(bytes([51 if i < n - 1 else 3, 1, 0, 1, i]) for i in range(n))
        yield from ('read 0 %s %s' % (tree.hex(), listed([1] * n)), 'counts 0', 'write 0')


TWO = '0c0000000c0100016133010002620301000263'


def sevens(n, end=b''):
    return b'\x07' * n + end


def gone(key):
    return ['remove 0 %s' % hexed(key)] + show(0)


# An image with the allocated bits that stand alone cleared, record by record.
def cleared(tree):
    made, at = bytearray(tree), 0
    while at + 4 <= len(made):
        for allocated in (1, 4, 16):
            if not made[at] & allocated * 2:
                made[at] &= ~allocated
        at += 4 + made[at + 1]
    return bytes(made)


# Every flag byte on a root alone and on a leaf, each read and shown if taken.
def every_flag():
    for f in range(256):
        yield from ('read 0 %02x000000 %s' % (f, '7' if f & 2 else '-'), 'write 0')
        yield from ('read 0 0c000000%02x01000161 %s' % (f, '7' if f & 2 else '-'), 'write 0')


# What shrinks a tree in the Rust: the commands, the question for an image with its allocated bits as they stand, what
# comes between, and the pool that then holds the image's tree.
def shrinks():
    keys = words(b'ab', 3)
    for chosen in range(1 << len(keys)):
        here = [k for i, k in enumerate(keys) if chosen >> i & 1]
        prefix = hexed(keys[chosen % len(keys)])
        if chosen % 8 == 0:
            yield from parted(build(0, here), prefix)
        yield build(0, here) + ['remove 0 %s' % hexed(k) for k in here[chosen % 2::2]], 'rust-write 0', [], 0
    r = random.Random(5)
    for _ in range(400):
        keys = sorted({long_key(r, [n for n in EDGES if n < 1000]) for _ in range(r.choice((2, 4, 8)))})
        yield from parted(build(0, keys), hexed(r.choice(keys)[:r.choice((1, 9, 10, 254, 255, 256))]))
        yield build(0, keys) + ['remove 0 %s' % hexed(k) for k in keys if r.random() < 0.5], 'rust-write 0', [], 0


# A split: the part that it takes out, and what it leaves.
def parted(commands, prefix):
    yield commands, 'rust-part 0 ' + prefix, ['split 0 %s 1' % prefix], 1
    yield [], 'rust-write 0', [], 0


# Each boundary under a key of its own, through every call that has a number.
def wide_numbers():
    keys = [b'p%d' % i for i in range(len(BOUNDARIES))]
    yield 'make 0'
    yield from ('insert 0 %s %d' % (hexed(k), n) for k, n in zip(keys, BOUNDARIES))
    yield from show(0) + list(look(0, keys))
    yield from ['read 1 %s %s' % (hexed(verdicts.image(keys)), listed(BOUNDARIES))] + show(1)
    yield from ('insert 0 %s %d' % (hexed(k), n) for k, n in zip(keys, BOUNDARIES[1:] + BOUNDARIES[:1]))
    yield from show(0) + ['split 0 70 1'] + show(0) + show(1)
    yield from ('remove 1 %s' % hexed(k[1:]) for k in keys)
    yield from show(1)


# Document 01's examples, as far as pools of 128 slots show them, each under a comment with its answer.
def examples():
    yield '# The empty tree: 00000000 and no numbers; an image of no bytes gives 6.'
    yield from ['make 0'] + show(0) + ['read 0 - -', 'read 0 00000000 -'] + show(0)
    yield '# ab = 1, ac = 2: 19 image bytes, numbers 1, 2, both ways.'
    yield from build(0, [b'ab', b'ac']) + show(0) + list(look(0, [b'ab', b'ac', b'a'])) + ['read 1 %s 1,2' % TWO] + show(1)
    yield '# The same image a byte short, a byte over, with a number over and one short: 6 14, 13 19, 12 19, 12 14; the tree stays.'
    yield from ['read 1 %s 1,2' % TWO[:-2], 'read 1 %s00 1,2' % TWO, 'read 1 %s 1,2,3' % TWO, 'read 1 %s 1' % TWO] + show(1)
    yield '# After removing ab: 0c000000 03020001 6163, number 2. Once more: 3.'
    yield from gone(b'ab') + gone(b'ab')
    yield '# a = 1, abc = 2, from its image. Query abd: stored prefix of length 1, number 1, shared length 2; query b: 3, and 0.'
    yield from ['read 0 0c0000000f01000161030200026263 1,2'] + show(0) + list(look(0, [b'abd', b'b']))
    yield '# b and d under the root. Behind the stroke, nodes looked at: "" 1; a stops at b, 2; c at d, 3; e 3.'
    yield from build(0, [b'd', b'b']) + list(look(0, [b'', b'a', b'b', b'c', b'd', b'e']))
    yield from ['insert 0 6162 7', 'remove 0 6162', 'remove 0 65']
    yield '# Cleared, the tree is empty.'
    yield from ['clear 0'] + show(0)
    yield '# Inserting gives the old number, if any.'
    yield from build(0, [b'ab', b'ab']) + show(0)
    yield '# 0, 2^32 - 1, 2^32, 2^63 and 2^64 - 1: stored, walked, written, read; each replaced by the next; split off; removed.'
    yield from wide_numbers()
    yield '# Inserting a, which ends inside the label of ab, cuts it: 3 nodes.'
    yield from build(0, [b'ab', b'a']) + show(0)
    yield '# A key of 255 bytes is 1 node under the root, one of 256 is 2; 4,096 bytes are 17, 4,097 give 2.'
    for n in (255, 256, 4096, 4097):
        yield from build(0, [sevens(n)]) + show(0)
    yield '# 256 bytes, then their first 10: labels of 10, 245 and 1 bytes, 272 image bytes. Without the short key: 255 and 1.'
    yield from build(0, [sevens(256), sevens(10)]) + show(0) + gone(sevens(10))
    yield '# The other order: 10 and 246, 268 bytes. Without the short key: 10 and 246 still.'
    yield from build(0, [sevens(10), sevens(256)]) + show(0) + gone(sevens(10))
    yield '# 127 keys of one byte fill 128 slots: one more gives 4, a key that is there its old number.'
    yield from build(0, [bytes([b]) for b in range(127)]) + ['insert 0 ff 1', 'insert 0 0000 1', 'insert 0 00 9', 'counts 0']
    yield '# With one slot free a key that needs two nodes gives 4, one that needs one is done.'
    yield from ['remove 0 00', 'insert 0 %s 1' % hexed(sevens(256, b'a')), 'insert 0 01ff 1', 'insert 0 02ff 1', 'counts 0']
    yield '# A walk under a over a tree that changes: aa comes behind the first step, abc behind the third, ad when it has ended.'
    yield from build(0, [b'ab', b'a', b'b']) + [step(0, b'a', None, 16)]
    yield from ['insert 0 6161 4', step(0, b'a', b'a', 16), step(0, b'a', b'aa', 16)]
    yield from ['insert 0 616263 5', step(0, b'a', b'ab', 16), step(0, b'a', b'abc', 16)]
    yield from ['insert 0 6164 6', step(0, b'a', b'abc', 16), step(0, b'a', b'ad', 16)]
    yield '# A last key that is not stored, one before and one behind the prefix, and an output a byte too short: 5 and the length.'
    yield from [step(0, b'a', last, 16) for last in (b'aaa', b'', b'A', b'b')] + [step(0, b'a', b'ab', n) for n in (0, 2, 3, 4096)]
    yield '# The empty key needs no output.'
    yield from ['insert 0 - 7', step(0, b'', None, 0), step(0, b'', b'', 0), step(0, b'', b'', 1)]
    yield '# A prefix or a last key of 4,096 bytes is taken, one of 4,097 gives 2.'
    yield from [step(0, sevens(n), last, 16) for n in (4096, 4097) for last in (None, b'a')]
    yield from [step(0, prefix, sevens(n), 16) for n in (4096, 4097) for prefix in (b'', b'a')]
    for prefix, left in (('a', 'first tree b, second tree b, c in 3 nodes'), ('ab', 'first tree ac, b, second tree the empty key in 1 node'),
                         ('ac', 'first tree ab, b, second tree the empty key'), ('ad', '3, and both stay'), ('', 'the whole tree')):
        yield '# ab, ac, b split by "%s": %s.' % (prefix, left)
        yield from build(0, [b'ab', b'ac', b'b']) + ['split 0 %s 1' % (prefix.encode().hex() or '-')] + show(0) + show(1)
    yield '# Once more by "": an empty tree is split off, and the second pool\'s tree is given up.'
    yield from ['split 0 - 1'] + show(0) + show(1)
    yield '# abc split by "a": second tree bc in 2 nodes.'
    yield from build(0, [b'abc']) + ['split 0 61 1'] + show(0) + show(1)
    yield '# The root is not merged with an only child.'
    yield from build(0, [b'', b'a']) + gone(b'')
    yield '# Labels of 200 and 55 bytes are joined, 255 in all; 200 and 56 are not.'
    for n in (54, 55):
        yield from build(0, [sevens(200, b'\2'), sevens(200, b'\1' + sevens(n))]) + show(0) + gone(sevens(200, b'\2'))
    yield '# Labels of 155 and 45 bytes stay two while they are passed over, and while the key is absent; then 100 and 155 are joined.'
    yield from build(0, [sevens(300), sevens(100, b'\x08'), b'x']) + show(0) + gone(b'x') + gone(sevens(200)) + gone(sevens(100, b'\x08'))
    yield '# a = 1, b = 2 with b removed, as the Rust writes it: 16 stands alone, and is not written again.'
    yield from ['read 0 0c0000001301000161 1'] + show(0)
    yield '# Such bits on the root, 16 included.'
    yield from ['read 0 15000000 -'] + show(0)
    yield '# A lone 1 is no number, so that the leaf is idle: 11 4. A lone 2: 7 4. A sibling of the root: 7 0.'
    yield from ['read 0 0c0000000101000161 1', 'read 0 0c0000000201000161 1', 'read 0 3000000000000000 -'] + show(0)


# One image or more for each refusal of the reader, each behind one that is taken.
def refused_images():
    for image in ('- -', '000000 -', '0c000000 -', '0c0000000302000161 1', '02000000 7', '08000000 -', '20000000 -', '40000000 -', '80000000 -', '3000000000000000 -',
                  '0800ffff00000000 -', '0c00ffff00000000 -', '00000001 -', '0c00000000000000 -', '0c0000000301000261 1', '0c00000033010001610301000262 1,2',
                  '0c0000003c0100016103010002620301000263 1,2', '0301000061 9', '0c00000003000001 1', '0c00000033010001620301000161 1,2',
                  '0c00000033010001610301000161 1,2', '0c0000000001000161 -', '03000000 -', '00000000 5', '0000000000 -'):
        yield from ('read 0 0c0000000301000161 7', 'read 0 ' + image, 'write 0')


# The list that the gate replays. Of the longest lines it has one that is a command and one that is too long.
def replay():
    yield from examples()
    yield from (line for line in odd_lines() if len(line) < 20000)
    yield from ('get 0 ' + '61' * 65533, 'x' * 131073)
    yield from edge_images()
    yield from refused_images()
    yield from every_flag()
    yield from short_runs(8, seed=11)
    yield from itertools.islice(long_runs(4, seed=12), 400)
    yield from full_runs(2, seed=13)
    yield from damaged(200, seed=14)


# Lines that are no command, lines passed over, and the longest line.
def odd_lines():
    yield from ('', '#', '# a comment', '#' * 140000, ' ', 'make', 'make ', 'make 2', 'make 0 ', 'make 0 1', ' make 0', 'make  0', 'Make 0')
    yield from ('insert 0 61', 'insert 0 61 ', 'insert 0 61 01', 'insert 0 61 00', 'insert 0 61 0', 'insert 0 61 18446744073709551615', 'insert 0 61 18446744073709551616')
    yield from ('insert 0 61 184467440737095516150', 'insert 0 61 -1', 'insert 0 61 -', 'insert 0 6 1', 'insert 0 6A 1', 'insert 0 6g 1', 'insert 0 6/ 1', 'insert 0 6: 1')
    yield from ('insert 0 6` 1', 'insert 0 61 1 2', 'insert 0  1', 'insert 0 - 7', 'get 0 -', 'get 0 --', 'get 0 61', 'get 0 61 ', 'get 0', 'get 1 61', 'get 01 61')
    yield from ('split 0 61 0', 'split 1 61 1', 'split 0 61 2', 'split 0 61', 'walk 0', 'walk 0 -', 'counts', 'counts 0 0', 'write 0 -', 'read 0 00000000', 'read 0 00000000 -')
    yield from ('read 0 03000000 5', 'read 0 03000000 5,', 'read 0 03000000 ,5', 'read 0 03000000 5,,5', 'read 0 03000000 05', 'read 0 03000000 18446744073709551615', 'read 0 03000000 18446744073709551616', 'read 0 - -')
    yield from ('read 0 03000000 5,6', 'get 0 -', 'get 0 61\r', 'get 0 \u00e9', 'quit', '?', 'get 0 ' + '61' * 4096, 'get 0 ' + '61' * 4097, 'shared 0 ' + '61' * 4097)
    yield from ('walk 0 ' + '61' * 4097, 'longest 0 ' + '61' * 4097, 'get 0 ' + '61' * 65533, 'get 0 ' + '61' * 65533 + 'a', 'get 0 ' + '61' * 65534)
    yield from ('read 0 00000000 ' + ','.join(['1'] * 65528), 'read 0 00000000 ' + ','.join(['1'] * 65529), 'x' * 131072, 'x' * 131073, 'counts 0')
    yield from ('step 0', 'step 0 -', 'step 0 - .', 'step 0 - . ', 'step 0 - . 4096', 'step 0 - . 4097', 'step 0 - . 4294967296', 'step 0 - . 01', 'step 0 - . -', 'step 0 . . 1')
    yield from ('step 0 - .. 1', 'step 0 - .61 1', 'step 0 - 6 1', 'step 0 - 6G 1', 'step 0 -  1', 'step 0  . 1', 'step 0 - 61 1 1', 'step 2 - . 1', 'step - . 1', 'step 0 - - 1')
    yield from ('step 0 %s %s 5' % ('61' * 30000, '61' * 35000), 'step 0 %s . 5' % ('61' * 65529))
