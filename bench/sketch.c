/* The passes of the store as a sketch in plain C, on the same layout (docs/POOL.md) and with no proof: how fast a compiler gets
 * them where nothing has to be shown. Only the benchmark calls it. The test is there in two forms; write tests the pool first,
 * as the store does; read checks the whole image before it writes. What a call of the store tells besides is left out. */
#include <stddef.h>
#include <stdint.h>
#include <string.h>

enum { HEAD = 8, WORDS = 8, ROOM = 255, KEY_MAX = 4096 };
enum { START, LEN, HAS, LOW, SPAN, HIGH };

static const uint32_t *slot_of(const uint32_t *words, size_t i)
{
    return words + HEAD + WORDS * i;
}

static int child_ok(const uint8_t *labels, const uint32_t *words, uint32_t base, size_t end, unsigned least, size_t c)
{
    const uint32_t *s = slot_of(words, c);
    return s[START] == base && s[LEN] >= 1 && s[LEN] <= ROOM && s[SPAN] >= 1 && s[SPAN] <= end - c && s[HAS] + s[SPAN] >= 2
        && labels[ROOM * c] >= least;
}

/* Each slot as a node, in a loop over its children: the form that the store has. */
int sketch_test(const uint8_t *labels, const uint32_t *words, size_t slots)
{
    size_t n = words[0];
    const uint32_t *root = slot_of(words, 0);
    if (n < 1 || n > slots || root[START] != 0 || root[LEN] != 0 || root[SPAN] != n)
        return 0;
    for (size_t i = 0; i < n; i++) {
        const uint32_t *s = slot_of(words, i);
        uint32_t base = s[START] + s[LEN];
        if (s[HAS] > 1 || base > KEY_MAX || s[SPAN] < 1 || s[SPAN] > n - i)
            return 0;
        unsigned least = 0;
        for (size_t c = i + 1; c < i + s[SPAN];) {
            if (!child_ok(labels, words, base, i + s[SPAN], least, c))
                return 0;
            least = labels[ROOM * c] + 1u;
            c += slot_of(words, c)[SPAN];
        }
    }
    return 1;
}

/* One pass over the slots. The children of a node start where its label ends, so a table by start has the slot that is due next
 * there, the slot at which the list ends, and the least first byte. An entry of a list that has ended can't be met again: its
 * next slot is its end, and no span is empty. */
int sketch_test_once(const uint8_t *labels, const uint32_t *words, size_t slots)
{
    static struct { uint32_t due, end; uint16_t least; } list[KEY_MAX + 1];
    size_t n = words[0];
    const uint32_t *root = slot_of(words, 0);
    if (n < 1 || n > slots || root[START] != 0 || root[LEN] != 0 || root[SPAN] != n || root[HAS] > 1)
        return 0;
    memset(list, 0, sizeof list);
    list[0].due = 1;
    list[0].end = (uint32_t)n;
    for (size_t i = 1; i < n; i++) {
        const uint32_t *s = slot_of(words, i);
        uint32_t at = s[START], base = at + s[LEN];
        if (at > KEY_MAX || base > KEY_MAX || list[at].due != i || s[LEN] < 1 || s[LEN] > ROOM || s[HAS] > 1 || s[SPAN] < 1
            || s[SPAN] > list[at].end - i || s[HAS] + s[SPAN] < 2 || labels[ROOM * i] < list[at].least)
            return 0;
        list[at].due = (uint32_t)i + s[SPAN];
        list[at].least = (uint16_t)(labels[ROOM * i] + 1u);
        list[base].due = (uint32_t)i + 1;
        list[base].end = (uint32_t)i + s[SPAN];
        list[base].least = 0;
    }
    return 1;
}

/* The number at a key, in a pool that is one; 0 where there is none. */
uint64_t sketch_get(const uint8_t *labels, const uint32_t *words, const uint8_t *key, size_t length)
{
    size_t at = 0, end = words[0], p = 0, c = 1;
    while (p < length) {
        if (c >= end || labels[ROOM * c] > key[p])
            return 0;
        const uint32_t *s = slot_of(words, c);
        if (labels[ROOM * c] < key[p]) {
            c += s[SPAN];
            continue;
        }
        if (s[LEN] > length - p || memcmp(labels + ROOM * c, key + p, s[LEN]) != 0)
            return 0;
        at = c;
        p += s[LEN];
        end = c + s[SPAN];
        c++;
    }
    const uint32_t *s = slot_of(words, at);
    return s[HAS] ? s[LOW] + ((uint64_t)s[HIGH] << 32) : 0;
}

/* Tests the pool and writes its image; gives the bytes written, 0 where it is no pool or an output is too short. */
size_t sketch_write(const uint8_t *labels, const uint32_t *words, size_t slots, uint8_t *out, size_t room, uint64_t *numbers,
                    size_t numbers_room)
{
    uint16_t level[KEY_MAX + 1];
    size_t at = 0, keys = 0, n = words[0], length = 0;
    if (!sketch_test(labels, words, slots))
        return 0;
    for (size_t i = 0; i < n; i++) {
        length += 4 + slot_of(words, i)[LEN];
        keys += slot_of(words, i)[HAS];
    }
    if (length > room || keys > numbers_room)
        return 0;
    keys = 0;
    for (size_t i = 0; i < n; i++) {
        const uint32_t *s = slot_of(words, i);
        size_t next = i + s[SPAN], here = i == 0 ? 0 : level[s[START]];
        int sibling = i > 0 && next < n && slot_of(words, next)[START] == s[START];
        out[at] = (uint8_t)(3 * s[HAS] + 12 * (s[SPAN] > 1) + 48 * sibling);
        out[at + 1] = (uint8_t)s[LEN];
        out[at + 2] = (uint8_t)(here >> 8);
        out[at + 3] = (uint8_t)here;
        memcpy(out + at + 4, labels + ROOM * i, s[LEN]);
        level[s[START] + s[LEN]] = (uint16_t)(here + 1);
        if (s[HAS])
            numbers[keys++] = s[LOW] + ((uint64_t)s[HIGH] << 32);
        at += 4 + s[LEN];
    }
    return at;
}

/* A record's place among its siblings: what its list needs of the elder ones */
struct open {
    uint32_t path;
    uint16_t least;
    uint8_t more;
};

/* Whether an image is sound, with so many numbers, for so many slots; and its nodes. */
static int sound(const uint8_t *tree, size_t length, size_t numbers, size_t slots, size_t *nodes)
{
    static struct open list[KEY_MAX + 2];
    size_t at = 0, level = 0;
    *nodes = 0;
    for (;;) {
        if (length - at < 4)
            return 0;
        unsigned f = tree[at], m = tree[at + 1];
        if (f > 63 || (f >> 1 & ~f & 0x15) || (level == 0 && f & 32) || (size_t)(tree[at + 2] << 8 | tree[at + 3]) != level)
            return 0;
        if ((level == 0) != (m == 0) || length - at - 4 < m || (level && tree[at + 4] < list[level].least))
            return 0;
        uint32_t path = level ? list[level].path : 0;
        if (path + m > KEY_MAX || (level && !(f & 10)) || numbers < (f >> 1 & 1))
            return 0;
        numbers -= f >> 1 & 1;
        list[level].least = (uint16_t)(level ? tree[at + 4] + 1 : 0);
        list[level].more = f >> 5 & 1;
        at += 4 + m;
        ++*nodes;
        if (f & 8) {
            level++;
            list[level].path = path + m;
            list[level].least = 0;
            continue;
        }
        while (level > 0 && !list[level].more)
            level--;
        if (level == 0)
            return at == length && numbers == 0 && *nodes <= slots;
    }
}

/* Checks the image, and fills the slots; the slots open at each level get their spans when they are closed. */
int sketch_read(uint8_t *labels, uint32_t *words, size_t slots, const uint8_t *tree, size_t length, const uint64_t *numbers,
                size_t numbers_length)
{
    uint32_t open[KEY_MAX + 2], path[KEY_MAX + 2];
    size_t nodes, at = 0, depth = 0, next = 0;
    if (!sound(tree, length, numbers_length, slots, &nodes))
        return 0;
    for (size_t i = 0; i < nodes; i++) {
        size_t level = (size_t)tree[at + 2] << 8 | tree[at + 3], m = tree[at + 1];
        uint32_t *s = words + HEAD + WORDS * i;
        for (; depth > level; depth--)
            words[HEAD + WORDS * open[depth - 1] + SPAN] = (uint32_t)i - open[depth - 1];
        open[level] = (uint32_t)i;
        depth = level + 1;
        uint64_t number = tree[at] & 2 ? numbers[next++] : 0;
        s[START] = level ? path[level - 1] : 0;
        s[LEN] = (uint32_t)m;
        s[HAS] = tree[at] >> 1 & 1;
        s[LOW] = (uint32_t)number;
        s[HIGH] = (uint32_t)(number >> 32);
        path[level] = s[START] + (uint32_t)m;
        memcpy(labels + ROOM * i, tree + at + 4, m);
        at += 4 + m;
    }
    for (; depth > 0; depth--)
        words[HEAD + WORDS * open[depth - 1] + SPAN] = (uint32_t)nodes - open[depth - 1];
    words[0] = (uint32_t)nodes;
    return 1;
}
