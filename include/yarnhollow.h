/*
 * Yarnhollow: a rule store for a web cache box. A byte key leads to a 64-bit number; all keys under a prefix can be cut
 * out at once; a whole store is written to and read from an image, whose every byte is checked.
 *
 * Link with libhost.a (`tools/staticlib host` writes it to target/staticlib/). Of the C library it uses memcpy and memset. It
 * takes no memory and keeps no state between calls.
 *
 *
 * WHO OWNS WHAT
 *
 * The caller owns every buffer, lends it for the time of one call, and has it back when the call returns. The store keeps
 * no pointer. Calls on different buffers may run at the same time in different threads; while a call runs, nobody else
 * may write what it was lent, nor read what it may write.
 *
 * A slice is a pointer, then a length: of bytes in bytes, of words and numbers in elements of 4 bytes. A slice of length 0
 * may have any pointer, null too. Every other pointer points to that many elements, aligned as C wants. A result is a pointer
 * to one value; it may not be null, also where the call will not store it. What a call may write (a pointer without `const`)
 * must not overlap anything else that is lent to the same call; what it only reads may overlap what it only reads. That these
 * hold is the caller's part: no call can test it.
 *
 *
 * A POOL
 *
 * A pool of S slots, S from 1 to 16,384, is a slice of YARNHOLLOW_LABELS(S) bytes and one of YARNHOLLOW_WORDS(S) words of
 * four bytes each. It holds one tree of at most S nodes. `yarnhollow_make` turns any two slices of these lengths into an empty
 * pool. Do not write a pool's bytes or words by other means. A pool may be copied, as two blocks of memory.
 *
 * A call that goes by what a pool holds tests the whole pool first, so that one that was damaged, or never made, is refused
 * with 1 and does no harm. Of a pool that is only filled (make, read, the second pool of split) the lengths are tested and
 * nothing else.
 *
 * That test is most of what a call costs: it looks at every node of the tree, 3 to 10 ns each where it was measured, so that a
 * lookup takes up to a microsecond among 100 nodes and 70 to 150 microseconds among 16,000. Insert, remove and split cost two
 * to three tests, since they move the nodes behind the place.
 *
 *
 * WHAT A CALL RETURNS
 *
 * A number, YARNHOLLOW_DONE or one of the refusals below. With any number but 0 no lent slice has changed. A result is stored
 * only where the table says so; else its memory is not touched. No call reads a result.
 *
 *    no.  meaning                                                    results stored
 *     0   done                                                       all that the call names (insert and read: see there)
 *     1   not a pool: wrong lengths, or damaged                      none
 *     2   a key, query, prefix or image path over 4,096 bytes        none
 *     3   not found; the walk has ended                              `looked`, of get, remove and longest
 *     4   no room: the tree needs more nodes than there are slots    none
 *     5   an output is too short                                     the length needed; of write, both
 *     6   the image is cut short                                     offset of the record
 *     7   flag byte                                                  offset of the record
 *     8   level                                                      offset of the record
 *     9   label length                                               offset of the record
 *    10   sibling order                                              offset of the record
 *    11   idle node: neither number nor child                        offset of the record
 *    12   too few numbers; too many                                  offset of the record; the image's length
 *    13   bytes after the tree                                       offset of the first of them
 *
 * Where several refusals fit, the first in the order 1, 2, 3, 4, 5 is given; read has an order of its own, the order of
 * the image. Each is given exactly in its case.
 *
 * `looked`, the last result of get, insert, remove, longest and shared, is how many nodes the search compared its key
 * with: the root, and of the children of each node gone into those up to the first whose first byte is not below the
 * key's next byte. That one counts, also where it begins above and the search stops at it. So `looked` is 1 for the
 * empty key, and at most 1 + 256 times the key's length. Insert and remove tell what they looked at in the tree as it
 * was before them. It is stored with 0 and with 3, and not touched with any other number.
 *
 * 1 never speaks of a key or an image. Either the lengths are not YARNHOLLOW_LABELS(S) and YARNHOLLOW_WORDS(S) for one S,
 * which is an error of the calling program; or the memory does not hold what the store left there: no pool was made in it, or
 * something else has written into it. The store gets nothing out of such a pool any more: make it anew, and fill it again.
 *
 *
 * THE IMAGE
 *
 * A tree is written as a run of bytes and a list of numbers. The run has a record for each node, the root first, and behind
 * each node its children, each with all that is below it:
 *
 *    byte 0      flags: 1 and 2 it has a number, 4 and 8 it has a child, 16 and 32 it has a younger sibling
 *    byte 1      label length, 0 for the root, 1 to 255 for every other node
 *    bytes 2, 3  level, the high byte first: 0 for the root, and one more than its parent's for every other node
 *    byte 4 ..   the label
 *
 * Write sets both bits of a flag pair or neither; bits 64 and 128 are zero. Read also takes 1, 4 or 16 without the bit above
 * it, on the root too, as if it were not set: older software leaves such a bit behind where it took something out. It refuses
 * with 7 the bits 2, 8 and 32 without the bit below them, 64 and 128, and a sibling of the root. The children of a node ascend
 * by the first byte of their labels. The numbers are those of the nodes that have one, in the same order, each a `uint64_t` as
 * the machine has it: a program that stores or sends them settles the order of their bytes itself. So ab = 1 and ac = 2 are
 * the numbers 1, 2 and these 19 bytes:
 *
 *    0C 00 00 00   0C 01 00 01 61   33 01 00 02 62   03 01 00 02 63
 *
 *
 * STACK
 *
 * Read's check calls itself, level by level, and a key's bytes can stand on up to 4,096 levels. The most that was measured at
 * 4,096 levels: read took 467,200 bytes of stack, and 860,400 in libraries that two older kits built. What it takes goes by
 * the image and not by the size of the pool, which counts last: a read that was refused for a pool of one slot had taken as
 * much. Call read with 1 MiB of stack left; the usual 8 MiB of a thread are enough. A thread with less must not read an image
 * from outside: no call tests the stack. `yarnhollow_next` took 20,900 bytes, write 8,500, insert of a key of 4,096 bytes
 * 2,300, every other call at most 600. What the loader may take at the first call of memcpy and memset is not counted.
 */
#ifndef YARNHOLLOW_H
#define YARNHOLLOW_H

#include <stddef.h>
#include <stdint.h>

#ifdef __cplusplus
extern "C" {
#endif

/* The lengths of a pool of `slots` slots: label bytes, and words of four bytes (elements, not bytes). */
#define YARNHOLLOW_LABELS(slots) ((size_t)255 * (slots))
#define YARNHOLLOW_WORDS(slots) ((size_t)8 * (slots) + 8)

/* The most slots of a pool, and the most bytes of a key, query or prefix. */
#define YARNHOLLOW_SLOTS_MAX 16384
#define YARNHOLLOW_KEY_MAX 4096

enum yarnhollow_number {
    YARNHOLLOW_DONE = 0,
    YARNHOLLOW_NOT_POOL = 1,
    YARNHOLLOW_TOO_LONG = 2,
    YARNHOLLOW_NOT_FOUND = 3,
    YARNHOLLOW_NO_ROOM = 4,
    YARNHOLLOW_OUTPUT_SHORT = 5,
    YARNHOLLOW_IMAGE_CUT_SHORT = 6,
    YARNHOLLOW_IMAGE_FLAG_BYTE = 7,
    YARNHOLLOW_IMAGE_LEVEL = 8,
    YARNHOLLOW_IMAGE_LABEL_LENGTH = 9,
    YARNHOLLOW_IMAGE_SIBLING_ORDER = 10,
    YARNHOLLOW_IMAGE_IDLE_NODE = 11,
    YARNHOLLOW_IMAGE_NUMBER_COUNT = 12,
    YARNHOLLOW_IMAGE_BYTES_LEFT = 13
};

/*
 * Makes an empty pool of two slices, whatever they held; only their lengths are tested.
 * Returns 0, or 1 for wrong lengths.
 */
uint32_t yarnhollow_make(uint8_t *labels, size_t labels_len, uint32_t *words, size_t words_len);

/*
 * Empties a pool.
 * Returns 0 or 1.
 */
uint32_t yarnhollow_clear(uint8_t *labels, size_t labels_len, uint32_t *words, size_t words_len);

/*
 * The number stored at exactly this key. `looked` is stored with 0 and 3.
 * Returns 0, 1, 2, or 3 where the key is not stored.
 */
uint32_t yarnhollow_get(const uint8_t *labels, size_t labels_len, const uint32_t *words, size_t words_len,
                        const uint8_t *key, size_t key_len, uint64_t *number, size_t *looked);

/*
 * Stores a number at a key, in place of the old one, if there is one. With 0, `had_old` is 1 and `old` the old number, or
 * `had_old` is 0 and `old` is not stored. `looked` is stored with 0, and speaks of the tree before the key was put in.
 * Returns 0, 1, 2 or 4.
 */
uint32_t yarnhollow_insert(uint8_t *labels, size_t labels_len, uint32_t *words, size_t words_len,
                           const uint8_t *key, size_t key_len, uint64_t number, uint32_t *had_old, uint64_t *old,
                           size_t *looked);

/*
 * Takes a key out, and gives the number that it had. `looked` is stored with 0 and 3, and speaks of the tree before.
 * Returns 0, 1, 2, or 3 where the key is not stored.
 */
uint32_t yarnhollow_remove(uint8_t *labels, size_t labels_len, uint32_t *words, size_t words_len,
                           const uint8_t *key, size_t key_len, uint64_t *old, size_t *looked);

/*
 * The longest stored key that the query starts with: its length, and its number. `looked` is stored with 0 and 3.
 * Returns 0, 1, 2, or 3 where no stored key starts the query.
 */
uint32_t yarnhollow_longest(const uint8_t *labels, size_t labels_len, const uint32_t *words, size_t words_len,
                            const uint8_t *query, size_t query_len, size_t *prefix_length, uint64_t *number,
                            size_t *looked);

/*
 * The greatest number of leading bytes that the query shares with any stored key, 0 where nothing is stored.
 * `looked` is stored with 0.
 * Returns 0, 1 or 2.
 */
uint32_t yarnhollow_shared(const uint8_t *labels, size_t labels_len, const uint32_t *words, size_t words_len,
                           const uint8_t *query, size_t query_len, size_t *shared_length, size_t *looked);

/*
 * A step of the walk under a prefix: the smallest stored key that starts with the prefix and is greater than the last one
 * given, with its number. Keys are ordered byte by byte, and a key comes before its own extensions. The walk's state is the
 * caller's: `begun` is 0 before the first step, and then `last` is not looked at, whatever its length, over 4,096 bytes too;
 * with any other `begun`, `last` is the key that the step before gave. The pool may change between two steps: each speaks of
 * the tree as it stands.
 *
 * With 0 the key is at the front of `out`, of which the rest stays. With 5 `key_length` is the length that `out` needs, and
 * `number` is not stored; YARNHOLLOW_KEY_MAX bytes are always enough. `out` must not overlap `last`, so swap two buffers:
 *
 *    static uint8_t room[2][YARNHOLLOW_KEY_MAX];
 *    size_t last_length = 0, key_length = 0;
 *    uint64_t number = 0;
 *    uint32_t begun = 0, returned;
 *    int turn = 0;
 *
 *    while ((returned = yarnhollow_next(labels, labels_len, words, words_len, prefix, prefix_len, room[1 - turn], last_length,
 *                                       begun, room[turn], sizeof room[turn], &key_length, &number)) == YARNHOLLOW_DONE) {
 *        use(room[turn], key_length, number);
 *        last_length = key_length;
 *        begun = 1;
 *        turn = 1 - turn;
 *    }
 *    // returned is YARNHOLLOW_NOT_FOUND where the walk has come to its end
 *
 * Returns 0, 1, 2 (the prefix, or the last key, is over 4,096 bytes), 3 at the walk's end, or 5. Needs 32 KiB of stack.
 */
uint32_t yarnhollow_next(const uint8_t *labels, size_t labels_len, const uint32_t *words, size_t words_len,
                         const uint8_t *prefix, size_t prefix_len, const uint8_t *last, size_t last_len, uint32_t begun,
                         uint8_t *out, size_t out_len, size_t *key_length, uint64_t *number);

/*
 * Moves every key that starts with the prefix, prefix taken off, into a second pool, whose old contents are given up: of it
 * only the lengths are tested. The empty prefix moves everything, and is never 3.
 * Returns 0, 1 (either pool), 2, 3 where no stored key starts with the prefix, or 4: the second pool has too few slots.
 */
uint32_t yarnhollow_split(uint8_t *labels, size_t labels_len, uint32_t *words, size_t words_len,
                          const uint8_t *prefix, size_t prefix_len,
                          uint8_t *labels2, size_t labels2_len, uint32_t *words2, size_t words2_len);

/*
 * How many keys are stored, and how many nodes, of at most S, the tree has; the root counts.
 * Returns 0 or 1.
 */
uint32_t yarnhollow_counts(const uint8_t *labels, size_t labels_len, const uint32_t *words, size_t words_len,
                           size_t *keys, size_t *nodes);

/*
 * Writes the image: tree bytes to the front of `tree`, numbers to the front of `numbers`; the rest of each stays. With 0 the
 * lengths say how much was written, with 5 how much room is needed, and then neither output has changed.
 * Returns 0, 1 or 5. Needs 16 KiB of stack.
 */
uint32_t yarnhollow_write(const uint8_t *labels, size_t labels_len, const uint32_t *words, size_t words_len,
                          uint8_t *tree, size_t tree_len, uint64_t *numbers, size_t numbers_len,
                          size_t *tree_length, size_t *numbers_length);

/*
 * Reads an image into a pool, whose old contents are given up: of it only the lengths are tested. The image is checked in
 * full before anything is written. `offset` is stored with 6 to 13 only, not with 0.
 * Returns 0, 1 for wrong lengths, 2, 4 or 6 to 13. Needs 1 MiB of stack, however small the pool.
 */
uint32_t yarnhollow_read(uint8_t *labels, size_t labels_len, uint32_t *words, size_t words_len,
                         const uint8_t *tree, size_t tree_len, const uint64_t *numbers, size_t numbers_len,
                         size_t *offset);

#ifdef __cplusplus
}
#endif

#endif
