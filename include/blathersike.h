/*
 * blathersike.h: the C interface of Blathersike, the tree codec of an archive for phylogenetic trees.
 *
 * A tree is rooted and binary, with n leaves labelled 0 to n-1, n from 1 to 1,024. It has four notations:
 *
 *   vector   n numbers v(0) .. v(n-1), v(0) = 0 and v(i) <= 2(i-1) for i from 1 (Phylo2Vec)
 *   table    n-1 rows of three numbers: child, child, parent; row t has the parent n+t
 *   text     Newick, as "((0,1),2);", without lengths or names; blanks (space, tab, carriage return, line feed) are read
 *            anywhere but inside a label, and never written
 *   record   n in 11 bits and the vector's entries in as many bits as their bounds need, filled up to whole bytes
 *
 * Trees of one n go into an archive:
 *
 *   archive  n in 11 bits, the number of trees in 21 bits, and the records one after another, each without its n and filled
 *            up to whole bytes; trees are counted from 0
 *
 * Of an archive of up to 64 leaves a table of clades can be had: the sets of leaves below the inner nodes of its trees.
 *
 * The library is x86-64 code with no state and no heap. Every call returns, for every input. Calls may run at the same
 * time on buffers of their own.
 *
 * What the caller owes. A list is a pointer and its number of elements. It is the caller's, is only lent for the call, and
 * no call reads or writes beyond it. Every pointer is aligned for its elements (uint16_t: 2 bytes, uint64_t and struct
 * blathersike_clade: 8) and is not null; of an empty list it may be anything else. `answer`, and the view's `part`, is not
 * null, has room for two numbers, and overlaps no list. No two lists that are lent to one call overlap, inputs and outputs
 * alike.
 *
 * Stack. In bytes, at the deepest, as measured over trees of 1,024 leaves (bench/run --stack): check 8,
 * to_table 12,488, from_table 17,864, to_newick 55,400, from_newick 52,328, pack 1,416, unpack 2,264, shuffle 28,184,
 * relabel 22,056, write_archive 1,464, read_tree 2,264, view 0, clade_table 92,264 (over trees of 64 leaves), however
 * many trees there are. Have 128 KiB free: nothing in the library looks whether there is enough.
 *
 * Answers. The last parameter points to two numbers that every call sets:
 *
 *   answer[0] == 0    done: answer[1] is the number of elements written to each output
 *   answer[0] != 0    refused: answer[0] is the refusal's number, answer[1] its place, counted from 0
 *
 * Memory. Where a call is refused, every element of every output is what it was before. Where it is done, the elements
 * written stand at the front of the output, and those behind them are what they were.
 *
 * Refusals, and where their places point:
 *
 *    1  the leaf count is 0 or above 1,024                      0
 *    2  the input's length is wrong                             the length wanted
 *    3  an output has too few elements                          the elements needed
 *    4  a vector entry is above its bound                       its index
 *    5  the parent of row t is not n+t                          t
 *    6  a child in row t is not below n+t                       t
 *    7  a child in row t was named before, or twice in it       t
 *    8  the text breaks the grammar                             the first byte that no text can have there,
 *                                                               or the length if the text ends early
 *    9  a text's label is not below n, its number of labels     the label's first byte
 *   10  a padding bit is set                                    the last byte's number
 *   11  a permutation's value is not below n, or used before    its index
 *   12  an archive has no tree of that number                   the number
 *   13  a text's label was used before in it                    the label's first byte, where it stands again
 *   14  the leaf count is above 64, for a clade table           the leaf count
 *   15  more different clades than entries lent                 the entries needed
 *   21  more trees than an archive counts                       2097151
 *
 * Each call below says which refusals it gives, in the order in which they are looked for.
 */
#ifndef BLATHERSIKE_H
#define BLATHERSIKE_H

#include <stddef.h>
#include <stdint.h>

#ifdef __cplusplus
extern "C" {
#endif

/* Whether v is a vector. Done with 0 elements. Refusals: 1, 4. */
void blathersike_check(const uint16_t *v, size_t v_length, uint64_t answer[2]);

/*
 * Vector to merge table: 3(n-1) numbers, row after row, in the order of merges, the child with the smaller least leaf first.
 * Refusals: 1, 4, 3.
 */
void blathersike_to_table(const uint16_t *v, size_t v_length, uint16_t *out, size_t out_length, uint64_t answer[2]);

/*
 * Merge table to vector: n numbers. Takes any order of rows in which row t has the parent n+t and its children stand
 * before it, children either way round. Refusals: 1, 2 (the rows are not 3(n-1) numbers), 5, 6 and 7 row by row, 3.
 */
void blathersike_from_table(size_t leaves, const uint16_t *rows, size_t rows_length, uint16_t *out, size_t out_length,
                            uint64_t answer[2]);

/* Vector to Newick text: at most 6,056 bytes, no ending zero. Refusals: 1, 4, 3. */
void blathersike_to_newick(const uint16_t *v, size_t v_length, uint8_t *out, size_t out_length, uint64_t answer[2]);

/*
 * Newick text to vector: n numbers. Refusals: 2 (above 65,536 bytes, place 65536), 2 (above 6,056 bytes that are no blanks,
 * place 6056), 8, 1, then 9 and 13 label by label in text order, 3. Places count every byte of the text, blanks too.
 */
void blathersike_from_newick(const uint8_t *text, size_t text_length, uint16_t *out, size_t out_length,
                             uint64_t answer[2]);

/* Vector to packed record: at most 1,280 bytes. Refusals: 1, 4, 3. */
void blathersike_pack(const uint16_t *v, size_t v_length, uint8_t *out, size_t out_length, uint64_t answer[2]);

/*
 * Packed record to vector: n numbers. Refusals: 2 (under 2 bytes, place 2), 1, 2 (not the length of a record of n leaves),
 * 4, 10, 3.
 */
void blathersike_unpack(const uint8_t *record, size_t record_length, uint16_t *out, size_t out_length,
                        uint64_t answer[2]);

/*
 * Queue Shuffle: relabels the leaves so that v(i) < i for all i from 1. Leaf x becomes new_labels[x], and out is the vector
 * of the relabelled tree; n numbers each. Refusals: 1, 4, 3 (place n if either output is short; then neither is touched).
 */
void blathersike_shuffle(const uint16_t *v, size_t v_length, uint16_t *new_labels, size_t new_length, uint16_t *out,
                         size_t out_length, uint64_t answer[2]);

/*
 * The vector of the tree with leaf x relabelled p[x]: n numbers. Refusals: 1, 4, 2 (p has not n elements, place n), 11, 3.
 */
void blathersike_relabel(const uint16_t *v, size_t v_length, const uint16_t *p, size_t p_length, uint16_t *out,
                         size_t out_length, uint64_t answer[2]);

/*
 * Vectors of `leaves` entries each, one after another in one list, to an archive: 4 bytes and the records, of which one has at
 * most 1,279. An empty list makes an archive of no trees. A record of 1 or 2 leaves has no bytes. Refusals: 1, 21 (more than
 * 2,097,151 times n entries), 2 (no whole number of vectors; place: the next multiple of n), 4 (place: the index in the list),
 * 3.
 */
void blathersike_write_archive(size_t leaves, const uint16_t *entries, size_t entries_length, uint8_t *out,
                               size_t out_length, uint64_t answer[2]);

/*
 * A tree of an archive to its vector: n numbers. Only the archive's first four bytes, its length and the record of that tree
 * count. Refusals: 2 (under 4 bytes, place 4), 1, 2 (not the length that n and the number of trees imply; place: that length),
 * 12, 4 (place: the entry of the tree's vector), 10 (place: the last byte of the tree's record, counted from its first), 3.
 */
void blathersike_read_tree(const uint8_t *archive, size_t archive_length, size_t tree, uint16_t *out, size_t out_length,
                           uint64_t answer[2]);

/*
 * The part of an archive that is the record of a tree: part[0] is the number of its first byte, part[1] how many it has. Both
 * are 0 where blathersike_read_tree refuses with 1, 2 or 12. It is no answer: whether the record is a vector's is not looked at.
 */
void blathersike_view(const uint8_t *archive, size_t archive_length, size_t tree, uint64_t part[2]);

/* An entry of a clade table, of 16 bytes: a set of two leaves or more. */
struct blathersike_clade {
    uint64_t leaves; /* leaf x is bit x, bit 0 the least significant */
    uint32_t size;   /* how many leaves */
    uint32_t count;  /* in how many of the archive's trees it is a clade */
};

/*
 * The clade table of an archive of up to 64 leaves: an entry for each different clade of two leaves or more of its trees, rising
 * by `leaves`. The counts add up to the number of trees times n-1: that many entries are always enough. No trees, or n = 1: done
 * with 0. Refusals: 2 (under 4 bytes, place 4), 1, 14, 2 (not the length that n and the number of trees imply; place: that
 * length), then tree by tree 4 (place: the entry of the tree's vector) and 10 (place: the last byte of the tree's record,
 * counted from its first), and last 15.
 */
void blathersike_clade_table(const uint8_t *archive, size_t archive_length, struct blathersike_clade *out,
                             size_t out_length, uint64_t answer[2]);

#ifdef __cplusplus
}
#endif

#endif
