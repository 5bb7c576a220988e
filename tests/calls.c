/*
 * Calls all thirteen functions of the C interface on samples of the rules, and one refusal of each at least, with the buffers
 * compared whole. Prints what differs; exit status 1 where anything does.
 */
#include "../include/blathersike.h"

#include <stddef.h>
#include <stdio.h>
#include <stdlib.h>
#include <string.h>

static int failed;

/* The answer, and every element of a buffer: those written, and behind them the old ones, which were all of one value. */
static void expect(const char *what, const uint64_t got[2], uint64_t number, uint64_t value)
{
    if (got[0] != number || got[1] != value) {
        printf("%s: answered %llu %llu, not %llu %llu\n", what, (unsigned long long)got[0], (unsigned long long)got[1],
               (unsigned long long)number, (unsigned long long)value);
        failed = 1;
    }
}

static void holds(const char *what, const void *got, const void *wanted, size_t bytes)
{
    if (memcmp(got, wanted, bytes) != 0) {
        printf("%s: the buffer differs\n", what);
        failed = 1;
    }
}

static const uint16_t v[4] = {0, 0, 1, 4}, w[4] = {0, 0, 2, 1}, wrong[3] = {0, 0, 3};
static const uint16_t table[9] = {1, 2, 4, 0, 4, 5, 5, 3, 6};
static const char text[] = "((0,(1,2)),3);";
static const uint8_t record[2] = {0x00, 0x8C}, padded[2] = {0x00, 0x41};

static void fill(uint16_t *xs, size_t n)
{
    for (size_t k = 0; k < n; k++)
        xs[k] = 7777;
}

static void tables(void)
{
    uint64_t a[2];
    uint16_t out[12], full[12] = {1, 2, 4, 0, 4, 5, 5, 3, 6, 7777, 7777, 7777}, old[12];
    fill(old, 12);
    fill(out, 12);
    blathersike_to_table(v, 4, out, 12, a);
    expect("to_table", a, 0, 9);
    holds("to_table", out, full, sizeof out);
    fill(out, 12);
    blathersike_to_table(v, 4, out, 8, a);
    expect("to_table, short", a, 3, 9);
    holds("to_table, short", out, old, sizeof out);
    uint16_t back[6] = {0, 0, 1, 4, 7777, 7777};
    fill(out, 12);
    blathersike_from_table(4, table, 9, out, 6, a);
    expect("from_table", a, 0, 4);
    holds("from_table", out, back, sizeof back);
    fill(out, 12);
    blathersike_from_table(4294967295u, table, 9, out, 6, a);
    expect("from_table, many leaves", a, 1, 0);
    holds("from_table, many leaves", out, old, sizeof out);
}

static void texts(void)
{
    uint64_t a[2];
    uint8_t bytes[16], full[16] = "((0,(1,2)),3);??", old[16];
    uint16_t out[4], none[4];
    memset(old, '?', 16);
    memset(bytes, '?', 16);
    blathersike_to_newick(v, 4, bytes, 16, a);
    expect("to_newick", a, 0, 14);
    holds("to_newick", bytes, full, 16);
    memset(bytes, '?', 16);
    blathersike_to_newick(wrong, 3, bytes, 16, a);
    expect("to_newick, entry", a, 4, 2);
    holds("to_newick, entry", bytes, old, 16);
    fill(none, 4);
    fill(out, 4);
    blathersike_from_newick((const uint8_t *)text, 14, out, 4, a);
    expect("from_newick", a, 0, 4);
    holds("from_newick", out, v, sizeof v);
    fill(out, 4);
    blathersike_from_newick((const uint8_t *)"(0,1,2);", 8, out, 4, a);
    expect("from_newick, grammar", a, 8, 4);
    holds("from_newick, grammar", out, none, sizeof none);
    blathersike_from_newick((const uint8_t *)"((0,7),0);", 10, out, 4, a);
    expect("from_newick, stray label", a, 9, 4);
    holds("from_newick, stray label", out, none, sizeof none);
    blathersike_from_newick((const uint8_t *)"((0,0),7);", 10, out, 4, a);
    expect("from_newick, double label", a, 13, 4);
    holds("from_newick, double label", out, none, sizeof none);
}

/* Blanks are passed over between the signs, part a label inside it, and count in the places. */
static void blanks(void)
{
    uint64_t a[2];
    uint16_t out[4], none[4], pair[4] = {0, 0, 7777, 7777};
    static uint8_t spaces[65537];
    memset(spaces, ' ', sizeof spaces);
    fill(none, 4);
    fill(out, 4);
    blathersike_from_newick((const uint8_t *)"( 0 , 1 ) ; ", 12, out, 4, a);
    expect("from_newick, blanks", a, 0, 2);
    holds("from_newick, blanks", out, pair, sizeof pair);
    fill(out, 4);
    blathersike_from_newick((const uint8_t *)"1 2;", 4, out, 4, a);
    expect("from_newick, parted label", a, 8, 2);
    blathersike_from_newick((const uint8_t *)"(0,\r\n\t7);", 9, out, 4, a);
    expect("from_newick, stray label behind blanks", a, 9, 6);
    blathersike_from_newick(spaces, 65536, out, 4, a);
    expect("from_newick, blanks alone", a, 8, 65536);
    blathersike_from_newick(spaces, 65537, out, 4, a);
    expect("from_newick, too many bytes", a, 2, 65536);
    holds("from_newick, blanks refused", out, none, sizeof none);
}

static void records(void)
{
    uint64_t a[2];
    uint8_t bytes[3] = {9, 9, 9}, full[3] = {0x00, 0x8C, 9};
    uint16_t out[4], none[4];
    blathersike_pack(v, 4, bytes, 3, a);
    expect("pack", a, 0, 2);
    holds("pack", bytes, full, 3);
    blathersike_pack(v, 4, bytes, 1, a);
    expect("pack, short", a, 3, 2);
    holds("pack, short", bytes, full, 3);
    fill(none, 4);
    fill(out, 4);
    blathersike_unpack(record, 2, out, 4, a);
    expect("unpack", a, 0, 4);
    holds("unpack", out, v, sizeof v);
    fill(out, 4);
    blathersike_unpack(padded, 2, out, 4, a);
    expect("unpack, padding", a, 10, 1);
    holds("unpack, padding", out, none, sizeof none);
}

static void labels(void)
{
    uint64_t a[2];
    uint16_t new_labels[4], out[4], none[4];
    static const uint16_t wanted[4] = {0, 2, 1, 3}, ordered[4] = {0, 0, 0, 2};
    static const uint16_t p[4] = {1, 0, 2, 3}, twice[4] = {1, 1, 2, 3}, relabelled[4] = {0, 0, 0, 4};
    fill(none, 4);
    fill(new_labels, 4);
    fill(out, 4);
    blathersike_shuffle(w, 4, new_labels, 4, out, 3, a);
    expect("shuffle, short", a, 3, 4);
    holds("shuffle, short", new_labels, none, sizeof none);
    holds("shuffle, short", out, none, sizeof none);
    blathersike_shuffle(w, 4, new_labels, 4, out, 4, a);
    expect("shuffle", a, 0, 4);
    holds("shuffle, labels", new_labels, wanted, sizeof wanted);
    holds("shuffle, vector", out, ordered, sizeof ordered);
    fill(out, 4);
    blathersike_relabel(v, 4, twice, 4, out, 4, a);
    expect("relabel, twice", a, 11, 1);
    holds("relabel, twice", out, none, sizeof none);
    blathersike_relabel(v, 4, p, 4, out, 4, a);
    expect("relabel", a, 0, 4);
    holds("relabel", out, relabelled, sizeof relabelled);
}

/* 0,0,1,4 and 0,0,2,1; no tree; three trees of one leaf, and as many as there can be. */
static const uint8_t two_trees[6] = {0x00, 0x80, 0x00, 0x02, 0x60, 0x88}, no_trees[4] = {0x00, 0x80, 0x00, 0x00};
static const uint8_t three_leaves[4] = {0x00, 0x20, 0x00, 0x03}, most_leaves[4] = {0x00, 0x3F, 0xFF, 0xFF};

static void archives_written(void)
{
    uint64_t a[2];
    uint16_t entries[8] = {0, 0, 1, 4, 0, 0, 2, 1};
    uint8_t out[8], old[8], full[8] = {0x00, 0x80, 0x00, 0x02, 0x60, 0x88, '?', '?'};
    memset(old, '?', 8);
    memset(out, '?', 8);
    blathersike_write_archive(4, entries, 8, out, 5, a);
    expect("write_archive, short", a, 3, 6);
    blathersike_write_archive(4, entries, 7, out, 8, a);
    expect("write_archive, no whole vectors", a, 2, 8);
    blathersike_write_archive(SIZE_MAX, entries, 8, out, 8, a);
    expect("write_archive, many leaves", a, 1, 0);
    entries[7] = 5;
    blathersike_write_archive(4, entries, 8, out, 8, a);
    expect("write_archive, entry", a, 4, 7);
    holds("write_archive, refused", out, old, 8);
    entries[7] = 1;
    blathersike_write_archive(4, entries, 8, out, 8, a);
    expect("write_archive", a, 0, 6);
    holds("write_archive", out, full, 8);
    blathersike_write_archive(4, entries, 0, out, 8, a);
    expect("write_archive, no trees", a, 0, 4);
    holds("write_archive, no trees", out, no_trees, 4);
    holds("write_archive, no trees", out + 4, full + 4, 4);
}

/* As many trees of one leaf as an archive counts, and one more. */
static void archives_full(void)
{
    uint64_t a[2];
    uint8_t out[4] = {9, 9, 9, 9}, old[4] = {9, 9, 9, 9};
    size_t most = 2097151;
    uint16_t *zeros = calloc(most + 1, sizeof *zeros);
    if (!zeros) {
        puts("write_archive, full: no memory");
        failed = 1;
        return;
    }
    blathersike_write_archive(1, zeros, most + 1, out, 4, a);
    expect("write_archive, too many trees", a, 21, most);
    holds("write_archive, too many trees", out, old, 4);
    blathersike_write_archive(1, zeros, most, out, 4, a);
    expect("write_archive, full", a, 0, 4);
    holds("write_archive, full", out, most_leaves, 4);
    free(zeros);
}

static void trees_read(void)
{
    uint64_t a[2];
    uint16_t out[5], none[5], first[5] = {0, 0, 1, 4, 7777}, second[5] = {0, 0, 2, 1, 7777};
    static const uint8_t padded_tree[6] = {0x00, 0x80, 0x00, 0x02, 0x61, 0x88};
    fill(none, 5);
    fill(out, 5);
    blathersike_read_tree(two_trees, 6, 2, out, 5, a);
    expect("read_tree, no such tree", a, 12, 2);
    blathersike_read_tree(two_trees, 6, SIZE_MAX, out, 5, a);
    expect("read_tree, no such tree", a, 12, UINT64_MAX);
    blathersike_read_tree(two_trees, 5, 0, out, 5, a);
    expect("read_tree, cut", a, 2, 6);
    blathersike_read_tree(two_trees, 3, 0, out, 5, a);
    expect("read_tree, no header", a, 2, 4);
    blathersike_read_tree(padded_tree, 6, 0, out, 5, a);
    expect("read_tree, padding", a, 10, 0);
    blathersike_read_tree(two_trees, 6, 0, out, 3, a);
    expect("read_tree, short", a, 3, 4);
    holds("read_tree, refused", out, none, sizeof none);
    blathersike_read_tree(two_trees, 6, 0, out, 5, a);
    expect("read_tree, first", a, 0, 4);
    holds("read_tree, first", out, first, sizeof first);
    blathersike_read_tree(padded_tree, 6, 1, out, 5, a);
    expect("read_tree, second", a, 0, 4);
    holds("read_tree, second", out, second, sizeof second);
    fill(out, 5);
    blathersike_read_tree(most_leaves, 4, 2097150, out, 5, a);
    expect("read_tree, last of all", a, 0, 1);
    none[0] = 0;
    holds("read_tree, last of all", out, none, sizeof none);
}

static void views(void)
{
    uint64_t part[2] = {7, 7};
    blathersike_view(two_trees, 6, 1, part);
    expect("view", part, 5, 1);
    blathersike_view(two_trees, 6, 2, part);
    expect("view, no such tree", part, 0, 0);
    blathersike_view(three_leaves, 4, 2, part);
    expect("view, no bytes", part, 4, 0);
    blathersike_view(two_trees, 5, 0, part);
    expect("view, cut", part, 0, 0);
}

_Static_assert(sizeof(struct blathersike_clade) == 16, "an entry of a clade table has no gaps");
_Static_assert(offsetof(struct blathersike_clade, leaves) == 0, "the leaf set is first");
_Static_assert(offsetof(struct blathersike_clade, size) == 8, "then the size");
_Static_assert(offsetof(struct blathersike_clade, count) == 12, "then the count");

#define ENTRIES 6

static const struct blathersike_clade old_entry = {7777, 77, 7};

static void fill_clades(struct blathersike_clade *out)
{
    for (size_t k = 0; k < ENTRIES; k++)
        out[k] = old_entry;
}

/* The trees ((0,1),2); ((0,(1,2)),3) and ((0,(1,3)),2); (0,1) as often as there can be one. */
static void clade_tables(void)
{
    uint64_t a[2];
    struct blathersike_clade out[ENTRIES], full[ENTRIES] = {{3, 2, 1}, {7, 3, 1}};
    static const uint8_t one_tree[5] = {0x00, 0x60, 0x00, 0x01, 0x80}, most_pairs[4] = {0x00, 0x5F, 0xFF, 0xFF};
    struct blathersike_clade two[ENTRIES] = {{6, 2, 1}, {7, 3, 1}, {10, 2, 1}, {11, 3, 1}, {15, 4, 2}};
    full[2] = full[3] = full[4] = full[5] = two[5] = old_entry;
    fill_clades(out);
    blathersike_clade_table(one_tree, 5, out, ENTRIES, a);
    expect("clade_table, one tree", a, 0, 2);
    holds("clade_table, one tree", out, full, sizeof full);
    fill_clades(out);
    blathersike_clade_table(two_trees, 6, out, 5, a);
    expect("clade_table, two trees", a, 0, 5);
    holds("clade_table, two trees", out, two, sizeof two);
    fill_clades(out);
    blathersike_clade_table(most_pairs, 4, out, 1, a);
    expect("clade_table, most trees", a, 0, 1);
    full[0].count = 2097151;
    full[1] = old_entry;
    holds("clade_table, most trees", out, full, sizeof full);
}

/* Done with no entries, or refused: nothing is written. */
static void clade_tables_empty(void)
{
    static const struct {
        const char *what;
        uint8_t archive[6];
        size_t length, room;
        uint64_t number, value;
    } cases[] = {
        {"no trees", {0x00, 0x80, 0x00, 0x00}, 4, 6, 0, 0},
        {"one leaf", {0x00, 0x3F, 0xFF, 0xFF}, 4, 6, 0, 0},
        {"no header", {0x00, 0x80, 0x00}, 3, 6, 2, 4},
        {"no leaves", {0x00, 0x00, 0x00, 0x02}, 4, 6, 1, 0},
        {"many leaves", {0xFF, 0xE0, 0x00, 0x00}, 4, 6, 1, 0},
        {"65 leaves", {0x08, 0x20, 0x00, 0x00}, 4, 6, 14, 65},
        {"1,024 leaves, and cut", {0x80, 0x00, 0x00, 0x01}, 4, 6, 14, 1024},
        {"cut", {0x00, 0x80, 0x00, 0x02, 0x60}, 5, 6, 2, 6},
        {"padding before an entry", {0x00, 0x80, 0x00, 0x02, 0x61, 0xA8}, 6, 0, 10, 0},
        {"entry before padding", {0x00, 0x80, 0x00, 0x02, 0x60, 0xA9}, 6, 0, 4, 3},
        {"short", {0x00, 0x60, 0x00, 0x01, 0x80}, 5, 1, 15, 2},
        {"no room", {0x00, 0x80, 0x00, 0x02, 0x60, 0x88}, 6, 0, 15, 5},
    };
    struct blathersike_clade out[ENTRIES], old[ENTRIES];
    fill_clades(old);
    for (size_t k = 0; k < sizeof cases / sizeof *cases; k++) {
        uint64_t a[2];
        char what[64];
        snprintf(what, sizeof what, "clade_table, %s", cases[k].what);
        fill_clades(out);
        blathersike_clade_table(cases[k].archive, cases[k].length, out, cases[k].room, a);
        expect(what, a, cases[k].number, cases[k].value);
        holds(what, out, old, sizeof old);
    }
}

int main(void)
{
    uint64_t a[2];
    blathersike_check(v, 4, a);
    expect("check", a, 0, 0);
    blathersike_check(wrong, 3, a);
    expect("check, entry", a, 4, 2);
    tables();
    texts();
    blanks();
    records();
    labels();
    archives_written();
    archives_full();
    trees_read();
    views();
    clade_tables();
    clade_tables_empty();
    puts(failed ? "the C interface: FAILED" : "the C interface: as the rules say");
    return failed;
}
