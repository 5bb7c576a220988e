/*
 * stack.c: how many bytes of stack each call of the library takes at its deepest, over trees of 1,024 leaves; the clade table over
 * trees of 64, one and so many that they have thousands of different clades.
 *
 * A call runs on a stack of its own that is painted with one byte before. The lowest byte that changed says how deep the call
 * went. What a call of nothing takes is left out.
 */
#include <stdint.h>
#include <stdio.h>
#include <stdlib.h>
#include <string.h>
#include <ucontext.h>

#include "blathersike.h"

#define LEAVES 1024
#define TEXT 6056
#define RECORD 1280
#define PAINT 0xa5
#define SET_LEAVES 64
#define SET_RECORD 48
#define SET_TREES 400

static uint8_t stack[1 << 20] __attribute__((aligned(64)));
static ucontext_t here, there;

static size_t taken(void (*call)(void)) {
    memset(stack, PAINT, sizeof stack);
    getcontext(&there);
    there.uc_stack.ss_sp = stack;
    there.uc_stack.ss_size = sizeof stack;
    there.uc_link = &here;
    makecontext(&there, call, 0);
    swapcontext(&here, &there);
    size_t k = 0;
    while (k < sizeof stack && stack[k] == PAINT) k++;
    return sizeof stack - k;
}

/* ---- The trees, and a text that breaks off at its deepest, without blanks and with them ---- */

static uint16_t v[LEAVES], rows[3 * LEAVES], permutation[LEAVES], numbers[3 * LEAVES], labels[LEAVES];
static uint8_t text[TEXT], record[RECORD], archive[4 + RECORD], bytes[TEXT];
static size_t rows_length, text_length, record_length, archive_length;
static uint64_t answer[2];
static uint8_t one_tree[4 + SET_RECORD], many_trees[4 + SET_TREES * SET_RECORD];
static size_t one_length, many_length;
static uint16_t run[SET_TREES * SET_LEAVES];
static struct blathersike_clade clades[SET_TREES * SET_LEAVES];

static size_t any_entry(size_t i) { return (size_t)rand() % (2 * i - 1); }
static size_t zero_entry(size_t i) { return 0 * i; }
static size_t prior_entry(size_t i) { return i - 1; }
static size_t root_entry(size_t i) { return 2 * (i - 1); }
static size_t middle_entry(size_t i) { return i < 2 ? 0 : i + (i - 2) / 2; }

static size_t (*const kinds[])(size_t) = {any_entry, zero_entry, prior_entry, root_entry, middle_entry};

static size_t written(const char *what) {
    if (answer[0]) fprintf(stderr, "stack: %s refused\n", what), exit(1);
    return answer[1];
}

static void make_tree(size_t (*entry)(size_t)) {
    for (size_t i = 1; i < LEAVES; i++) v[i] = (uint16_t)entry(i);
    for (size_t x = 0; x < LEAVES; x++) permutation[x] = (uint16_t)(LEAVES - 1 - x);
    blathersike_to_table(v, LEAVES, rows, 3 * LEAVES, answer);
    rows_length = written("to_table");
    blathersike_to_newick(v, LEAVES, text, TEXT, answer);
    text_length = written("to_newick");
    blathersike_pack(v, LEAVES, record, RECORD, answer);
    record_length = written("pack");
    blathersike_write_archive(LEAVES, v, LEAVES, archive, sizeof archive, answer);
    archive_length = written("write_archive");
    blathersike_write_archive(SET_LEAVES, v, SET_LEAVES, one_tree, sizeof one_tree, answer); /* the front of a vector is one */
    one_length = written("write_archive");
}

static void make_run(void) {
    for (size_t k = 0; k < SET_TREES * SET_LEAVES; k++) run[k] = (uint16_t)(k % SET_LEAVES ? any_entry(k % SET_LEAVES) : 0);
    blathersike_write_archive(SET_LEAVES, run, SET_TREES * SET_LEAVES, many_trees, sizeof many_trees, answer);
    many_length = written("write_archive");
}

/* ---- The calls ---- */

static void nothing(void) {}
static void check(void) { blathersike_check(v, LEAVES, answer); }
static void to_table(void) { blathersike_to_table(v, LEAVES, numbers, 3 * LEAVES, answer); }
static void from_table(void) { blathersike_from_table(LEAVES, rows, rows_length, numbers, 3 * LEAVES, answer); }
static void to_newick(void) { blathersike_to_newick(v, LEAVES, bytes, TEXT, answer); }
static void from_newick(void) { blathersike_from_newick(text, text_length, numbers, 3 * LEAVES, answer); }
static void pack(void) { blathersike_pack(v, LEAVES, bytes, TEXT, answer); }
static void unpack(void) { blathersike_unpack(record, record_length, numbers, 3 * LEAVES, answer); }
static void shuffle(void) { blathersike_shuffle(v, LEAVES, labels, LEAVES, numbers, 3 * LEAVES, answer); }
static void write_archive(void) { blathersike_write_archive(LEAVES, v, LEAVES, bytes, TEXT, answer); }
static void read_tree(void) { blathersike_read_tree(archive, archive_length, 0, numbers, 3 * LEAVES, answer); }
static void view(void) { blathersike_view(archive, archive_length, 0, answer); }
static void relabel(void) { blathersike_relabel(v, LEAVES, permutation, LEAVES, numbers, 3 * LEAVES, answer); }

/* With no room, exactly enough, and room for all clades of all trees: these may be different ways. */
static void clade_table(void) {
    blathersike_clade_table(one_tree, one_length, clades, SET_LEAVES, answer);
    blathersike_clade_table(many_trees, many_length, clades, 0, answer);
    blathersike_clade_table(many_trees, many_length, clades, answer[1], answer);
    blathersike_clade_table(many_trees, many_length, clades, SET_TREES * SET_LEAVES, answer);
}

static struct {
    const char *name;
    void (*call)(void);
    size_t most;
} calls[] = {
    {"check", check, 0},             {"to_table", to_table, 0}, {"from_table", from_table, 0}, {"to_newick", to_newick, 0},
    {"from_newick", from_newick, 0}, {"pack", pack, 0},         {"unpack", unpack, 0},         {"shuffle", shuffle, 0},
    {"relabel", relabel, 0},         {"write_archive", write_archive, 0},
    {"read_tree", read_tree, 0},     {"view", view, 0},         {"clade_table", clade_table, 0},
};

static void try_all(void) {
    for (size_t k = 0; k < sizeof calls / sizeof *calls; k++) {
        size_t used = taken(calls[k].call);
        if (used > calls[k].most) calls[k].most = used;
    }
}

int main(void) {
    size_t least = taken(nothing);
    make_run();
    srand(1); /* as if no run had been made */
    for (size_t k = 0; k < sizeof kinds / sizeof *kinds; k++) make_tree(kinds[k]), try_all();
    memset(text, '(', text_length = TEXT);
    try_all();
    for (size_t k = 1; k < TEXT; k += 2) text[k] = ' ';
    try_all();
    for (size_t k = 0; k < sizeof calls / sizeof *calls; k++) printf("%-14s %7zu\n", calls[k].name, calls[k].most - least);
    return 0;
}
