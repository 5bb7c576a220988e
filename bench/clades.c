/*
 * clades.c: makes the clade table of an archive of seeded trees, as often as asked, for an instruction counter to watch.
 *
 *   clades KIND LEAVES TREES ROOM PLAIN LIBRARY
 *   clades KIND LEAVES TREES ROOM
 *
 * ROOM is `exact`, an entry for each different clade, or `all`, one for each clade of each tree. PLAIN and LIBRARY say how
 * often the plain C and the library are run. Without them the two are compared, and the number of different clades is
 * printed: a comparison may take minutes when it is counted. Exit status 3: the library has no such function.
 */
#include <stdint.h>
#include <stdio.h>
#include <stdlib.h>
#include <string.h>

#include "blathersike.h"
#include "plain.h"

/* Where the archive lacks it, it has the address 0. */
#pragma weak blathersike_clade_table

#define LEAVES 64
#define TREES 10000
#define RECORD 48
#define LACKING 3

static size_t n, trees, length, room;
static uint16_t entries[TREES * LEAVES];
static uint8_t archive[4 + TREES * RECORD];
static struct blathersike_clade plain[TREES * LEAVES], library[TREES * LEAVES];
static uint64_t answer[2];

static void fail(const char *why) {
    fprintf(stderr, "clades: %s\n", why);
    exit(1);
}

/* ---- The trees ---- */

static uint64_t seed = 1;

static size_t below(size_t end) {
    seed = seed * 6364136223846793005 + 1442695040888963407;
    return (seed >> 33) % end;
}

/* A run that has settled moves about a few trees: now and then one of its last leaves hangs elsewhere. */
static const struct kind {
    const char *name;
    size_t loose; /* how many of the last entries may change */
    size_t every; /* one entry changes in so many trees, by chance; 0: none; 1: all loose ones, in every tree */
} kinds[] = {
    {"equal", 0, 0},   /* one tree again and again */
    {"few", 24, 65},   /* with 64 leaves and 10,000 trees some 2,000 different clades */
    {"many", 32, 14},  /* some 10,000 */
    {"random", 62, 1}, /* some 400,000: nearly all but the pairs of leaves are different */
};

static uint16_t any_entry(size_t i) { return (uint16_t)(i == 0 ? 0 : below(2 * i - 1)); }

static void next_tree(const struct kind *kind, uint16_t *v) {
    size_t loose = kind->loose < n ? kind->loose : n;
    if (kind->every == 1)
        for (size_t i = n - loose; i < n; i++) v[i] = any_entry(i);
    else if (kind->every && below(kind->every) == 0) {
        size_t i = n - 1 - below(loose);
        v[i] = any_entry(i);
    }
}

static void make_archive(const struct kind *kind) {
    uint16_t v[LEAVES];
    for (size_t i = 0; i < n; i++) v[i] = any_entry(i);
    for (size_t tree = 0; tree < trees; tree++) {
        memcpy(entries + tree * n, v, n * sizeof *v);
        next_tree(kind, v);
    }
    length = plain_write_archive(entries, n, trees, archive);
}

/* ---- The runs ---- */

static void run_plain(void) { plain_clade_table(archive, plain); }
static void run_library(void) { blathersike_clade_table(archive, length, library, room, answer); }

static void run(void (*function)(void), size_t times) {
    for (size_t k = 0; k < times; k++) function();
}

/* What both write is the same, and nothing stands behind it. */
static void compare(size_t different) {
    memset(plain, 0xaa, sizeof plain);
    memset(library, 0xaa, sizeof library);
    run_plain();
    run_library();
    if (answer[0] || answer[1] != different || memcmp(plain, library, sizeof plain)) fail("the plain C and the library differ");
}

static const struct kind *find_kind(const char *name) {
    for (size_t k = 0; k < sizeof kinds / sizeof *kinds; k++)
        if (!strcmp(kinds[k].name, name)) return &kinds[k];
    fail("no such kind");
    return NULL;
}

int main(int count, char **word) {
    if (count != 5 && count != 7) fail("usage: clades KIND LEAVES TREES ROOM [PLAIN LIBRARY]");
    n = strtoul(word[2], NULL, 10), trees = strtoul(word[3], NULL, 10);
    if (n < 3 || n > LEAVES || trees < 1 || trees > TREES) fail("3 to 64 leaves, 1 to 10000 trees");
    int had = (void (*)(void))blathersike_clade_table != NULL;
    make_archive(find_kind(word[1]));
    size_t different = plain_clade_table(archive, plain);
    room = strcmp(word[4], "exact") ? trees * (n - 1) : different;
    if (count == 5) {
        if (had) compare(different);
        printf("%zu\n", different);
        return 0;
    }
    if (strtoul(word[6], NULL, 10) && !had) return LACKING;
    run(run_plain, strtoul(word[5], NULL, 10));
    run(run_library, strtoul(word[6], NULL, 10));
    return 0;
}
