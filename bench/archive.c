/*
 * archive.c: runs one call on an archive of seeded trees, as often as asked, for an instruction counter to watch.
 *
 *   archive FUNCTION LEAVES TREES PLAIN LIBRARY
 *
 * FUNCTION is write_archive or read_tree, which reads the middle tree. PLAIN and LIBRARY say how often the plain C and the
 * library are run. Before that the two are compared.
 */
#include <stdint.h>
#include <stdio.h>
#include <stdlib.h>
#include <string.h>

#include "blathersike.h"
#include "plain.h"

#define LEAVES 1024
#define TREES 10000
#define RECORD 1280

static size_t n, trees, tree;
static uint16_t entries[TREES * LEAVES], v[LEAVES];
static uint8_t archive[4 + TREES * RECORD], out[4 + TREES * RECORD];
static uint64_t answer[2];

static void fail(const char *why) {
    fprintf(stderr, "archive: %s\n", why);
    exit(1);
}

static void make_trees(void) {
    uint64_t seed = n;
    for (size_t k = 0; k < n * trees; k++) {
        seed = seed * 6364136223846793005 + 1442695040888963407;
        entries[k] = (uint16_t)(k % n == 0 ? 0 : (seed >> 33) % (2 * (k % n) - 1));
    }
    tree = trees / 2;
}

static void plain_write(void) { answer[1] = plain_write_archive(entries, n, trees, out); }
static void plain_read(void) { answer[1] = plain_read_tree(archive, tree, v); }
static void library_write(void) { blathersike_write_archive(n, entries, n * trees, out, sizeof out, answer); }

static size_t length;

static void library_read(void) { blathersike_read_tree(archive, length, tree, v, LEAVES, answer); }

/* What both write is the same, and the tree is read back. */
static void compare(void) {
    length = plain_write_archive(entries, n, trees, archive);
    library_write();
    if (answer[0] || answer[1] != length || memcmp(out, archive, length)) fail("the archives differ");
    plain_read();
    if (memcmp(v, entries + tree * n, n * sizeof *v)) fail("the plain C does not give the tree back");
    memset(v, 0xaa, sizeof v);
    library_read();
    if (answer[0] || answer[1] != n || memcmp(v, entries + tree * n, n * sizeof *v)) fail("the library does not give the tree back");
}

static void run(void (*function)(void), size_t times) {
    for (size_t k = 0; k < times; k++) function();
}

int main(int count, char **word) {
    if (count != 6) fail("usage: archive FUNCTION LEAVES TREES PLAIN LIBRARY");
    int writes = !strcmp(word[1], "write_archive");
    if (!writes && strcmp(word[1], "read_tree")) fail("no such function");
    n = strtoul(word[2], NULL, 10), trees = strtoul(word[3], NULL, 10);
    if (n < 1 || n > LEAVES || trees < 1 || trees > TREES) fail("1 to 1024 leaves, 1 to 10000 trees");
    make_trees();
    compare();
    run(writes ? plain_write : plain_read, strtoul(word[4], NULL, 10));
    run(writes ? library_write : library_read, strtoul(word[5], NULL, 10));
    return 0;
}
