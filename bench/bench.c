/*
 * bench.c: runs one conversion on one seeded tree, as often as asked, for an instruction counter to watch.
 *
 *   bench FUNCTION KIND LEAVES PLAIN LIBRARY
 *
 * PLAIN and LIBRARY say how often the plain C and the library are run. Before that the two are compared on the tree. Exit
 * status 3: the library has no such function.
 */
#include <stdint.h>
#include <stdio.h>
#include <stdlib.h>
#include <string.h>

#include "blathersike.h"
#include "plain.h"

/* A function that the archive lacks has the address 0. */
#pragma weak blathersike_check
#pragma weak blathersike_to_table
#pragma weak blathersike_from_table
#pragma weak blathersike_to_newick
#pragma weak blathersike_from_newick
#pragma weak blathersike_pack
#pragma weak blathersike_unpack
#pragma weak blathersike_shuffle
#pragma weak blathersike_relabel

#define LEAVES 1024
#define TEXT 6056
#define RECORD 1280
#define LACKING 3

/* ---- The tree, in every notation ---- */

static size_t n, rows_length, text_length, spaced_length, record_length;
static uint16_t v[LEAVES], rows[3 * LEAVES], permutation[LEAVES];
static uint8_t text[TEXT], spaced[TEXT + LEAVES], record[RECORD];

static uint64_t seed;

static uint64_t next_random(void) { /* splitmix64 */
    uint64_t z = seed += 0x9e3779b97f4a7c15;
    z = (z ^ z >> 30) * 0xbf58476d1ce4e5b9;
    z = (z ^ z >> 27) * 0x94d049bb133111eb;
    return z ^ z >> 31;
}

static size_t below(size_t end) { return next_random() % end; }

static size_t random_entry(size_t i) { return below(2 * i - 1); }
static size_t ordered_entry(size_t i) { return below(i); }
static size_t zero_entry(size_t i) { return 0 * i; }
static size_t prior_entry(size_t i) { return i - 1; }
static size_t root_entry(size_t i) { return 2 * (i - 1); }
static size_t middle_entry(size_t i) { return i < 2 ? 0 : i + (i - 2) / 2; }

static const struct kind {
    const char *name;
    size_t (*entry)(size_t i);
} kinds[] = {
    {"random", random_entry},   /* any vector, each as likely */
    {"ordered", ordered_entry}, /* any ordered tree, each as likely */
    {"zeros", zero_entry},      /* a ladder: each leaf beside leaf 0 */
    {"prior", prior_entry},     /* a ladder: each leaf beside the one before */
    {"root", root_entry},       /* a ladder: each leaf above all before */
    {"middle", middle_entry},   /* each merge in the middle of those before: the worst for a list */
};

static void make_permutation(void) {
    for (size_t x = 0; x < n; x++) {
        size_t y = below(x + 1);
        permutation[x] = permutation[y];
        permutation[y] = (uint16_t)x;
    }
}

/* The text with a blank behind every comma. */
static void make_spaced(void) {
    spaced_length = 0;
    for (size_t k = 0; k < text_length; k++) {
        spaced[spaced_length++] = text[k];
        if (text[k] == ',') spaced[spaced_length++] = ' ';
    }
}

static void make_tree(const struct kind *kind, size_t leaves) {
    n = leaves;
    seed = n;
    v[0] = 0;
    for (size_t i = 1; i < n; i++) v[i] = (uint16_t)kind->entry(i);
    make_permutation();
    rows_length = plain_to_table(v, n, rows);
    text_length = plain_to_newick(v, n, text);
    make_spaced();
    record_length = plain_pack(v, n, record);
}

/* ---- The functions. What they write: numbers or bytes, a second list of numbers, and how many ---- */

static uint16_t numbers[3 * LEAVES], labels[LEAVES];
static uint8_t bytes[TEXT];
static uint64_t answer[2];

static void plain_one_check(void) { answer[0] = plain_check(v, n) == n ? 0 : 4; }
static void plain_one_to_table(void) { answer[1] = plain_to_table(v, n, numbers); }
static void plain_one_from_table(void) { answer[1] = plain_from_table(n, rows, numbers); }
static void plain_one_to_newick(void) { answer[1] = plain_to_newick(v, n, bytes); }
static void plain_one_from_newick(void) { answer[1] = plain_from_newick(text, text_length, numbers); }
static void plain_one_from_newick_blanks(void) { answer[1] = plain_from_newick_blanks(spaced, spaced_length, numbers); }
static void plain_one_pack(void) { answer[1] = plain_pack(v, n, bytes); }
static void plain_one_unpack(void) { answer[1] = plain_unpack(record, record_length, numbers); }
static void plain_one_shuffle(void) { answer[1] = plain_shuffle(v, n, labels, numbers); }
static void plain_one_relabel(void) { answer[1] = plain_relabel(v, n, permutation, numbers); }

static void library_check(void) { blathersike_check(v, n, answer); }
static void library_to_table(void) { blathersike_to_table(v, n, numbers, 3 * LEAVES, answer); }
static void library_from_table(void) { blathersike_from_table(n, rows, rows_length, numbers, 3 * LEAVES, answer); }
static void library_to_newick(void) { blathersike_to_newick(v, n, bytes, TEXT, answer); }
static void library_from_newick(void) { blathersike_from_newick(text, text_length, numbers, 3 * LEAVES, answer); }
static void library_from_newick_blanks(void) { blathersike_from_newick(spaced, spaced_length, numbers, 3 * LEAVES, answer); }
static void library_pack(void) { blathersike_pack(v, n, bytes, TEXT, answer); }
static void library_unpack(void) { blathersike_unpack(record, record_length, numbers, 3 * LEAVES, answer); }
static void library_shuffle(void) { blathersike_shuffle(v, n, labels, LEAVES, numbers, 3 * LEAVES, answer); }
static void library_relabel(void) { blathersike_relabel(v, n, permutation, n, numbers, 3 * LEAVES, answer); }

#define MEASURE(name, call, back) {#name, plain_one_##name, library_##name, (void (*)(void))blathersike_##call, back}
#define FUNCTION(name, back) MEASURE(name, name, back)

static const struct function {
    const char *name;
    void (*plain)(void), (*library)(void);
    void (*had)(void); /* NULL if the library lacks it */
    int back;          /* whether it gives the vector back */
} functions[] = {
    FUNCTION(check, 0),       FUNCTION(to_table, 0), FUNCTION(from_table, 1), FUNCTION(to_newick, 0),
    FUNCTION(from_newick, 1), FUNCTION(pack, 0),     FUNCTION(unpack, 1),     FUNCTION(shuffle, 0),
    FUNCTION(relabel, 0),     MEASURE(from_newick_blanks, from_newick, 1),
};

/* ---- Comparing ---- */

struct result {
    uint16_t numbers[3 * LEAVES], labels[LEAVES];
    uint8_t bytes[TEXT];
    uint64_t answer[2];
};

static void run_once(void (*function)(void), struct result *r) {
    memset(numbers, 0xaa, sizeof numbers);
    memset(labels, 0xaa, sizeof labels);
    memset(bytes, 0xaa, sizeof bytes);
    memset(answer, 0, sizeof answer);
    function();
    memcpy(r->numbers, numbers, sizeof numbers);
    memcpy(r->labels, labels, sizeof labels);
    memcpy(r->bytes, bytes, sizeof bytes);
    memcpy(r->answer, answer, sizeof answer);
}

static void fail(const char *why) {
    fprintf(stderr, "bench: %s\n", why);
    exit(1);
}

static void compare(const struct function *f) {
    static struct result plain, library;
    run_once(f->plain, &plain);
    if (f->back && (plain.answer[1] != n || memcmp(plain.numbers, v, n * sizeof *v)))
        fail("the plain C does not give the vector back");
    if (!f->had) return;
    run_once(f->library, &library);
    if (memcmp(&plain, &library, sizeof plain)) fail("the plain C and the library differ");
}

/* ---- Arguments ---- */

static const struct kind *find_kind(const char *name) {
    for (size_t k = 0; k < sizeof kinds / sizeof *kinds; k++)
        if (!strcmp(kinds[k].name, name)) return &kinds[k];
    fail("no such kind");
    return NULL;
}

static const struct function *find_function(const char *name) {
    for (size_t k = 0; k < sizeof functions / sizeof *functions; k++)
        if (!strcmp(functions[k].name, name)) return &functions[k];
    fail("no such function");
    return NULL;
}

static void run(void (*function)(void), size_t times) {
    for (size_t k = 0; k < times; k++) function();
}

int main(int count, char **word) {
    if (count != 6) fail("usage: bench FUNCTION KIND LEAVES PLAIN LIBRARY");
    const struct function *f = find_function(word[1]);
    size_t leaves = strtoul(word[3], NULL, 10), plain = strtoul(word[4], NULL, 10), library = strtoul(word[5], NULL, 10);
    if (leaves < 1 || leaves > LEAVES) fail("1 to 1024 leaves");
    if (library && !f->had) return LACKING;
    make_tree(find_kind(word[2]), leaves);
    compare(f);
    run(f->plain, plain);
    run(f->library, library);
    return 0;
}
