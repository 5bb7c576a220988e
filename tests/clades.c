/*
 * Makes clade tables of archives: the cases that `second input clades` writes come on standard input, and a line for each
 * goes to standard output, as `second expected clades` writes it. ./test compares the two. second/README.md tells the stream.
 *
 * A case is a byte 13, the archive's length in 4 bytes and its bytes, the room in 4 bytes and a seed in 2, numbers with the
 * least significant byte first; a byte 0 ends the stream. Before the call every field of every entry lent holds a mark of its
 * own. The line is
 *
 *   INDEX 13 ANSWER HASH
 *
 * where HASH is over the whole list after the call: the entries written and those behind them, which must hold their marks;
 * all of them must where the call was refused. One entry more stands behind the list and is not lent: a second line says so
 * if it was changed.
 */
#include "../include/blathersike.h"

#include <stdio.h>
#include <stdlib.h>

#define CALL 13
#define STEP_OF_MARKS 0x9E3779B97F4A7C15u /* odd, so that no two of 2^32 marks have the same lowest 32 bits */

static void fail(const char *why)
{
    fprintf(stderr, "clades: %s\n", why);
    exit(1);
}

static void *some(size_t bytes)
{
    void *room = malloc(bytes + 1); /* not null for no bytes */
    if (!room)
        fail("no memory");
    return room;
}

static uint64_t number(int bytes)
{
    uint64_t all = 0;
    for (int k = 0; k < bytes; k++) {
        int byte = getchar();
        if (byte == EOF)
            fail("the stream ends in a case");
        all |= (uint64_t)byte << 8 * k;
    }
    return all;
}

/* Entry k has the marks 3k, 3k+1 and 3k+2. */
static struct blathersike_clade marked(uint64_t seed, uint64_t k)
{
    struct blathersike_clade c;
    c.leaves = (seed + 3 * k) * STEP_OF_MARKS;
    c.size = (uint32_t)((seed + 3 * k + 1) * STEP_OF_MARKS);
    c.count = (uint32_t)((seed + 3 * k + 2) * STEP_OF_MARKS);
    return c;
}

static int same(struct blathersike_clade a, struct blathersike_clade b)
{
    return a.leaves == b.leaves && a.size == b.size && a.count == b.count;
}

static uint32_t hash_number(uint32_t hash, uint64_t number, int bytes)
{
    for (int k = 0; k < bytes; k++)
        hash = (hash ^ (uint8_t)(number >> 8 * k)) * 0x01000193u;
    return hash;
}

/* FNV-1a in 32 bits over leaves, size and count of each entry. */
static uint32_t hash_list(const struct blathersike_clade *list, size_t room)
{
    uint32_t hash = 0x811C9DC5u;
    for (size_t k = 0; k < room; k++) {
        hash = hash_number(hash, list[k].leaves, 8);
        hash = hash_number(hash, list[k].size, 4);
        hash = hash_number(hash, list[k].count, 4);
    }
    return hash;
}

static void line(size_t index, const uint64_t answer[2], uint32_t hash)
{
    unsigned long long number = answer[0], value = answer[1];
    if (number == 0)
        printf("%zu %d done %llu %08x\n", index, CALL, value, hash);
    else
        printf("%zu %d refused %llu %llu %08x\n", index, CALL, number, value, hash);
}

static void run_case(size_t index)
{
    size_t length = number(4);
    uint8_t *archive = some(length);
    if (fread(archive, 1, length, stdin) != length)
        fail("the stream ends in an archive");
    size_t room = number(4);
    uint64_t seed = number(2), answer[2] = {77, 77};
    struct blathersike_clade *list = some((room + 1) * sizeof *list);
    for (size_t k = 0; k <= room; k++)
        list[k] = marked(seed, k);
    blathersike_clade_table(archive, length, list, room, answer);
    line(index, answer, hash_list(list, room));
    if (!same(list[room], marked(seed, room)))
        printf("%zu: written behind the list\n", index);
    free(list);
    free(archive);
}

int main(void)
{
    size_t index = 0;
    int call;
    while ((call = getchar()) == CALL)
        run_case(index++);
    if (call != 0 || getchar() != EOF)
        fail("the stream does not end with a byte 0");
    return 0;
}
