/*
 * plain.c: see plain.h. The parts: fills, vector to merges, merges to vector, then each notation, the clade table, the leaves, the
 * check.
 */
#include "plain.h"

#include <stdlib.h>
#include <string.h>

#define LEAVES 1024

/* Sixteen bytes or eight numbers, which one instruction loads, adds or stores. */
typedef uint8_t bytes __attribute__((vector_size(16), aligned(1), may_alias));
typedef uint16_t eight __attribute__((vector_size(16), aligned(2), may_alias));

/* ---- Fills ---- */

#define SPARE 8 /* elements behind an array, since it is filled by eights */

static inline void fill(uint16_t *to, size_t n, uint16_t value) {
    eight all = value - (eight){0};
    for (size_t at = 0; at < n; at += 8) *(eight *)(to + at) = all;
}

static inline void fill_rising(uint16_t *to, size_t n) {
    eight all = {0, 1, 2, 3, 4, 5, 6, 7};
    for (size_t at = 0; at < n; at += 8, all += 8) *(eight *)(to + at) = all;
}

/* ---- Vector to merges ---- */

#define STEP 32 /* elements moved in one turn: the fewer turns, the fewer tests */

/*
 * The merges in their order. A larger name merges away once, so the list holds larger names only, and the smaller name of
 * each stands beside: half the bytes to move.
 */
struct merges {
    uint16_t room[2 * LEAVES + 2 * STEP];
    uint16_t small[LEAVES];
    const uint16_t *large; /* the list, somewhere in room */
};

static inline void copy_step(uint16_t *to, const uint16_t *from) {
    eight a = *(const eight *)from, b = *(const eight *)(from + 8);
    eight c = *(const eight *)(from + 16), d = *(const eight *)(from + 24);
    *(eight *)to = a, *(eight *)(to + 8) = b;
    *(eight *)(to + 16) = c, *(eight *)(to + 24) = d;
}

/* Both move whole steps that end at the opening. What they move too much lies outside the list. */
static inline void move_down(uint16_t *opening, size_t count) {
    for (uint16_t *at = opening - (count + STEP - 1) / STEP * STEP; at != opening; at += STEP) copy_step(at - 1, at);
}

static inline void move_up(uint16_t *opening, size_t count) {
    for (uint16_t *at = opening + (count + STEP - 1) / STEP * STEP; at != opening; at -= STEP)
        copy_step(at - STEP + 1, at - STEP);
}

/*
 * Leaf i stands before all merges if v(i) < i, else right behind the merge that v(i) counts, and then it has that merge's
 * smaller name. The list lies in the middle of its room and grows at either end, so the shorter side is the one to move.
 */
static void merge_all(struct merges *m, const uint16_t *v, size_t n) {
    uint16_t *low = m->room + LEAVES + STEP, *high = low;
    for (size_t i = 1; i < n; i++) {
        size_t x = v[i];
        if (x < i) {
            m->small[i] = (uint16_t)x;
            *--low = (uint16_t)i;
            continue;
        }
        uint16_t *before = low + (x - i);
        m->small[i] = m->small[*before];
        size_t left = x - i + 1, right = (size_t)(high - low) - left;
        if (left < right) {
            move_down(before + 1, left);
            *before = (uint16_t)i;
            low--;
        } else {
            move_up(before + 1, right);
            before[1] = (uint16_t)i;
            high++;
        }
    }
    m->large = low;
}

/* ---- Merges to vector ---- */

#define NO_PAIR 0xffff

/*
 * A pair is named by its larger name. Its key is the least larger name in its subtree. Pairs merge by falling key: the one
 * whose larger name is its key comes first, and the others of that key are its ancestors and follow upwards. So each key
 * has a chain of pairs, which grows as pairs are met, children before parents, in any such order.
 */
struct chains {
    uint16_t small[LEAVES];
    uint16_t next[LEAVES];         /* the next pair of the chain, 0 at its end */
    uint16_t last[LEAVES + SPARE]; /* the last pair of a key's chain, 0 if there is none */
};

struct cluster {
    unsigned name, key;
};

static inline unsigned lesser(unsigned a, unsigned b) { return a < b ? a : b; }

static inline struct cluster join(struct chains *c, struct cluster a, struct cluster b) {
    unsigned small = lesser(a.name, b.name), large = a.name ^ b.name ^ small;
    unsigned key = lesser(large, lesser(a.key, b.key));
    c->small[large] = (uint16_t)small;
    c->next[large] = 0;
    c->next[c->last[key]] = (uint16_t)large; /* next[0] belongs to no pair */
    c->last[key] = (uint16_t)large;
    return (struct cluster){small, key};
}

#define BLOCK 64
#define BLOCKS (LEAVES / BLOCK)

/* A set of names as counts: those in earlier blocks, and those in the same block below each name. A rank is two loads. */
struct ranks {
    uint16_t blocks[BLOCKS];
    uint8_t names[LEAVES];
};

static const uint16_t later_block[2 * BLOCKS] = {[BLOCKS... 2 * BLOCKS - 1] = 1};
static const uint8_t later_name[2 * BLOCK] = {[BLOCK... 2 * BLOCK - 1] = 1};

static inline void clear_ranks(struct ranks *r, size_t n) {
    bytes none = {0};
    *(bytes *)r->blocks = *(bytes *)(r->blocks + 8) = none;
    for (uint8_t *at = r->names, *end = at + n; at < end; at += BLOCK)
        *(bytes *)at = *(bytes *)(at + 16) = *(bytes *)(at + 32) = *(bytes *)(at + 48) = none;
}

static inline unsigned rank(const struct ranks *r, size_t x) { return r->blocks[x / BLOCK] + r->names[x]; }

static inline void add_rank(struct ranks *r, size_t x) {
    const uint16_t *later = later_block + BLOCKS - 1 - x / BLOCK;
    *(eight *)r->blocks += *(const eight *)later;
    *(eight *)(r->blocks + 8) += *(const eight *)(later + 8);
    uint8_t *names = r->names + x / BLOCK * BLOCK;
    const uint8_t *above = later_name + BLOCK - 1 - x % BLOCK;
    *(bytes *)names += *(const bytes *)above;
    *(bytes *)(names + 16) += *(const bytes *)(above + 16);
    *(bytes *)(names + 32) += *(const bytes *)(above + 32);
    *(bytes *)(names + 48) += *(const bytes *)(above + 48);
}

/*
 * Keys fall. A pair that is its own key has no earlier merge below it: v is its smaller name. Any other pair i of key k has
 * as many as there are own keys from k up to i, and others below i that have merged. Only the others need ranks.
 */
static void chains_to_vector(const struct chains *c, size_t n, uint16_t *v) {
    struct ranks merged;
    clear_ranks(&merged, n);
    unsigned keys = 0;
    for (size_t k = n - 1; k > 0; k--) {
        if (!c->last[k]) {
            v[k] = (uint16_t)(k - 1 - keys);
            continue;
        }
        keys++;
        v[k] = c->small[k];
        for (size_t i = c->next[k]; i; i = c->next[i]) {
            v[i] = (uint16_t)(v[i] + keys + rank(&merged, i));
            add_rank(&merged, i);
        }
    }
    v[0] = 0;
}

/* ---- Table ---- */

size_t plain_to_table(const uint16_t *v, size_t n, uint16_t *rows) {
    struct merges m;
    uint16_t node[LEAVES + SPARE]; /* of each cluster's name */
    merge_all(&m, v, n);
    fill_rising(node, n);
    for (size_t t = 0; t + 1 < n; t++) {
        size_t i = m.large[t], a = m.small[i];
        uint16_t parent = (uint16_t)(n + t);
        rows[3 * t] = node[a];
        rows[3 * t + 1] = node[i];
        rows[3 * t + 2] = parent;
        node[a] = parent;
    }
    return 3 * (n - 1);
}

size_t plain_from_table(size_t n, const uint16_t *rows, uint16_t *v) {
    struct chains c;
    uint16_t name[2 * LEAVES], key[2 * LEAVES]; /* of each node */
    fill_rising(name, n);
    fill(key, n, NO_PAIR);
    fill(c.last, n, 0);
    for (size_t t = 0; t + 1 < n; t++) {
        size_t a = rows[3 * t], b = rows[3 * t + 1];
        struct cluster both = join(&c, (struct cluster){name[a], key[a]}, (struct cluster){name[b], key[b]});
        name[n + t] = (uint16_t)both.name;
        key[n + t] = (uint16_t)both.key;
    }
    chains_to_vector(&c, n, v);
    return n;
}

/* ---- Newick ---- */

/* How many bytes the labels 0 .. n-1 take, each. */
static void label_lengths(uint16_t *length, size_t n) {
    size_t from = 0, end = 10;
    for (uint16_t digits = 1; from < n; digits++, from = end, end *= 10)
        fill(length + from, (n < end ? n : end) - from, digits);
}

static const char two_digits[] =
    "0001020304050607080910111213141516171819202122232425262728293031323334353637383940414243444546474849"
    "5051525354555657585960616263646566676869707172737475767778798081828384858687888990919293949596979899";

/* The labels at their places. The last two digits of each stand in the list above, so those above 99 go by hundreds. */
static void write_labels(uint8_t *text, const uint16_t *start, size_t n) {
    for (size_t x = 0; x < n && x < 10; x++) text[start[x]] = (uint8_t)('0' + x);
    for (size_t x = 10; x < n && x < 100; x++) memcpy(text + start[x], two_digits + 2 * x, 2);
    for (size_t x = 100; x < n && x < 1000; x += 100) {
        size_t count = n - x < 100 ? n - x : 100;
        uint8_t first = (uint8_t)('0' + x / 100);
        for (size_t k = 0; k < count; k++) {
            text[start[x + k]] = first;
            memcpy(text + start[x + k] + 1, two_digits + 2 * k, 2);
        }
    }
    for (size_t x = 1000; x < n; x++) {
        memcpy(text + start[x], "10", 2);
        memcpy(text + start[x] + 2, two_digits + 2 * (x - 1000), 2);
    }
}

/*
 * No recursion: a cluster's length is known when it is merged, so each pair's three signs can be put in their places from
 * the root down, and each label after that.
 */
size_t plain_to_newick(const uint16_t *v, size_t n, uint8_t *text) {
    struct merges m;
    uint16_t length[LEAVES + SPARE], left[LEAVES], start[LEAVES]; /* by name */
    merge_all(&m, v, n);
    label_lengths(length, n);
    for (size_t t = 0; t + 1 < n; t++) {
        size_t i = m.large[t], a = m.small[i];
        left[i] = length[a];
        length[a] = (uint16_t)(length[a] + length[i] + 3);
    }
    start[0] = 0;
    for (size_t t = n - 1; t-- > 0;) {
        size_t i = m.large[t], a = m.small[i];
        size_t open = start[a], comma = open + 1 + left[i];
        start[a] = (uint16_t)(open + 1);
        start[i] = (uint16_t)(comma + 1);
        text[open] = '(';
        text[comma] = ',';
        text[comma + 1 + length[i]] = ')';
    }
    write_labels(text, start, n);
    text[length[0]] = ';';
    return (size_t)length[0] + 1;
}

static inline unsigned digit(uint8_t sign) { return (unsigned)sign - '0'; } /* above 9 if it is none */

/* One to four digits. */
static inline const uint8_t *read_label(const uint8_t *at, unsigned *label) {
    unsigned x = digit(at[0]), next = digit(at[1]);
    if (next > 9) return *label = x, at + 1;
    x = 10 * x + next, next = digit(at[2]);
    if (next > 9) return *label = x, at + 2;
    x = 10 * x + next, next = digit(at[3]);
    if (next > 9) return *label = x, at + 3;
    return *label = 10 * x + next, at + 4;
}

/* Opening brackets say nothing: a comma puts the cluster before it away, a closing bracket joins with the one put away. */
size_t plain_from_newick(const uint8_t *text, size_t length, uint16_t *v) {
    struct chains c;
    struct cluster away[LEAVES], *top = away;
    fill(c.last, lesser((unsigned)(length + 2) / 4, LEAVES), 0); /* a leaf takes four bytes at least, but for the first */
    size_t n = 1;
    for (;; n++) {
        struct cluster now = {0, NO_PAIR};
        while (*text == '(') text++;
        text = read_label(text, &now.name);
        for (; *text == ')'; text++) now = join(&c, *--top, now);
        if (*text++ == ';') break;
        *top++ = now;
    }
    chains_to_vector(&c, n, v);
    return n;
}

/* The same where blanks may stand between the signs. They are below every sign, so what finds the opening brackets finds them too. */
size_t plain_from_newick_blanks(const uint8_t *text, size_t length, uint16_t *v) {
    struct chains c;
    struct cluster away[LEAVES], *top = away;
    fill(c.last, lesser((unsigned)(length + 2) / 4, LEAVES), 0);
    size_t n = 1;
    for (;; n++) {
        struct cluster now = {0, NO_PAIR};
        while (*text <= '(') text++;
        text = read_label(text, &now.name);
        for (;; text++) {
            for (; *text == ')'; text++) now = join(&c, *--top, now);
            if (*text > ')') break;
        }
        if (*text++ == ';') break;
        *top++ = now;
    }
    chains_to_vector(&c, n, v);
    return n;
}

/* ---- Packed record ---- */

#define RECORD 1280
#define WORD 8 /* bytes */

/* Fields of one width stand in runs, v(5) .. v(8), v(9) .. v(16) and so on, so four at a time have the same width. */
static inline size_t run_end(unsigned width) { return ((size_t)1 << (width - 1)) + 1; }

/* Where the fours from i on end that are of one width and within n entries. */
static inline size_t fours_end(size_t i, unsigned width, size_t n) {
    size_t whole = i + (n - i) / 4 * 4;
    return whole < run_end(width) ? whole : run_end(width);
}

static inline unsigned width_below_5(size_t i) { return i < 3 ? 2 : 3; }

struct writer {
    uint8_t *at;
    uint64_t bits;
    unsigned held; /* bits not written yet, the lowest ones; fewer than 8 after a flush */
};

/* Writes all that is held, and steps over the whole bytes. */
static inline void flush(struct writer *w) {
    uint64_t word = __builtin_bswap64(w->bits << (64 - w->held));
    memcpy(w->at, &word, WORD);
    w->at += w->held / 8;
    w->held %= 8;
}

static inline void put(struct writer *w, uint64_t bits, unsigned width) {
    w->bits = w->bits << width | bits;
    w->held += width;
}

static inline uint64_t four(const uint16_t *v, unsigned width) {
    return (((uint64_t)v[0] << width | v[1]) << width | v[2]) << width | v[3];
}

/* Writes the fields behind the bits that are held, of which there is one with them at least, and returns where their bytes end. */
static inline uint8_t *put_fields(struct writer w, const uint16_t *v, size_t n) {
    size_t i = 2;
    for (; i < n && i < 5; i++) put(&w, v[i], width_below_5(i));
    flush(&w);
    unsigned width = 4;
    for (; i + 4 <= n; width += i == run_end(width))
        for (size_t end = fours_end(i, width, n); i < end; i += 4) {
            put(&w, four(v + i, width), 4 * width);
            flush(&w);
        }
    for (; i < n; i++) put(&w, v[i], width);
    w.bits <<= 8, w.held += 8; /* a byte of zeros, so that a byte begun becomes a whole one */
    uint8_t *end = w.at + (w.held - 1) / 8;
    flush(&w);
    return end;
}

/* Built in an array of our own, since a flush writes a whole word. */
size_t plain_pack(const uint16_t *v, size_t n, uint8_t *record) {
    uint8_t built[RECORD + WORD];
    size_t length = (size_t)(put_fields((struct writer){built, n, 11}, v, n) - built);
    memcpy(record, built, length);
    return length;
}

/* The bits from a place on, at least 57 of them, at the high end. */
static inline uint64_t bits_at(const uint8_t *record, size_t place) {
    uint64_t word;
    memcpy(&word, record + place / 8, WORD);
    return __builtin_bswap64(word) << place % 8;
}

/* By turning, and so by one number of bits only: a shift takes its number from one certain register. */
static inline uint64_t turn(uint64_t bits, unsigned width) { return bits << width | bits >> (64 - width); }

static inline void take_four(uint16_t *v, uint64_t bits, unsigned width) {
    unsigned mask = (1u << width) - 1;
    v[0] = (bits = turn(bits, width)) & mask;
    v[1] = (bits = turn(bits, width)) & mask;
    v[2] = (bits = turn(bits, width)) & mask;
    v[3] = turn(bits, width) & mask;
}

/* Reads the fields from a place on. */
static inline void take_fields(const uint8_t *lent, size_t place, size_t n, uint16_t *v) {
    size_t i = 2;
    v[0] = 0;
    if (n > 1) v[1] = 0;
    for (; i < n && i < 5; place += width_below_5(i), i++)
        v[i] = (uint16_t)(bits_at(lent, place) >> (64 - width_below_5(i)));
    unsigned width = 4;
    for (; i + 4 <= n; width += i == run_end(width))
        for (size_t end = fours_end(i, width, n); i < end; i += 4, place += 4 * width)
            take_four(v + i, bits_at(lent, place), width);
    for (; i < n; i++, place += width) v[i] = (uint16_t)(bits_at(lent, place) >> (64 - width));
}

/* Read from an array of our own, since a read takes a whole word. */
size_t plain_unpack(const uint8_t *record, size_t length, uint16_t *v) {
    uint8_t lent[RECORD + WORD];
    memcpy(lent, record, length);
    size_t n = (size_t)record[0] << 3 | record[1] >> 5;
    take_fields(lent, 11, n, v);
    return n;
}

/* ---- Archive ---- */

#define HEADER 4

/* The bytes of a record without its n, three leaves at least: fields of one width stand in runs. */
static size_t bare_length(size_t n) {
    size_t bits = n > 3 ? 2 + 3 : 2, i = 5;
    if (n > 4) bits += 3;
    for (unsigned width = 4; i < n; width++) {
        size_t end = n < run_end(width) ? n : run_end(width);
        bits += (end - i) * width, i = end;
    }
    return (bits + 7) / 8;
}

static void put_header(uint8_t *archive, size_t n, size_t trees) {
    uint32_t word = __builtin_bswap32((uint32_t)(n << 21 | trees));
    memcpy(archive, &word, HEADER);
}

/*
 * Each record is written where it stands: what a flush writes too much the next record overwrites. Only the last ones are built
 * in an array of our own, where a flush would pass the archive's end.
 */
size_t plain_write_archive(const uint16_t *entries, size_t n, size_t trees, uint8_t *archive) {
    put_header(archive, n, trees);
    if (n < 3) return HEADER;
    size_t length = bare_length(n);
    uint8_t *at = archive + HEADER, *end = at + trees * length;
    for (; at < end; at += length, entries += n) {
        uint8_t built[RECORD + WORD], *to = at + length + WORD <= end ? at : built;
        put_fields((struct writer){to, 0, 0}, entries, n);
        if (to == built) memcpy(at, built, length);
    }
    return HEADER + trees * length;
}

size_t plain_read_tree(const uint8_t *archive, size_t tree, uint16_t *v) {
    uint8_t lent[RECORD + WORD];
    size_t n = (size_t)archive[0] << 3 | archive[1] >> 5, length = n < 3 ? 0 : bare_length(n);
    memcpy(lent, archive + HEADER + tree * length, length);
    take_fields(lent, 0, n, v);
    return n;
}

/* ---- Clade table ---- */

#define SETS 64 /* leaves that a set can have */

typedef struct blathersike_clade clade;

/* The sets found so far, each at the first free place from the one that its hash says. Three places of four are free. */
struct sets {
    clade *places; /* leaves 0: free; the size is only known at the end */
    size_t count, most;
    size_t last; /* the last place, in bytes: a hash is cut by it, and needs no further step to an address */
};

#define FIRST_PLACES 256
#define FREE 4

static void *heap(size_t bytes) {
    void *room = malloc(bytes);
    if (!room) abort();
    return room;
}

static void make_sets(struct sets *s, size_t places) {
    size_t bytes = places * sizeof *s->places;
    s->places = memset(heap(bytes), 0, bytes);
    s->count = 0, s->most = places / FREE, s->last = bytes - sizeof *s->places;
}

static inline clade *at_byte(const struct sets *s, size_t byte) { return (clade *)((char *)s->places + byte); }

/* Both halves of a product: the lowest bits of the lower half tell small sets apart, those of the upper half large ones. */
static inline size_t hash(const struct sets *s, uint64_t leaves) {
    unsigned __int128 product = (unsigned __int128)leaves * 0x9e3779b97f4a7c15;
    return (size_t)(product >> 64 ^ product) & s->last;
}

static inline clade *free_place(const struct sets *s, uint64_t leaves) {
    size_t byte = hash(s, leaves);
    while (at_byte(s, byte)->leaves) byte = (byte + sizeof(clade)) & s->last;
    return at_byte(s, byte);
}

static void grow(struct sets *s) {
    struct sets old = *s;
    make_sets(s, 2 * FREE * old.most);
    for (clade *c = old.places, *end = c + FREE * old.most; c < end; c++)
        if (c->leaves) *free_place(s, c->leaves) = *c;
    s->count = old.count;
    free(old.places);
}

/* Apart, so that a set that is known costs no more than it must. */
static void __attribute__((noinline)) add_set(struct sets *s, uint64_t leaves) {
    if (s->count == s->most) grow(s);
    *free_place(s, leaves) = (clade){leaves, 0, 1};
    s->count++;
}

static inline void count_set(struct sets *s, uint64_t leaves) {
    size_t byte = hash(s, leaves);
    while (__builtin_expect(at_byte(s, byte)->leaves != leaves, 0)) {
        if (!at_byte(s, byte)->leaves) {
            add_set(s, leaves);
            return;
        }
        byte = (byte + sizeof(clade)) & s->last;
    }
    at_byte(s, byte)->count++;
}

/* The merges of up to 64 leaves: a name is a byte, and four instructions load all that may stand behind a place in the list. */
struct few_merges {
    uint8_t room[3 * SETS];
    uint8_t small[SETS];
    const uint8_t *large;
};

static inline void move_one_up(uint8_t *at) {
    bytes a = *(bytes *)at, b = *(bytes *)(at + 16), c = *(bytes *)(at + 32), d = *(bytes *)(at + 48);
    *(bytes *)(at + 1) = a, *(bytes *)(at + 17) = b;
    *(bytes *)(at + 33) = c, *(bytes *)(at + 49) = d;
}

static inline void merge_few(struct few_merges *m, const uint16_t *v, size_t n) {
    uint8_t *low = m->room + SETS;
    for (size_t i = 1; i < n; i++) {
        size_t x = v[i];
        if (x < i) {
            m->small[i] = (uint8_t)x;
            *--low = (uint8_t)i;
            continue;
        }
        uint8_t *before = low + (x - i);
        m->small[i] = m->small[*before];
        move_one_up(before + 1);
        before[1] = (uint8_t)i;
    }
    m->large = low;
}

#define ONE(x) (uint64_t)1 << (x)
#define FOUR(x) ONE(x), ONE(x + 1), ONE(x + 2), ONE(x + 3)
#define SIXTEEN(x) FOUR(x), FOUR(x + 4), FOUR(x + 8), FOUR(x + 12)
static const uint64_t single[SETS] = {SIXTEEN(0), SIXTEEN(16), SIXTEEN(32), SIXTEEN(48)};

/* A merge joins the sets of its two names. */
static inline void count_tree(struct sets *s, const uint16_t *v, size_t n) {
    struct few_merges m;
    uint64_t set[SETS];
    merge_few(&m, v, n);
    memcpy(set, single, n * sizeof *set);
    for (const uint8_t *at = m.large, *end = at + n - 1; at < end; at++) {
        size_t a = m.small[*at];
        count_set(s, set[a] |= set[*at]);
    }
}

#define SHORT 8

static void sort_short(clade *list, size_t count) {
    for (size_t k = 1; k < count; k++) {
        clade c = list[k];
        size_t at = k;
        for (; at > 0 && list[at - 1].leaves > c.leaves; at--) list[at] = list[at - 1];
        list[at] = c;
    }
}

/* Two sorted lists into one. Which one gives the next is no branch. */
static void join_sorted(const clade *a, size_t a_count, const clade *b, size_t b_count, clade *to) {
    const clade *a_end = a + a_count, *b_end = b + b_count;
    while (a < a_end && b < b_end) {
        size_t second = b->leaves < a->leaves;
        *to++ = *(second ? b : a);
        a += 1 - second, b += second;
    }
    memcpy(to, a, (size_t)(a_end - a) * sizeof *a);
    memcpy(to + (a_end - a), b, (size_t)(b_end - b) * sizeof *b);
}

static inline size_t part(size_t run, size_t left) { return left < run ? left : run; }

/* Runs of 8, then of 16, 32 and so on, from one list to the other and back. Returns the list that they end in. */
static clade *sort_by_merging(clade *from, clade *to, size_t count) {
    for (size_t at = 0; at < count; at += SHORT) sort_short(from + at, part(SHORT, count - at));
    for (size_t run = SHORT; run < count; run *= 2) {
        for (size_t at = 0; at < count; at += 2 * run) {
            size_t first = part(run, count - at), second = part(run, count - at - first);
            join_sorted(from + at, first, from + at + first, second, to + at);
        }
        clade *other = from;
        from = to, to = other;
    }
    return from;
}

/* By one byte after another, from the lowest: eight turns, so they end where they were. */
static clade *sort_by_bytes(clade *from, clade *to, size_t count) {
    for (unsigned shift = 0; shift < 64; shift += 8) {
        size_t start[257] = {0};
        for (size_t k = 0; k < count; k++) start[(from[k].leaves >> shift & 255) + 1]++;
        for (size_t k = 0; k < 256; k++) start[k + 1] += start[k];
        for (size_t k = 0; k < count; k++) to[start[from[k].leaves >> shift & 255]++] = from[k];
        clade *other = from;
        from = to, to = other;
    }
    return from;
}

#define FEW 1000 /* below, bytes are slower */

static size_t write_sets(const struct sets *s, clade *out) {
    clade *list = heap(2 * s->count * sizeof *list), *at = list;
    for (const clade *c = s->places, *end = c + FREE * s->most; c < end; c++)
        if (c->leaves) *at++ = *c;
    clade *sorted = (s->count < FEW ? sort_by_merging : sort_by_bytes)(list, at, s->count);
    for (size_t k = 0; k < s->count; k++) {
        out[k] = sorted[k];
        out[k].size = (uint32_t)__builtin_popcountll(sorted[k].leaves);
    }
    free(list);
    return s->count;
}

/* Each record is read where it stands, but for the last ones, behind which there is no whole word. */
static void count_all(struct sets *s, const uint8_t *records, size_t n, size_t trees) {
    uint8_t lent[RECORD + WORD];
    uint16_t v[SETS];
    size_t length = bare_length(n);
    for (const uint8_t *at = records, *end = at + trees * length; at < end; at += length) {
        int whole = at + length + WORD <= end;
        if (!whole) memcpy(lent, at, length);
        take_fields(whole ? at : lent, 0, n, v);
        count_tree(s, v, n);
    }
}

size_t plain_clade_table(const uint8_t *archive, clade *out) {
    size_t n = (size_t)archive[0] << 3 | archive[1] >> 5;
    size_t trees = (size_t)(archive[1] & 31) << 16 | (size_t)archive[2] << 8 | archive[3];
    if (n < 2 || !trees) return 0;
    if (n == 2) return out[0] = (clade){3, 2, (uint32_t)trees}, 1;
    struct sets s;
    make_sets(&s, FIRST_PLACES);
    count_all(&s, archive + HEADER, n, trees);
    size_t count = write_sets(&s, out);
    free(s.places);
    return count;
}

/* ---- Leaves ---- */

/*
 * A queue of inner nodes only: a leaf's label is known when its parent is taken. The t-th node taken gives out the label t,
 * and in the new labels every earlier merge is of larger names, so v(t) is the smaller name.
 */
size_t plain_shuffle(const uint16_t *v, size_t n, uint16_t *new_labels, uint16_t *out) {
    uint16_t rows[3 * LEAVES], label[2 * LEAVES], queue[LEAVES + 1], *back = queue;
    plain_to_table(v, n, rows);
    label[2 * n - 2] = 0;
    *back++ = (uint16_t)(2 * n - 2);
    out[0] = 0;
    for (size_t t = 1; t < n; t++) {
        size_t node = queue[t - 1], keeper = rows[3 * (node - n)], other = rows[3 * (node - n) + 1];
        out[t] = label[keeper] = label[node];
        label[other] = (uint16_t)t;
        *back = (uint16_t)keeper, back += keeper >= n;
        *back = (uint16_t)other, back += other >= n;
    }
    memcpy(new_labels, label, n * sizeof *label);
    return n;
}

/* The merges of the old tree in their order, each joined by its new names. */
size_t plain_relabel(const uint16_t *v, size_t n, const uint16_t *p, uint16_t *out) {
    struct merges m;
    struct chains c;
    uint16_t name[LEAVES], key[LEAVES + SPARE]; /* of each cluster, by its old name */
    merge_all(&m, v, n);
    memcpy(name, p, n * sizeof *p);
    fill(key, n, NO_PAIR);
    fill(c.last, n, 0);
    for (size_t t = 0; t + 1 < n; t++) {
        size_t i = m.large[t], a = m.small[i];
        struct cluster both = join(&c, (struct cluster){name[a], key[a]}, (struct cluster){name[i], key[i]});
        name[a] = (uint16_t)both.name;
        key[a] = (uint16_t)both.key;
    }
    chains_to_vector(&c, n, out);
    return n;
}

/* ---- Check ---- */

/*
 * Whether the entries 1 .. 8 eights hold. An entry x is above its bound b just when x or b - x has its highest bit set, for
 * b < 2^15, and these bits can be gathered without a branch.
 */
static inline int eights_hold(const uint16_t *v, size_t eights) {
    eight bound = {0, 2, 4, 6, 8, 10, 12, 14}, seen = {0};
    for (const uint16_t *at = v + 1, *end = at + 8 * eights; at != end; at += 8, bound += 16) {
        eight x = *(const eight *)at;
        seen |= x | (bound - x);
    }
    uint64_t half[2];
    memcpy(half, &seen, sizeof seen);
    return !((half[0] | half[1]) & 0x8000800080008000);
}

/* One by one only behind the last eight, or where one of them does not hold. */
size_t plain_check(const uint16_t *v, size_t n) {
    if (v[0]) return 0;
    size_t eights = (n - 1) / 8, i = 1;
    if (eights_hold(v, eights)) i += 8 * eights;
    while (i < n && v[i] <= 2 * (i - 1)) i++;
    return i;
}
