/*
 * plain.h: the conversions of include/blathersike.h in plain C, as fast as we know how. The input is taken to be right and
 * the output to have room: nothing is checked, and only as many elements are written as the answer has.
 *
 * A measure for the library, and no part of it. n is 1 to 1,024 throughout.
 */
#ifndef PLAIN_H
#define PLAIN_H

#include <stddef.h>
#include <stdint.h>

#include "blathersike.h"

/* The first entry above its bound, or n if there is none. The one function that expects wrong input. */
size_t plain_check(const uint16_t *v, size_t n);

/* Each returns the number of elements written. */
size_t plain_to_table(const uint16_t *v, size_t n, uint16_t *rows);
size_t plain_from_table(size_t n, const uint16_t *rows, uint16_t *v);
size_t plain_to_newick(const uint16_t *v, size_t n, uint8_t *text);
size_t plain_from_newick(const uint8_t *text, size_t length, uint16_t *v);
size_t plain_from_newick_blanks(const uint8_t *text, size_t length, uint16_t *v); /* there may be blanks between the signs */
size_t plain_pack(const uint16_t *v, size_t n, uint8_t *record);
size_t plain_unpack(const uint8_t *record, size_t length, uint16_t *v);
size_t plain_shuffle(const uint16_t *v, size_t n, uint16_t *new_labels, uint16_t *out);
size_t plain_relabel(const uint16_t *v, size_t n, const uint16_t *p, uint16_t *out);
size_t plain_write_archive(const uint16_t *entries, size_t n, size_t trees, uint8_t *archive);
size_t plain_read_tree(const uint8_t *archive, size_t tree, uint16_t *v);
size_t plain_clade_table(const uint8_t *archive, struct blathersike_clade *out); /* n is 1 to 64; it takes memory from the heap */

#endif
