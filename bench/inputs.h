/* The texts that are measured. Each is made, always the same in each of its variants, to fit a number of bytes. */
#ifndef INPUTS_H
#define INPUTS_H

#include <stddef.h>
#include <stdint.h>

enum { ROOM_BYTES = 65536 + 4096 };

/* A text that is being made; what lies beyond its limit is taken back. */
struct text {
    size_t limit, length;
    uint64_t seed;
    uint8_t bytes[ROOM_BYTES];
};

typedef void maker(struct text *t);

void make(struct text *t, maker *by, size_t limit, uint32_t variant);

/* For Read. A text with `small` is made in that size alone, the others in two. */
struct read_input {
    const char *name;
    maker *by;
    size_t small;
};

extern const struct read_input read_inputs[];
extern const size_t read_input_count;

/* For Check a document and its schema, for Compare the new and the old schema. */
struct pair_input {
    const char *name;
    maker *first, *second;
    int compare;   /* else Check */
    int two_sizes; /* of the document; a schema has one */
    int season;
};

extern const struct pair_input pair_inputs[];
extern const size_t pair_input_count;

/* For Counterexample: a new schema, and an old one that it is not carried to. */
extern const struct pair_input shown_inputs[];
extern const size_t shown_input_count;

#endif
