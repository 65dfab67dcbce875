/*
 * Measures the library beside plain C, in the same buffers, which are not cleared between calls.
 *
 *     bench [--quick]                              all workloads
 *     bench --only NAME [COUNT [plain|compact]]    so many calls of one in its largest size, for a profiler
 *     bench --agree COUNT                          holds plain C to the library on so many random texts
 */
#define _POSIX_C_SOURCE 199309L
#include <stdio.h>
#include <stdlib.h>
#include <string.h>
#include <time.h>
#include <teleport.h>
#include "agree.h"
#include "inputs.h"
#include "plain.h"

enum { TABLE_WORDS = TELEPORT_ROW_WORDS * TELEPORT_DOCUMENT_LIMIT };

static uint32_t table1[TABLE_WORDS], table2[TABLE_WORDS];
static uint8_t buffer[TELEPORT_DOCUMENT_LIMIT];

/* Documents, or new schemas, in the smaller and the larger size, and the other schema. Calls take the variants of a text
 * by turns: the branches of a single text that is short enough are learnt by heart, and no stranger's file is. */
enum { VARIANTS = 4 };

static struct text texts[2][VARIANTS], schema;

/* Rounds go on until so many have brought nothing better by a hundredth; a call of over `long_seconds` has two. */
static double round_seconds = 0.02;
static int still_rounds = 10;
static const int most_rounds = 60;
static const double long_seconds = 0.1;

/* A figure beyond its bound is marked. */
static const double twice_bound = 2.2, check_bound = 2.5, writing_bound = 1.0, no_bound = 1e9;

enum service { READ, PLAIN_READ, CHECK, COMPARE, COMPACT, COUNTEREXAMPLE };

static void call(enum service service, const struct text *a, const struct text *b, uint32_t *answer) {
    switch (service) {
    case READ: teleport_read(a->bytes, a->length, table1, TABLE_WORDS, answer); break;
    case PLAIN_READ: plain_read(a->bytes, a->length, table1, TABLE_WORDS, answer); break;
    case CHECK:
        teleport_check(a->bytes, a->length, b->bytes, b->length, table1, TABLE_WORDS, table2, TABLE_WORDS, answer);
        break;
    case COMPARE:
        teleport_compare(a->bytes, a->length, b->bytes, b->length, table1, TABLE_WORDS, table2, TABLE_WORDS, answer);
        break;
    case COMPACT: teleport_compact(a->bytes, a->length, table1, TABLE_WORDS, buffer, a->length, answer); break;
    case COUNTEREXAMPLE:
        teleport_counterexample(a->bytes, a->length, b->bytes, b->length, table1, TABLE_WORDS, table2, TABLE_WORDS,
                                buffer, sizeof buffer, answer);
        break;
    }
}

static double now(void) {
    struct timespec t;
    clock_gettime(CLOCK_MONOTONIC, &t);
    return (double)t.tv_sec + 1e-9 * (double)t.tv_nsec;
}

/* What is measured, and the least seconds of one call so far. */
struct timed {
    enum service service;
    const struct text *first, *second;
    size_t variants; /* of the first */
    unsigned long calls;
    double best;
};

static double round_of(const struct timed *t, unsigned long calls) {
    uint32_t answer[4];
    double start = now();
    const struct text *text = t->first, *last = t->first + t->variants - 1;
    for (unsigned long i = 0; i < calls; i++) {
        call(t->service, text, t->second, answer);
        text = text == last ? t->first : text + 1;
    }
    return now() - start;
}

/* As many calls as fill a round. */
static unsigned long calls_of(const struct timed *t) {
    unsigned long calls = 1;
    while (round_of(t, calls) < round_seconds) calls *= 2;
    return calls;
}

/* By turns, so that a busy moment does not fall on one of them alone. */
static void measure(struct timed *timed, size_t count) {
    for (size_t i = 0; i < count; i++) {
        timed[i].calls = calls_of(&timed[i]);
        timed[i].best = 1e9;
    }
    for (int round = 0, still = 0; still < still_rounds && round < most_rounds; round++) {
        still++;
        for (size_t i = 0; i < count; i++) {
            if (round >= 2 && timed[i].best > long_seconds) continue;
            double one = round_of(&timed[i], timed[i].calls) / (double)timed[i].calls;
            if (one < 0.99 * timed[i].best) still = 0;
            if (one < timed[i].best) timed[i].best = one;
        }
    }
}

static void require(int holds, const char *what, const char *name) {
    if (holds) return;
    printf("failed: %s, for %s\n", what, name);
    exit(1);
}

/* Both readers give the same answer, code 0, and the same words in the whole table. */
static void require_same(const struct text *text, const char *name) {
    uint32_t answer[2][4];
    memset(table1, 0x5a, sizeof table1);
    memset(table2, 0x5a, sizeof table2);
    teleport_read(text->bytes, text->length, table1, TABLE_WORDS, answer[0]);
    plain_read(text->bytes, text->length, table2, TABLE_WORDS, answer[1]);
    require(answer[0][TELEPORT_CODE] == TELEPORT_OK, "code 0 of Read", name);
    require(memcmp(answer[0], answer[1], sizeof answer[0]) == 0, "the same answer", name);
    require(memcmp(table1, table2, sizeof table1) == 0, "the same table", name);
}

static size_t length_of(const struct timed *t) {
    size_t length = 0;
    for (size_t i = 0; i < t->variants; i++) length += t->first[i].length;
    return length / t->variants;
}

static void make_variants(struct text *variants, maker *by, size_t limit, const char *name) {
    for (uint32_t i = 0; i < VARIANTS; i++) {
        make(&variants[i], by, limit, i);
        require_same(&variants[i], name);
    }
}

static void print_bounded(double figure, double bound, const char *unmarked) {
    printf("%9.2f%s", figure, figure > bound ? "!" : unmarked);
}

static void print_speed(const char *name, size_t bytes, double seconds) {
    printf("%-15s %8zu %10.1f %9.2f", name, bytes, 1e-6 * (double)bytes / seconds, 1e9 * seconds / (double)bytes);
}

/* How much longer twice the bytes take than `smaller`, which has about half of them. */
static void print_twice(const struct timed *t, const struct timed *smaller) {
    if (smaller) {
        double growth = (double)length_of(t) / (double)length_of(smaller);
        print_bounded(2 / growth * t->best / smaller->best, twice_bound, "");
    }
    putchar('\n');
    fflush(stdout);
}

static void read_large(const struct read_input *input) {
    struct timed timed[4];
    for (int i = 0; i < 2; i++) {
        make_variants(texts[i], input->by, (size_t)TELEPORT_DOCUMENT_LIMIT / 2 * (size_t)(i + 1), input->name);
        timed[2 * i] = (struct timed){ .service = READ, .first = texts[i], .variants = VARIANTS };
        timed[2 * i + 1] = (struct timed){ .service = PLAIN_READ, .first = texts[i], .variants = VARIANTS };
    }
    measure(timed, 4);
    for (int i = 0; i < 2; i++) {
        const struct timed *library = &timed[2 * i], *plain = &timed[2 * i + 1];
        print_speed(input->name, length_of(library), library->best);
        printf(" %10.1f %10.2f", 1e-6 * (double)length_of(plain) / plain->best, plain->best / library->best);
        print_twice(library, i ? &timed[0] : NULL);
    }
}

static void read_small(const struct read_input *input) {
    make_variants(texts[0], input->by, input->small, input->name);
    struct timed timed[] = {
        { .service = READ, .first = texts[0], .variants = VARIANTS },
        { .service = PLAIN_READ, .first = texts[0], .variants = VARIANTS },
    };
    measure(timed, 2);
    double library = 1e9 * timed[0].best, plain = 1e9 * timed[1].best;
    printf("%-15s %8zu %10.0f %9s %10.0f %10.2f\n", input->name, length_of(timed), library, "", plain, plain / library);
}

static void read_all(void) {
    printf("%-15s %8s %10s %9s %10s %10s %9s\n", "Read", "bytes", "MB/s", "ns/byte", "plain MB/s", "ratio", "twice");
    for (size_t i = 0; i < read_input_count; i++)
        if (!read_inputs[i].small) read_large(&read_inputs[i]);
    printf("\n%-15s %8s %10s %9s %10s %10s\n", "Read", "bytes", "ns/call", "", "plain ns", "ratio");
    for (size_t i = 0; i < read_input_count; i++)
        if (read_inputs[i].small) read_small(&read_inputs[i]);
}

/* Compact beside Read, with a buffer of the text's length. Writing alone is what Compact takes beyond Read. */
static void require_written(const struct text *text, const char *name) {
    static struct text written;
    uint32_t answer[4], again[4];
    call(COMPACT, text, NULL, answer);
    require(answer[TELEPORT_CODE] == TELEPORT_OK, "code 0 of Compact", name);
    written.length = answer[TELEPORT_OTHER];
    memcpy(written.bytes, buffer, written.length);
    call(COMPACT, &written, NULL, again);
    require(memcmp(answer, again, sizeof answer) == 0, "the same answer for what was written", name);
    require(memcmp(buffer, written.bytes, written.length) == 0, "the same bytes for what was written", name);
}

static void compact_of(const struct read_input *input) {
    make_variants(texts[0], input->by, TELEPORT_DOCUMENT_LIMIT, input->name);
    for (int i = 0; i < VARIANTS; i++) require_written(&texts[0][i], input->name);
    struct timed timed[] = {
        { .service = COMPACT, .first = texts[0], .variants = VARIANTS },
        { .service = READ, .first = texts[0], .variants = VARIANTS },
    };
    measure(timed, 2);
    double compact = timed[0].best, read = timed[1].best;
    print_speed(input->name, length_of(timed), compact);
    print_bounded(compact / read, no_bound, " ");
    print_bounded((compact - read) / read, strcmp(input->name, "season") ? no_bound : writing_bound, "");
    putchar('\n');
    fflush(stdout);
}

static void compact_all(void) {
    printf("\n%-15s %8s %10s %9s %8s %10s\n", "Compact", "bytes", "MB/s", "ns/byte", "/ Read", "writing");
    for (size_t i = 0; i < read_input_count; i++)
        if (!read_inputs[i].small) compact_of(&read_inputs[i]);
}

/* Check beside Read of the document, Compare beside Read of both schemas. */
enum { PAIR, LIBRARY_FIRST, PLAIN_FIRST, LIBRARY_SECOND, PLAIN_SECOND, PER_PAIR };

static void make_pair(const struct pair_input *input, int size, struct timed *timed) {
    struct text *first = texts[size];
    make_variants(first, input->first, (size_t)TELEPORT_DOCUMENT_LIMIT / 2 * (size_t)(size + 1), input->name);
    make(&schema, input->second, TELEPORT_SCHEMA_LIMIT, 0);
    enum service service = input->compare ? COMPARE : CHECK;
    timed[PAIR] = (struct timed){ .service = service, .first = first, .second = &schema, .variants = VARIANTS };
    timed[LIBRARY_FIRST] = (struct timed){ .service = READ, .first = first, .variants = VARIANTS };
    timed[PLAIN_FIRST] = (struct timed){ .service = PLAIN_READ, .first = first, .variants = VARIANTS };
    timed[LIBRARY_SECOND] = (struct timed){ .service = READ, .first = &schema, .variants = 1 };
    timed[PLAIN_SECOND] = (struct timed){ .service = PLAIN_READ, .first = &schema, .variants = 1 };
}

static void require_pair(const struct pair_input *input, const struct timed *timed) {
    uint32_t answer[4];
    require_same(timed[PAIR].second, input->name);
    call(timed[PAIR].service, timed[PAIR].first, timed[PAIR].second, answer);
    require(answer[TELEPORT_CODE] == TELEPORT_OK, "code 0", input->name);
}

static void pair_of(const struct pair_input *input) {
    struct timed timed[2 * PER_PAIR];
    int sizes = input->two_sizes ? 2 : 1;
    for (int i = 0; i < sizes; i++) {
        make_pair(input, i, timed + i * PER_PAIR);
        require_pair(input, timed + i * PER_PAIR);
    }
    measure(timed, (size_t)sizes * PER_PAIR);
    for (int i = 0; i < sizes; i++) {
        const struct timed *t = timed + i * PER_PAIR;
        double read = t[LIBRARY_FIRST].best, plain = t[PLAIN_FIRST].best;
        if (input->compare) {
            read += t[LIBRARY_SECOND].best;
            plain += t[PLAIN_SECOND].best;
        }
        print_speed(input->name, length_of(t) + t->second->length, t->best);
        print_bounded(t->best / read, input->season ? check_bound : no_bound, " ");
        printf(" %10.2f", t->best / plain);
        print_twice(t, i ? timed : NULL);
    }
}

static void pair_all(void) {
    printf("\n%-15s %8s %10s %9s %8s %11s %9s\n", "Check, Compare", "bytes", "MB/s", "ns/byte", "/ Read", "/ plain", "twice");
    for (size_t i = 0; i < pair_input_count; i++) pair_of(&pair_inputs[i]);
}

/* Counterexample beside Compare of the same schemas, with 30. */
static void shown_of(const struct pair_input *input) {
    uint32_t answer[4];
    make(&texts[0][0], input->first, TELEPORT_SCHEMA_LIMIT, 0);
    make(&schema, input->second, TELEPORT_SCHEMA_LIMIT, 0);
    call(COUNTEREXAMPLE, &texts[0][0], &schema, answer);
    require(answer[TELEPORT_CODE] == TELEPORT_NOT_CARRIED, "code 30", input->name);
    struct timed timed[] = {
        { .service = COUNTEREXAMPLE, .first = texts[0], .second = &schema, .variants = 1 },
        { .service = COMPARE, .first = texts[0], .second = &schema, .variants = 1 },
    };
    measure(timed, 2);
    print_speed(input->name, texts[0][0].length + schema.length, timed[0].best);
    printf(" %10.2f %8u\n", timed[0].best / timed[1].best, answer[TELEPORT_OTHER]);
    fflush(stdout);
}

static void shown_all(void) {
    printf("\n%-15s %8s %10s %9s %10s %8s\n", "Counterexample", "bytes", "MB/s", "ns/byte", "/ Compare", "written");
    for (size_t i = 0; i < shown_input_count; i++) shown_of(&shown_inputs[i]);
}

/* One workload, in its largest size. */
static int only(const char *name, unsigned long count, enum service service) {
    struct timed timed[PER_PAIR];
    for (size_t i = 0; i < read_input_count; i++) {
        const struct read_input *input = &read_inputs[i];
        if (strcmp(input->name, name)) continue;
        make(texts[0], input->by, input->small ? input->small : TELEPORT_DOCUMENT_LIMIT, 0);
        timed[0] = (struct timed){ .service = service, .first = texts[0], .variants = 1 };
        round_of(timed, count);
        return 0;
    }
    for (size_t i = 0; i < pair_input_count; i++) {
        if (strcmp(pair_inputs[i].name, name)) continue;
        make_pair(&pair_inputs[i], 1, timed);
        round_of(timed, count);
        return 0;
    }
    printf("no workload %s\n", name);
    return 1;
}

static enum service service_of(const char *word) {
    return strcmp(word, "plain") == 0 ? PLAIN_READ : strcmp(word, "compact") == 0 ? COMPACT : READ;
}

int main(int argc, char **argv) {
    if (argc >= 3 && strcmp(argv[1], "--only") == 0)
        return only(argv[2], argc >= 4 ? strtoul(argv[3], NULL, 10) : 1, service_of(argc >= 5 ? argv[4] : ""));
    if (argc == 3 && strcmp(argv[1], "--agree") == 0) return agree(strtoul(argv[2], NULL, 10));
    if (argc == 2 && strcmp(argv[1], "--quick") == 0) {
        round_seconds = 0.005;
        still_rounds = 2;
    } else if (argc != 1) {
        printf("bench [--quick] | --only NAME [COUNT [plain|compact]] | --agree COUNT\n");
        return 1;
    }
    read_all();
    compact_all();
    pair_all();
    shown_all();
    puts("\nratio: the library's speed to that of plain C. / Read, / plain: time to that of reading the document, for\n"
         "Compare both schemas. twice: time to that of half the bytes. writing: time of Compact less that of Read, to that\n"
         "of Read. / Compare: time to that of comparing the same schemas. !: over 2.2 (twice), over 2.5 (/ Read of a season),\n"
         "over 1.0 (writing of a season).");
    return 0;
}
