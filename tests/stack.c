/*
 * Measures the stack of a call: a thread with a stack that is painted makes it, and where the paint ends shows how
 * far it went. Each call must need less than TELEPORT_STACK_BYTES, and give the answer that is stated.
 */
#define _DEFAULT_SOURCE
#include <pthread.h>
#include <stdio.h>
#include <stdlib.h>
#include <string.h>
#include <sys/mman.h>
#include <teleport.h>

enum { STACK = 4 << 20, PAINT = 0xa5, TABLE = TELEPORT_DOCUMENT_LIMIT * TELEPORT_ROW_WORDS };

static unsigned long passed, failed;

static void expect(int holds, const char *what, const char *name) {
    if (holds) {
        passed++;
    } else {
        failed++;
        printf("failed: %s: %s\n", name, what);
    }
}

static void stop_unless(int holds, const char *what) {
    if (!holds) {
        printf("failed: %s\n0 passed, 1 failed\n", what);
        exit(1);
    }
}

/* Texts. */

struct text {
    size_t length;
    uint8_t bytes[TELEPORT_DOCUMENT_LIMIT];
};

static void put(struct text *text, const char *string) {
    size_t length = strlen(string);
    stop_unless(text->length + length <= sizeof text->bytes, "a text is too long");
    memcpy(text->bytes + text->length, string, length);
    text->length += length;
}

/* Space behind the text, up to a length. */
static void pad(struct text *text, size_t length) {
    while (text->length < length) put(text, " ");
}

static void repeat(struct text *text, const char *string, unsigned times) {
    for (unsigned i = 0; i < times; i++) put(text, string);
}

/* A text inside so many brackets, or what else opens and closes. */
static void wrap(struct text *text, const char *open, const char *inside, const char *close, unsigned times) {
    repeat(text, open, times);
    put(text, inside);
    repeat(text, close, times);
}

/* How objects nest: what stands around the names of each, and under each name but the last. */
struct nesting {
    const char *open, *close, *leaf;
};

static const struct nesting objects = {"{", "}", "0"};
static const struct nesting required = {"{\"Object\":{\"required\":{", "}}}", "\"JSON\""};
static const struct nesting optional = {"{\"Object\":{\"optional\":{", "}}}", "\"JSON\""};

/* So many names with a letter, the same value under each but the last, which is left open. */
static void put_names(struct text *text, char letter, unsigned count, const char *value) {
    for (unsigned i = 0; i < count; i++) {
        char name[16];
        snprintf(name, sizeof name, "\"%c%u\":", letter, i);
        put(text, name);
        if (i + 1 == count) break;
        put(text, value);
        put(text, ",");
    }
}

/* Objects of so many names, each under the last name of the one around it; the last of all is left open. */
static void open_nest(struct text *text, const struct nesting *how, unsigned levels, unsigned names) {
    for (unsigned level = 0; level < levels; level++) {
        put(text, how->open);
        put_names(text, 'n', names, how->leaf);
    }
}

/* The same, with this inside the last. */
static void nest(struct text *text, const struct nesting *how, unsigned levels, unsigned names, const char *inside) {
    open_nest(text, how, levels, names);
    put(text, inside);
    repeat(text, how->close, levels);
}

/* Measuring. */

typedef void service(const uint8_t *, size_t, const uint8_t *, size_t, uint32_t *, size_t, uint32_t *, size_t, uint32_t *);

struct call {
    service *call; /* Check, with dates or the path too, Compare, Compact or Counterexample; NULL is Read of the first text */
    const struct text *texts[2];
    uint32_t answer[4];
    uintptr_t frame;
};

static uint32_t tables[2][TABLE];

/* Compact of the first text, in the shape of the others: its buffer has this much room. */
static uint8_t buffer[TELEPORT_DOCUMENT_LIMIT];
static size_t room;

static void compact(const uint8_t *text, size_t length, const uint8_t *none, size_t no_length,
                    uint32_t *table, size_t words, uint32_t *no_table, size_t no_words, uint32_t *answer) {
    (void)none, (void)no_length, (void)no_table, (void)no_words;
    teleport_compact(text, length, table, words, buffer, room, answer);
}

/* Check with dates, in the shape of the others. */
static int64_t dates[TELEPORT_DATES_NUMBERS];

static void check_dates(const uint8_t *document, size_t document_length, const uint8_t *schema, size_t schema_length,
                        uint32_t *table1, size_t words1, uint32_t *table2, size_t words2, uint32_t *answer) {
    teleport_check_dates(document, document_length, schema, schema_length, table1, words1, table2, words2, answer, dates);
}

/* Check with the path, in the shape of the others: its list has the least room. */
static uint32_t path[TELEPORT_PATH_WORDS], steps[1];

static void check_path(const uint8_t *document, size_t document_length, const uint8_t *schema, size_t schema_length,
                       uint32_t *table1, size_t words1, uint32_t *table2, size_t words2, uint32_t *answer) {
    teleport_check_path(document, document_length, schema, schema_length, table1, words1, table2, words2,
                        path, TELEPORT_PATH_WORDS, answer, steps);
}

/* Compare's sister, in the shape of the others: its buffer has the least room. */
static void counterexample(const uint8_t *new, size_t new_length, const uint8_t *old, size_t old_length,
                           uint32_t *table1, size_t words1, uint32_t *table2, size_t words2, uint32_t *answer) {
    teleport_counterexample(new, new_length, old, old_length, table1, words1, table2, words2, buffer, sizeof buffer, answer);
}

/* What the thread does. Its own frame is where the stack of the call begins. */
static void *make_call(void *given) {
    struct call *c = given;
    volatile uint8_t here = 0;
    c->frame = (uintptr_t)&here;
    const struct text *one = c->texts[0], *two = c->texts[1];
    if (c->call == NULL) {
        teleport_read(one->bytes, one->length, tables[0], TABLE, c->answer);
    } else {
        c->call(one->bytes, one->length, two->bytes, two->length, tables[0], TABLE, tables[1], TABLE, c->answer);
    }
    return NULL;
}

/* The bytes of stack below the frame that makes the call. */
static size_t stack_of(struct call *c) {
    uint8_t *stack = mmap(NULL, STACK, PROT_READ | PROT_WRITE, MAP_PRIVATE | MAP_ANONYMOUS, -1, 0);
    stop_unless(stack != MAP_FAILED, "no memory for a stack");
    memset(stack, PAINT, STACK);
    pthread_attr_t attributes;
    pthread_t thread;
    stop_unless(pthread_attr_init(&attributes) == 0 && pthread_attr_setstack(&attributes, stack, STACK) == 0
        && pthread_create(&thread, &attributes, make_call, c) == 0 && pthread_join(thread, NULL) == 0, "no thread");
    pthread_attr_destroy(&attributes);
    size_t frame = c->frame - (uintptr_t)stack, lowest = 0;
    stop_unless(frame < STACK, "the call was not made on the painted stack");
    while (lowest < frame && stack[lowest] == PAINT) lowest++;
    munmap(stack, STACK);
    return frame - lowest;
}

static struct text first, second;

/*
 * More stack than this much a call is sure to need, by its texts; less shows that nothing was measured. In eight nested
 * objects with many names each has room of 16 KiB for what is found under them.
 */
enum { SHORT = 256, LONG = 65536, WIDE = 8 * 16384 };

/* The fourth number, where it is free. */
#define ANY UINT32_MAX

/* Makes a call with the two texts, of which the first does not fit at a place, and begins new ones. */
static void measure_at(const char *name, service *call, uint32_t code, uint32_t place, uint32_t other, size_t more_than) {
    struct call c = {call, {&first, &second}, {0, 0, 0, 0}, 0};
    size_t used = stack_of(&c);
    printf("%s: %zu bytes of stack\n", name, used);
    /* Of the refusals only a bracket too many is tried, and it is the first of its kind. */
    const uint8_t *bracket = code == TELEPORT_TOO_DEEP ? memchr(first.bytes, '[', first.length) : NULL;
    int misfit = code == TELEPORT_WRONG_KIND || code == TELEPORT_MISSING || code == TELEPORT_NO_DATE;
    uint32_t answer[4] = {code, bracket != NULL || misfit, bracket ? (uint32_t)(bracket - first.bytes) : place,
                          other == ANY ? c.answer[3] : other};
    expect(memcmp(c.answer, answer, sizeof answer) == 0, "the answer", name);
    expect(used < TELEPORT_STACK_BYTES, "less stack than the header says", name);
    expect(used > more_than, "as much stack as it must need at least", name);
    first.length = second.length = 0;
}

static void measure(const char *name, service *call, uint32_t code, uint32_t other, size_t more_than) {
    measure_at(name, call, code, 0, other, more_than);
}

/* The calls: working room goes by the length of a text, frames by its depth, and room for names by nested objects. */

enum { LONG_SCHEMA = 16384, MANY = 40 };

static void measure_read(void) {
    put(&first, "[]");
    measure("Read, 2 bytes", NULL, 0, 1, SHORT);
    wrap(&first, "[", "", "]", 32);
    measure("Read, 32 brackets", NULL, 0, 32, SHORT);
    wrap(&first, "[{\"\\ud83d\\ude00\":", "\"\\ud83d\\ude00\"", "}]", 16);
    pad(&first, LONG);
    measure("Read, 65,536 bytes, arrays and objects by turns, escapes", NULL, 0, 49, LONG);
    nest(&first, &objects, 32, 150, "0");
    pad(&first, LONG);
    measure("Read, 65,536 bytes, 32 objects of 150 names", NULL, 0, 32 * 300 + 1, LONG);
    nest(&first, &objects, 32, 150, "[0]");
    pad(&first, LONG);
    measure("Read, 65,536 bytes, a bracket too many", NULL, 7, 0, LONG);
}

static void measure_check(void) {
    put(&first, "1");
    put(&second, "\"Integer\"");
    measure("Check, short texts", teleport_check, 0, 0, SHORT);
    nest(&first, &objects, 8, MANY, "0");
    nest(&second, &required, 8, MANY, "\"Integer\"");
    measure("Check, 8 objects of 40 required names", teleport_check, 0, 0, WIDE);
    nest(&first, &objects, 8, MANY, "0");
    pad(&first, LONG);
    nest(&second, &optional, 8, MANY, "\"Float\"");
    pad(&second, LONG_SCHEMA);
    measure("Check, longest texts, 8 objects of 40 optional names", teleport_check, 0, 0, WIDE);
    wrap(&first, "[", "1", "]", 24);
    wrap(&second, "{\"Array\":", "\"Float\"", "}", 24);
    measure("Check, 24 arrays", teleport_check, 0, 0, SHORT);
}

/* So many dates, all at the second before 1970. */
static void measure_dates_of(const char *name, int64_t count, size_t more_than) {
    const int64_t wanted[TELEPORT_DATES_NUMBERS] = {count, -1, -1};
    measure(name, check_dates, 0, 0, more_than);
    expect(memcmp(dates, wanted, sizeof wanted) == 0, "the dates", name);
}

static void measure_dates(void) {
    const struct nesting dated = {"{", "}", "\"1969-12-31T23:59:59Z\""};
    const struct nesting as_dates = {"{\"Object\":{\"required\":{", "}}}", "\"DateTime\""};
    put(&first, dated.leaf);
    put(&second, as_dates.leaf);
    measure_dates_of("Check with dates, short texts", 1, SHORT);
    nest(&first, &dated, 8, MANY, dated.leaf);
    pad(&first, LONG);
    nest(&second, &as_dates, 8, MANY, as_dates.leaf);
    pad(&second, LONG_SCHEMA);
    measure_dates_of("Check with dates, longest texts, 8 objects of 40 required names", 8 * (MANY - 1) + 1, WIDE);
    wrap(&first, "[", dated.leaf, "]", 24);
    wrap(&second, "{\"Array\":", as_dates.leaf, "}", 24);
    measure_dates_of("Check with dates, 24 arrays", 1, SHORT);
}

/* Paths of so many rows, the first being this one; where the schema says it is left open. */
static void measure_path_of(const char *name, uint32_t code, uint32_t place, uint32_t row, uint32_t count, size_t more_than) {
    measure_at(name, check_path, code, place, ANY, more_than);
    expect(steps[0] == count && path[0] == row && path[count - 1] == 0, "the path", name);
}

static void measure_path(void) {
    put(&first, "1");
    put(&second, "\"String\"");
    measure_path_of("Check with the path, short texts", 20, 0, 0, 1, SHORT);
    wrap(&first, "[", "", "]", TELEPORT_DOCUMENT_DEPTH);
    wrap(&second, "{\"Array\":", "\"Float\"", "}", 24);
    measure_path_of("Check with the path, 32 brackets under 24 arrays", 20, 24, 24, 25, SHORT);
    open_nest(&first, &objects, 8, MANY);
    uint32_t place = (uint32_t)first.length;
    put(&first, "{}");
    repeat(&first, objects.close, 8);
    pad(&first, LONG);
    nest(&second, &required, 8, MANY, "\"DateTime\"");
    pad(&second, LONG_SCHEMA);
    measure_path_of("Check with the path, longest texts, 8 objects of 40 required names", 20, place, 8 * 2 * MANY, 9, WIDE);
}

/* A definition with many names in both parts. */
static void put_definition(struct text *text) {
    put(text, "{\"Object\":{\"required\":{");
    put_names(text, 'r', MANY, "\"JSON\"");
    put(text, "\"JSON\"},\"optional\":{");
    put_names(text, 'o', MANY, "\"JSON\"");
    put(text, "\"JSON\"}}}");
}

/* The definition is in the document, so that its depth is a document's. */
static void measure_longest_schema(const char *name, service *call) {
    nest(&first, &required, 10, MANY, "\"JSON\"");
    pad(&first, LONG);
    put(&second, "\"Schema\"");
    measure(name, call, 0, 0, LONG);
}

static void measure_schema(void) {
    measure_longest_schema("Check by Schema, 65,536 bytes, 10 definitions of 40 names", teleport_check);
    measure_longest_schema("Check with dates by Schema, 65,536 bytes, 10 definitions of 40 names", check_dates);
    measure_longest_schema("Check with the path by Schema, 65,536 bytes, 10 definitions of 40 names", check_path);
    wrap(&first, "{\"Map\":", "\"JSON\"", "}", 32);
    put(&second, "\"Schema\"");
    measure("Check by Schema, 32 maps", teleport_check, 0, 0, SHORT);
    open_nest(&first, &objects, 8, MANY);
    put_definition(&first);
    repeat(&first, objects.close, 8);
    nest(&second, &required, 8, MANY, "\"Schema\"");
    measure("Check by Schema inside 8 objects of 40 names", teleport_check, 0, 0, WIDE);
}

static void measure_compare(void) {
    put(&first, "\"Integer\"");
    put(&second, "\"Float\"");
    measure("Compare, short texts", teleport_compare, 0, 0, SHORT);
    nest(&first, &required, 8, MANY, "\"Integer\"");
    nest(&second, &required, 8, MANY, "\"Float\"");
    measure("Compare, 8 objects of 40 required names", teleport_compare, 0, 0, WIDE);
    nest(&first, &optional, 8, MANY, "\"Float\"");
    pad(&first, LONG_SCHEMA);
    nest(&second, &optional, 8, MANY, "\"Integer\"");
    pad(&second, LONG_SCHEMA);
    measure("Compare, longest schemas, 8 objects of 40 optional names", teleport_compare, 30, 0, WIDE);
    wrap(&first, "{\"Array\":", "\"JSON\"", "}", 24);
    wrap(&second, "{\"Array\":", "\"JSON\"", "}", 24);
    measure("Compare, 24 arrays", teleport_compare, 0, 0, SHORT);
}

/* Pairs with 30; which document is written, and so its length, is free. */
static void measure_counterexample(void) {
    put(&first, "\"Float\"");
    put(&second, "\"Integer\"");
    measure("Counterexample, short texts", counterexample, 30, ANY, SHORT);
    nest(&first, &required, 8, MANY, "\"Float\"");
    pad(&first, LONG_SCHEMA);
    nest(&second, &required, 8, MANY, "\"Integer\"");
    pad(&second, LONG_SCHEMA);
    measure("Counterexample, longest schemas, 8 objects of 40 required names", counterexample, 30, ANY, WIDE);
    open_nest(&first, &required, 7, MANY);
    put_definition(&first);
    repeat(&first, required.close, 7);
    nest(&second, &required, 7, MANY, "{\"Map\":\"Integer\"}");
    measure("Counterexample, a made-up name inside 7 objects of 40 names", counterexample, 30, ANY, WIDE / 8 * 7);
    wrap(&first, "{\"Array\":", "\"Schema\"", "}", 24);
    wrap(&second, "{\"Array\":", "\"Float\"", "}", 24);
    measure("Counterexample, 24 arrays", counterexample, 30, ANY, SHORT);
    wrap(&first, "{\"Map\":", "\"JSON\"", "}", 24);
    wrap(&second, "{\"Map\":", "\"Schema\"", "}", 24);
    measure("Counterexample, 24 maps", counterexample, 30, ANY, SHORT);
}

/* With a buffer of any length, what is written for the first text being so long. */
static void measure_compact_with(const char *name, size_t room_lent, size_t needed, size_t more_than) {
    room = room_lent;
    measure(name, compact, room < needed ? TELEPORT_SHORT_BUFFER : TELEPORT_OK, (uint32_t)needed, more_than);
}

/* The brackets, names and escapes of Read's, written with room and measured without. */
static void measure_compact(void) {
    put(&first, "[]");
    measure_compact_with("Compact, 2 bytes", 2, 2, SHORT);
    wrap(&first, "[", "", "]", 32);
    measure_compact_with("Compact, 32 brackets", LONG, 64, SHORT);
    for (size_t lent = 0; lent <= LONG; lent += LONG) {
        wrap(&first, "[{\"\\ud83d\\ude00\":", "\"\\ud83d\\ude00\"", "}]", 16);
        pad(&first, LONG);
        measure_compact_with("Compact, 65,536 bytes, arrays and objects by turns, escapes", lent, 16 * 11 + 6, LONG);
        nest(&first, &objects, 32, 150, "0");
        size_t needed = first.length;
        pad(&first, LONG);
        measure_compact_with("Compact, 65,536 bytes, 32 objects of 150 names", lent, needed, LONG);
    }
}

int main(void) {
    measure_read();
    measure_compact();
    measure_check();
    measure_dates();
    measure_path();
    measure_schema();
    measure_compare();
    measure_counterexample();
    printf("%lu passed, %lu failed\n", passed, failed);
    return failed != 0;
}
