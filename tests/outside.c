/*
 * Calls the library as a C program does, and compares with answers, rows, dates and paths that are stated here.
 * Each call is made twice: with every buffer right behind a page that traps, and right before one. The words around a
 * table, an answer, the dates, a path or its steps, and the bytes around a buffer that is written to, must stay as they
 * were; a text stands in pages that may only be read, with more of it behind.
 */
#define _DEFAULT_SOURCE
#include <stdio.h>
#include <stdlib.h>
#include <string.h>
#include <sys/mman.h>
#include <unistd.h>
#include <teleport.h>

enum { ROOM = 512, FILL = 0x5a5a5a5a, LONGEST = 65536, LONG_ROWS = 32768, DATES_WORDS = 2 * TELEPORT_DATES_NUMBERS };

/* The longest of the tables of every small length: more than most texts need. */
enum { SMALL = 12 * TELEPORT_ROW_WORDS };

static unsigned long passed, failed;

static void expect(int holds, const char *what, const char *text, size_t length) {
    if (holds) {
        passed++;
    } else {
        failed++;
        printf("failed: %s, for %zu bytes of %.60s\n", what, length, text);
    }
}

/* Areas: whole pages between two that trap. */

enum side { AT_START, AT_END };

struct area {
    void *start;
    size_t bytes;
};

static struct area map_area(size_t bytes) {
    size_t page = (size_t)sysconf(_SC_PAGESIZE), whole = (bytes + page - 1) / page * page;
    char *map = mmap(NULL, whole + 2 * page, PROT_NONE, MAP_PRIVATE | MAP_ANONYMOUS, -1, 0);
    if (map == MAP_FAILED || mprotect(map + page, whole, PROT_READ | PROT_WRITE) != 0) {
        perror("mmap");
        exit(1);
    }
    return (struct area){map + page, whole};
}

static void protect(const struct area *area, int how) {
    if (mprotect(area->start, area->bytes, how) != 0) {
        perror("mprotect");
        exit(1);
    }
}

static void *part(const struct area *area, size_t bytes, enum side side) {
    return (char *)area->start + (side == AT_START ? 0 : area->bytes - bytes);
}

/* The first bytes of a text, to be read only. Behind them stands the rest of it, then ones: who reads on, reads more. */
static const uint8_t *lend_text(const struct area *area, const char *text, size_t length, enum side side) {
    protect(area, PROT_READ | PROT_WRITE);
    memset(area->start, '1', area->bytes);
    uint8_t *lent = part(area, length, side);
    memcpy(lent, text, side == AT_START ? strlen(text) : length);
    protect(area, PROT_READ);
    return lent;
}

/* Words to be written, each word of the area with another value. */
static uint32_t *lend_words(const struct area *area, size_t count, enum side side) {
    uint32_t *words = area->start;
    for (size_t i = 0; i < area->bytes / sizeof *words; i++) words[i] = FILL + (uint32_t)i;
    return part(area, count * sizeof *words, side);
}

/* Whether the words of an area from one to another are as they were lent. */
static int as_lent(const struct area *area, const uint32_t *from, const uint32_t *to) {
    const uint32_t *words = area->start;
    for (const uint32_t *word = from; word < to; word++)
        if (*word != FILL + (uint32_t)(word - words)) return 0;
    return 1;
}

/* A table, an answer, the dates or a path after a call: what stands in it, the rest of it, and what stands around it. */
struct lent {
    const struct area *area;
    const uint32_t *words;
    size_t count;
};

static int holds(const struct lent *lent, const uint32_t *wanted, size_t filled) {
    return (filled == 0 || memcmp(lent->words, wanted, filled * sizeof *wanted) == 0)
        && as_lent(lent->area, lent->words + filled, lent->words + lent->count);
}

static int guards_hold(const struct lent *lent) {
    const uint32_t *words = lent->area->start;
    return as_lent(lent->area, words, lent->words)
        && as_lent(lent->area, lent->words + lent->count, words + lent->area->bytes / sizeof *words);
}

/* Bytes to be written, each byte of the area unlike its neighbours. */
static uint8_t lent_byte(size_t i) {
    return (uint8_t)(FILL + 7 * i);
}

static uint8_t *lend_bytes(const struct area *area, size_t count, enum side side) {
    uint8_t *bytes = area->start;
    for (size_t i = 0; i < area->bytes; i++) bytes[i] = lent_byte(i);
    return part(area, count, side);
}

/* Whether a buffer holds what was written, and every other byte of its area is as it was lent. */
static int bytes_hold(const struct area *area, const uint8_t *buffer, const char *written, size_t filled) {
    const uint8_t *bytes = area->start;
    size_t from = (size_t)(buffer - bytes);
    for (size_t i = 0; i < area->bytes; i++) {
        int inside = i >= from && i < from + filled;
        if (bytes[i] != (inside ? (uint8_t)written[i - from] : lent_byte(i))) return 0;
    }
    return 1;
}

static struct area text_areas[2], table_areas[2], answer_area, dates_area, path_area, steps_area, buffer_area;

/* For a buffer of the longest document's length, and for one that has a byte more. */
static struct area whole_area, larger_area;

/* Read: every beginning of a text, in tables of every small length. */

/* From a length of the beginning on: the code, its place, and the rows where it is read. */
struct stretch {
    size_t from;
    uint32_t code, place;
    const uint32_t *rows;
    size_t words;
};

struct reading {
    const char *text;
    struct stretch stretches[8];
};

#define WORDS(...) (const uint32_t[]){__VA_ARGS__}, sizeof((const uint32_t[]){__VA_ARGS__}) / sizeof(uint32_t)
#define ENDED(from) {from, TELEPORT_ENDED_EARLY, 0, NULL, 0} /* its place is the length */
#define REFUSED(from, code, place) {from, code, place, NULL, 0}
#define READ(from, ...) {from, TELEPORT_OK, 0, WORDS(__VA_ARGS__)}

static const struct reading readings[] = {
    {"{\"a\":[1,true]}", {ENDED(0), READ(14, 8,0,14,1,5,0, 9,1,4,0,1,0, 7,5,13,2,3,0, 4,6,7,0,1,2, 3,8,12,0,1,2)}},
    {"{\"n\":null,\"f\":[false,-0,1.5,\"\\u00e9\"]}", {ENDED(0), READ(38,
        8,0,38,2,9,0, 9,1,4,0,1,0, 1,5,9,0,1,0, 9,10,13,0,1,0, 7,14,37,4,5,0, 2,15,20,0,1,4, 4,21,23,0,1,4, 5,24,27,0,1,4,
        6,28,36,0,1,4)}},
    {"[[1],{\"a\":[]},2]", {ENDED(0), READ(16,
        7,0,16,3,7,0, 7,1,4,1,2,0, 4,2,3,0,1,1, 8,5,13,1,3,0, 9,6,9,0,1,3, 7,10,12,0,1,3, 4,14,15,0,1,0)}},
    {"-0.5e+3", {ENDED(0), READ(2, 4,0,2,0,1,0), ENDED(3), READ(4, 5,0,4,0,1,0), ENDED(5), READ(7, 5,0,7,0,1,0)}},
    {"[{}] \n 0", {ENDED(0), READ(4, 7,0,4,1,2,0, 8,1,3,0,1,0), REFUSED(8, 3, 7)}},
    {"01", {ENDED(0), READ(1, 4,0,1,0,1,0), REFUSED(2, 3, 1)}},
    {"[1,]", {ENDED(0), REFUSED(4, 3, 3)}},
    {"\xef\xbb\xbf""1", {ENDED(0), REFUSED(1, 3, 0)}},
    {" { \"\\u0061\" : -0.5e+3 , \"a\" : null } ", {ENDED(0), REFUSED(27, 6, 26)}},
    {"[[[[[[[[[[[[[[[[[[[[[[[[[[[[[[[[[", {ENDED(0), REFUSED(33, 7, 32)}},
    {"\"\xc3\xa9 \\ud83d\\ude00 \xed\xa0\x80\"", {ENDED(0), REFUSED(19, 4, 18)}},
    {"\"\\\x80\"", {ENDED(0), REFUSED(3, 4, 2)}},
    {"\"\\\xc3\xa9\"", {ENDED(0), REFUSED(3, 3, 2)}},
    {"\"\\ud800 \"", {ENDED(0), REFUSED(8, 5, 7)}},
    {"\"\\udc00\"", {ENDED(0), REFUSED(5, 5, 4)}},
};

static const struct stretch *stretch_at(const struct reading *reading, size_t length) {
    const struct stretch *found = reading->stretches;
    while (found[1].from != 0 && found[1].from <= length) found++;
    return found;
}

/* 01: room is asked for last, "only for well-formed text". */
static int lacks_room(size_t filled, size_t words) {
    return words / TELEPORT_ROW_WORDS < filled / TELEPORT_ROW_WORDS;
}

static void read_with(const char *text, size_t length, const struct stretch *says, size_t words, enum side side) {
    uint32_t rows = (uint32_t)(says->words / TELEPORT_ROW_WORDS);
    int short_of_room = lacks_room(says->words, words);
    uint32_t place = says->code == TELEPORT_ENDED_EARLY ? (uint32_t)length : says->place;
    uint32_t refusal[4] = {says->code, 1, place, 0}, read[4] = {TELEPORT_OK, 0, 0, rows};
    uint32_t no_room[4] = {TELEPORT_NO_ROOM, 1, 0, rows};
    const uint32_t *wanted = says->code != TELEPORT_OK ? refusal : short_of_room ? no_room : read;
    const uint8_t *lent = lend_text(&text_areas[0], text, length, side);
    uint32_t *table = lend_words(&table_areas[0], words, side), *answer = lend_words(&answer_area, 4, side);
    teleport_read(lent, length, table, words, answer);
    struct lent table_after = {&table_areas[0], table, words}, answer_after = {&answer_area, answer, 4};
    expect(holds(&answer_after, wanted, 4), "the answer of Read", text, length);
    expect(guards_hold(&answer_after), "the words around the answer of Read", text, length);
    expect(holds(&table_after, says->rows, short_of_room ? 0 : says->words), "the table of Read", text, length);
    expect(guards_hold(&table_after), "the words around the table of Read", text, length);
}

static void read_beginning(const struct reading *reading, size_t length) {
    const struct stretch *says = stretch_at(reading, length);
    for (size_t words = 0; words <= says->words + 2 * TELEPORT_ROW_WORDS; words++) {
        read_with(reading->text, length, says, words, AT_START);
        read_with(reading->text, length, says, words, AT_END);
    }
}

static void read_beginnings(const struct reading *reading) {
    for (size_t length = 0; length <= strlen(reading->text); length++) read_beginning(reading, length);
}

/* Fills a text and its rows: space, and an array of ones. */
static void make_longest(char *text, uint32_t *rows) {
    const uint32_t array[] = {7, 1, LONGEST, LONG_ROWS - 1, LONG_ROWS, 0};
    memcpy(rows, array, sizeof array);
    for (uint32_t i = 1; i < LONG_ROWS; i++) {
        const uint32_t one[] = {4, 2 * i, 2 * i + 1, 0, 1, 0};
        memcpy(rows + i * TELEPORT_ROW_WORDS, one, sizeof one);
        memcpy(text + 2 * i - 1, ",1", 2);
    }
    text[0] = ' ';
    text[1] = '[';
    text[LONGEST - 1] = ']';
}

static char longest[LONGEST + 2];
static uint32_t longest_rows[LONG_ROWS * TELEPORT_ROW_WORDS];

/* Read of a text and a table that fill whole pages, so that both ends of each touch a page that traps; of a byte more. */
static void read_longest(void) {
    const struct stretch says = {0, TELEPORT_OK, 0, longest_rows, LONG_ROWS * TELEPORT_ROW_WORDS};
    const struct stretch too_long = REFUSED(0, TELEPORT_TOO_LONG, LONGEST);
    read_with(longest, LONGEST, &says, says.words, AT_START);
    read_with(longest, LONGEST, &says, says.words - 1, AT_END);
    longest[LONGEST] = ' ';
    text_areas[0] = map_area(LONGEST + 1);
    read_with(longest, LONGEST + 1, &too_long, says.words, AT_START);
    read_with(longest, LONGEST + 1, &too_long, says.words, AT_END);
}

/* Check and Compare. */

typedef void service(const uint8_t *, size_t, const uint8_t *, size_t, uint32_t *, size_t, uint32_t *, size_t, uint32_t *);

/* A text with its rows; none where it is not well-formed. */
struct text {
    const char *text;
    const uint32_t *rows;
    size_t words;
};

struct pair {
    service *call;
    const struct text *texts[2];
    uint32_t answer[4]; /* with room for every row */
};

static const struct text
    april_31 = {"{\"from\":\"2024-04-31T08:00:00Z\",\"to\":\"2024-05-01T00:00:00Z\"}",
        WORDS(8,0,59,2,5,0, 9,1,7,0,1,0, 6,8,30,0,1,0, 9,31,35,0,1,0, 6,36,58,0,1,0)},
    april_30 = {"{\"from\":\"2024-04-30T08:00:00Z\",\"to\":\"2024-05-01T00:00:00Z\"}",
        WORDS(8,0,59,2,5,0, 9,1,7,0,1,0, 6,8,30,0,1,0, 9,31,35,0,1,0, 6,36,58,0,1,0)},
    season = {"{\"Object\":{\"required\":{\"from\":\"DateTime\",\"to\":\"DateTime\"}}}",
        WORDS(8,0,59,1,9,0, 9,1,9,0,1,0, 8,10,58,1,7,0, 9,11,21,0,1,2, 8,22,57,2,5,2, 9,23,29,0,1,4, 6,30,40,0,1,4,
              9,41,45,0,1,4, 6,46,56,0,1,4)},
    leap_second = {"\"1990-12-31T15:59:60-08:00\"", WORDS(6,0,27,0,1,0)},
    no_leap_second = {"\"2024-04-30T23:59:60Z\"", WORDS(6,0,22,0,1,0)},
    date = {"\"DateTime\"", WORDS(6,0,10,0,1,0)},
    optional_a = {"{\"Object\":{\"optional\":{\"a\":\"String\"}}}",
        WORDS(8,0,38,1,7,0, 9,1,9,0,1,0, 8,10,37,1,5,0, 9,11,21,0,1,2, 8,22,36,1,3,2, 9,23,26,0,1,4, 6,27,35,0,1,4)},
    both_a = {"{\"Object\":{\"required\":{\"a\":\"JSON\"},\"optional\":{\"\\u0061\":\"JSON\"}}}",
        WORDS(8,0,65,1,11,0, 9,1,9,0,1,0, 8,10,64,2,9,0, 9,11,21,0,1,2, 8,22,34,1,3,2, 9,23,26,0,1,4, 6,27,33,0,1,4,
              9,35,45,0,1,2, 8,46,63,1,3,2, 9,47,55,0,1,8, 6,56,62,0,1,8)},
    float_a = {"{\"Object\":{\"required\":{\"b\":\"Boolean\",\"a\":\"Float\"}}}",
        WORDS(8,0,51,1,9,0, 9,1,9,0,1,0, 8,10,50,1,7,0, 9,11,21,0,1,2, 8,22,49,2,5,2, 9,23,26,0,1,4, 6,27,36,0,1,4,
              9,37,40,0,1,4, 6,41,48,0,1,4)},
    integer_a = {"{\"Object\":{\"required\":{\"a\":\"Integer\"}}}",
        WORDS(8,0,39,1,7,0, 9,1,9,0,1,0, 8,10,38,1,5,0, 9,11,21,0,1,2, 8,22,37,1,3,2, 9,23,26,0,1,4, 6,27,36,0,1,4)},
    open = {"{\"Object\":{}}", WORDS(8,0,13,1,3,0, 9,1,9,0,1,0, 8,10,12,0,1,0)},
    empty = {"{}", WORDS(8,0,2,0,1,0)},
    fraction = {"1.0", WORDS(5,0,3,0,1,0)},
    one = {"1", WORDS(4,0,1,0,1,0)},
    list = {"[]", WORDS(7,0,2,0,1,0)},
    comma = {"[1,]", NULL, 0},
    cut = {"{\"Array\":", NULL, 0},
    json = {"\"JSON\"", WORDS(6,0,6,0,1,0)},
    integer = {"\"Integer\"", WORDS(6,0,9,0,1,0)},
    number = {"\"Float\"", WORDS(6,0,7,0,1,0)},
    unknown = {"\"Number\"", WORDS(6,0,8,0,1,0)};

static const struct pair pairs[] = {
    {teleport_check, {&april_31, &season}, {22, 1, 8, 30}},
    {teleport_check, {&april_30, &season}, {0, 0, 0, 0}},
    {teleport_check, {&leap_second, &date}, {0, 0, 0, 0}},
    {teleport_check, {&no_leap_second, &date}, {22, 1, 0, 0}},
    {teleport_check, {&empty, &season}, {21, 1, 0, 23}},
    {teleport_check, {&fraction, &integer}, {20, 1, 0, 0}},
    {teleport_check, {&comma, &json}, {3, 1, 3, 0}},
    {teleport_check, {&one, &cut}, {2, 2, 9, 0}},
    {teleport_check, {&comma, &cut}, {2, 2, 9, 0}},
    {teleport_check, {&one, &unknown}, {11, 2, 0, 0}},
    {teleport_check, {&comma, &both_a}, {12, 2, 47, 0}},
    {teleport_check, {&json, &json}, {0, 0, 0, 0}},
    {teleport_compare, {&integer, &number}, {0, 0, 0, 0}},
    {teleport_compare, {&number, &integer}, {30, 0, 0, 0}},
    {teleport_compare, {&open, &optional_a}, {30, 0, 0, 0}},
    {teleport_compare, {&optional_a, &optional_a}, {0, 0, 0, 0}},
    {teleport_compare, {&float_a, &integer_a}, {30, 0, 0, 0}},
    {teleport_compare, {&json, &list}, {10, 2, 0, 0}},
    {teleport_compare, {&both_a, &list}, {12, 1, 47, 0}},
    {teleport_compare, {&season, &comma}, {3, 2, 3, 0}},
    {teleport_compare, {&cut, &comma}, {2, 1, 9, 0}},
};

/* What a call with tables of these lengths must leave: the answer, and how many words of each table are filled. */
struct outcome {
    uint32_t answer[4];
    size_t filled[2];
};

/* 01, "Order": the schema of Check goes first, and the new one of Compare; each text wholly before the next is reached. */
static struct outcome outcome_of(const struct pair *pair, const size_t words[2]) {
    struct outcome out = {{0, 0, 0, 0}, {0, 0}};
    int first = pair->call == teleport_check ? 1 : 0;
    for (int turn = 0; turn < 2; turn++) {
        int i = turn == 0 ? first : 1 - first;
        const struct text *text = pair->texts[i];
        if (lacks_room(text->words, words[i])) {
            out.answer[0] = TELEPORT_NO_ROOM;
            out.answer[1] = (uint32_t)i + 1;
            out.answer[3] = (uint32_t)(text->words / TELEPORT_ROW_WORDS);
            return out;
        }
        out.filled[i] = text->words;
        if (pair->answer[0] <= TELEPORT_REQUIRED_OPTIONAL && pair->answer[1] == (uint32_t)i + 1) break;
    }
    memcpy(out.answer, pair->answer, sizeof out.answer);
    return out;
}

/* What is lent to a call with two texts. */
struct lending {
    const uint8_t *texts[2];
    size_t lengths[2], words[2];
    uint32_t *tables[2], *answer;
};

static struct lending lend_pair(const struct pair *pair, const size_t words[2], enum side side) {
    struct lending lent = {.words = {words[0], words[1]}, .answer = lend_words(&answer_area, 4, side)};
    for (int i = 0; i < 2; i++) {
        lent.lengths[i] = strlen(pair->texts[i]->text);
        lent.tables[i] = lend_words(&table_areas[i], words[i], side);
        /* one text given twice stands in one place */
        int again = i == 1 && pair->texts[0] == pair->texts[1];
        lent.texts[i] = again ? lent.texts[0] : lend_text(&text_areas[i], pair->texts[i]->text, lent.lengths[i], side);
    }
    return lent;
}

static void expect_outcome(const struct pair *pair, const struct lending *lent, const struct outcome *wanted) {
    struct lent answer_after = {&answer_area, lent->answer, 4};
    expect(holds(&answer_after, wanted->answer, 4), "the answer", pair->texts[0]->text, lent->lengths[0]);
    expect(guards_hold(&answer_after), "the words around the answer", pair->texts[0]->text, lent->lengths[0]);
    for (int i = 0; i < 2; i++) {
        const struct text *text = pair->texts[i];
        struct lent after = {&table_areas[i], lent->tables[i], lent->words[i]};
        expect(holds(&after, text->rows, wanted->filled[i]), "the table", text->text, lent->lengths[i]);
        expect(guards_hold(&after), "the words around the table", text->text, lent->lengths[i]);
    }
}

/* Check with dates: 02, L3: "all three are 0 where there were none, and on every other code". */
static void check_dates(const struct pair *pair, const struct lending *lent, uint32_t code, const int64_t *dates, enum side side) {
    static const int64_t none[TELEPORT_DATES_NUMBERS];
    uint32_t *words = lend_words(&dates_area, DATES_WORDS, side);
    teleport_check_dates(lent->texts[0], lent->lengths[0], lent->texts[1], lent->lengths[1], lent->tables[0], lent->words[0],
        lent->tables[1], lent->words[1], lent->answer, (int64_t *)(void *)words);
    const void *wanted = code == TELEPORT_OK ? dates : none;
    struct lent after = {&dates_area, words, DATES_WORDS};
    expect(holds(&after, wanted, DATES_WORDS), "the dates", pair->texts[0]->text, lent->lengths[0]);
    expect(guards_hold(&after), "the words around the dates", pair->texts[0]->text, lent->lengths[0]);
}

/* The pair's own call; where dates are given, those that must be found on 0, Check with dates. */
static void call_with(const struct pair *pair, const int64_t *dates, const size_t words[2], enum side side) {
    const struct outcome wanted = outcome_of(pair, words);
    const struct lending lent = lend_pair(pair, words, side);
    if (dates != NULL) {
        check_dates(pair, &lent, wanted.answer[TELEPORT_CODE], dates, side);
    } else {
        pair->call(lent.texts[0], lent.lengths[0], lent.texts[1], lent.lengths[1], lent.tables[0], words[0], lent.tables[1], words[1],
            lent.answer);
    }
    expect_outcome(pair, &lent, &wanted);
}

/* Tables of every small length: both, and each beside one with room. */
static void call_pair(const struct pair *pair, const int64_t *dates) {
    for (size_t words = 0; words <= SMALL; words++) {
        const size_t lengths[3][2] = {{words, words}, {words, ROOM}, {ROOM, words}};
        for (int i = 0; i < 3; i++) {
            call_with(pair, dates, lengths[i], AT_START);
            call_with(pair, dates, lengths[i], AT_END);
        }
    }
}

/* Pairs of Check with their dates. */
struct dating {
    struct pair pair;
    int64_t dates[TELEPORT_DATES_NUMBERS]; /* on 0 */
};

static const struct text
    before_1970 = {"[\"1970-01-01T00:00:00+01:00\",\"1969-12-31T23:59:59.5Z\"]", WORDS(7,0,54,2,3,0, 6,1,28,0,1,0, 6,29,53,0,1,0)},
    extremes = {"[\"9999-12-31T23:59:59-23:59\",\"0000-01-01T00:00:00+23:59\"]", WORDS(7,0,57,2,3,0, 6,1,28,0,1,0, 6,29,56,0,1,0)},
    then_one = {"[\"1970-01-01T00:00:00Z\",1]", WORDS(7,0,26,2,3,0, 6,1,23,0,1,0, 4,24,25,0,1,0)},
    times = {"{\"Array\":\"DateTime\"}", WORDS(8,0,20,1,3,0, 9,1,8,0,1,0, 6,9,19,0,1,0)},
    strings = {"{\"Array\":\"String\"}", WORDS(8,0,18,1,3,0, 9,1,8,0,1,0, 6,9,17,0,1,0)};

static const struct dating datings[] = {
    {{teleport_check, {&april_30, &season}, {0, 0, 0, 0}}, {2, 1714464000, 1714521600}},
    {{teleport_check, {&april_30, &open}, {0, 0, 0, 0}}, {0, 0, 0}},
    {{teleport_check, {&april_31, &season}, {22, 1, 8, 30}}, {0, 0, 0}},
    {{teleport_check, {&leap_second, &date}, {0, 0, 0, 0}}, {1, 662688000, 662688000}},
    {{teleport_check, {&before_1970, &times}, {0, 0, 0, 0}}, {2, -3600, -1}},
    {{teleport_check, {&extremes, &times}, {0, 0, 0, 0}}, {2, -62167305540, 253402387139}},
    {{teleport_check, {&extremes, &strings}, {0, 0, 0, 0}}, {0, 0, 0}},
    {{teleport_check, {&then_one, &times}, {20, 1, 24, 9}}, {0, 0, 0}},
    {{teleport_check, {&empty, &season}, {21, 1, 0, 23}}, {0, 0, 0}},
    {{teleport_check, {&comma, &times}, {3, 1, 3, 0}}, {0, 0, 0}},
    {{teleport_check, {&extremes, &cut}, {2, 2, 9, 0}}, {0, 0, 0}},
    {{teleport_check, {&extremes, &unknown}, {11, 2, 0, 0}}, {0, 0, 0}},
    {{teleport_check, {&json, &json}, {0, 0, 0, 0}}, {0, 0, 0}},
};

/* Check with the path: lists of every small length, and tables of every small length. */

struct pathing {
    struct pair pair;
    uint32_t path[TELEPORT_SCHEMA_DEPTH + 1]; /* on 20 to 22 */
    size_t steps;
};

static const struct text
    example = {"{\"a\":[1,true]}", WORDS(8,0,14,1,5,0, 9,1,4,0,1,0, 7,5,13,2,3,0, 4,6,7,0,1,2, 3,8,12,0,1,2)},
    whole_lists = {"{\"Map\":{\"Array\":\"Integer\"}}", WORDS(8,0,27,1,5,0, 9,1,6,0,1,0, 8,7,26,1,3,0, 9,8,15,0,1,2, 6,16,25,0,1,2)},
    second_lacks = {"[{\"a\":1},{\"b\":2}]", WORDS(7,0,17,2,7,0, 8,1,8,1,3,0, 9,2,5,0,1,1, 4,6,7,0,1,1, 8,9,16,1,3,0, 9,10,13,0,1,4,
        4,14,15,0,1,4)},
    each_a = {"{\"Array\":{\"Object\":{\"required\":{\"a\":\"Integer\"}}}}", WORDS(8,0,49,1,9,0, 9,1,8,0,1,0, 8,9,48,1,7,0, 9,10,18,0,1,2,
        8,19,47,1,5,2, 9,20,30,0,1,4, 8,31,46,1,3,4, 9,32,35,0,1,6, 6,36,45,0,1,6)};

static const struct pathing pathings[] = {
    {{teleport_check, {&example, &whole_lists}, {20, 1, 8, 16}}, {4, 2, 0}, 3},
    {{teleport_check, {&second_lacks, &each_a}, {21, 1, 9, 32}}, {4, 0}, 2},
    {{teleport_check, {&april_31, &season}, {22, 1, 8, 30}}, {2, 0}, 2},
    {{teleport_check, {&then_one, &times}, {20, 1, 24, 9}}, {2, 0}, 2},
    {{teleport_check, {&fraction, &integer}, {20, 1, 0, 0}}, {0}, 1},
    {{teleport_check, {&empty, &season}, {21, 1, 0, 23}}, {0}, 1},
    {{teleport_check, {&no_leap_second, &date}, {22, 1, 0, 0}}, {0}, 1},
    {{teleport_check, {&april_30, &season}, {0, 0, 0, 0}}, {0}, 0},
    {{teleport_check, {&json, &json}, {0, 0, 0, 0}}, {0}, 0},
    {{teleport_check, {&comma, &times}, {3, 1, 3, 0}}, {0}, 0},
    {{teleport_check, {&extremes, &cut}, {2, 2, 9, 0}}, {0}, 0},
    {{teleport_check, {&example, &list}, {10, 2, 0, 0}}, {0}, 0},
    {{teleport_check, {&example, &unknown}, {11, 2, 0, 0}}, {0}, 0},
    {{teleport_check, {&comma, &both_a}, {12, 2, 47, 0}}, {0}, 0},
};

/* 02, L11: "A list under 33 words is 8 with text 0 and other 33, before everything". */
static void path_with(const struct pathing *says, const size_t words[2], size_t room, enum side side) {
    const struct outcome short_list = {{TELEPORT_NO_ROOM, 0, 0, TELEPORT_PATH_WORDS}, {0, 0}};
    const struct pair *pair = &says->pair;
    const struct outcome wanted = room < TELEPORT_PATH_WORDS ? short_list : outcome_of(pair, words);
    uint32_t code = wanted.answer[TELEPORT_CODE];
    uint32_t steps = code >= TELEPORT_WRONG_KIND && code <= TELEPORT_NO_DATE ? (uint32_t)says->steps : 0;
    const struct lending lent = lend_pair(pair, words, side);
    const char *name = pair->texts[0]->text;
    uint32_t *list = lend_words(&path_area, room, side), *given = lend_words(&steps_area, 1, side);
    teleport_check_path(lent.texts[0], lent.lengths[0], lent.texts[1], lent.lengths[1], lent.tables[0], words[0],
        lent.tables[1], words[1], list, room, lent.answer, given);
    struct lent path = {&path_area, list, room}, count = {&steps_area, given, 1};
    expect_outcome(pair, &lent, &wanted);
    expect(holds(&path, says->path, steps), "the path", name, lent.lengths[0]);
    expect(guards_hold(&path), "the words around the path", name, lent.lengths[0]);
    expect(holds(&count, &steps, 1), "the steps", name, lent.lengths[0]);
    expect(guards_hold(&count), "the words around the steps", name, lent.lengths[0]);
}

static void path_pair(const struct pathing *says) {
    const size_t roomy[2] = {ROOM, ROOM}, none[2] = {0, 0};
    for (size_t room = 0; room <= 2 * TELEPORT_PATH_WORDS; room++) {
        path_with(says, roomy, room, AT_START);
        path_with(says, roomy, room, AT_END);
        path_with(says, none, room, room % 2 ? AT_START : AT_END);
    }
    for (size_t words = 0; words <= SMALL; words++) {
        const size_t lengths[3][2] = {{words, words}, {words, ROOM}, {ROOM, words}};
        for (int i = 0; i < 3; i++) path_with(says, lengths[i], TELEPORT_PATH_WORDS, words % 2 ? AT_START : AT_END);
    }
}

/* A string inside as many arrays as a schema has brackets, which asks for a number there: the longest path. */
static void path_deepest(void) {
    enum { DEPTH = TELEPORT_SCHEMA_DEPTH, OPENING = 9 /* bytes */ };
    static char document[2 * DEPTH + 3], schema[(OPENING + 1) * DEPTH + 10];
    static uint32_t rows[DEPTH + 1][TELEPORT_ROW_WORDS], schema_rows[2 * DEPTH + 1][TELEPORT_ROW_WORDS];
    static struct pathing says;
    size_t length = 0, schema_length = 0;
    for (uint32_t i = 0; i < DEPTH; i++) {
        const uint32_t array[] = {7, i, 2 * DEPTH + 2 - i, 1, DEPTH + 1 - i, i ? i - 1 : 0};
        const uint32_t form[] = {8, OPENING * i, (OPENING + 1) * DEPTH + 9 - i, 1, 2 * (DEPTH - i) + 1, i ? 2 * i - 2 : 0};
        const uint32_t name[] = {9, OPENING * i + 1, OPENING * i + 8, 0, 1, 2 * i};
        memcpy(rows[i], array, sizeof array);
        memcpy(schema_rows[2 * i], form, sizeof form);
        memcpy(schema_rows[2 * i + 1], name, sizeof name);
        document[length++] = '[';
        schema_length += (size_t)sprintf(schema + schema_length, "{\"Array\":");
        says.path[i] = DEPTH - i;
    }
    const uint32_t string[] = {6, DEPTH, DEPTH + 2, 0, 1, DEPTH - 1};
    const uint32_t type[] = {6, OPENING * DEPTH, OPENING * DEPTH + 9, 0, 1, 2 * DEPTH - 2};
    memcpy(rows[DEPTH], string, sizeof string);
    memcpy(schema_rows[2 * DEPTH], type, sizeof type);
    length += (size_t)sprintf(document + length, "\"\"");
    memset(document + length, ']', DEPTH);
    schema_length += (size_t)sprintf(schema + schema_length, "\"Integer\"");
    memset(schema + schema_length, '}', DEPTH);
    const struct text deep = {document, rows[0], sizeof rows / sizeof rows[0][0]};
    const struct text arrays = {schema, schema_rows[0], sizeof schema_rows / sizeof rows[0][0]};
    const struct pair pair = {teleport_check, {&deep, &arrays}, {20, 1, DEPTH, OPENING * DEPTH}};
    says.pair = pair;
    says.steps = DEPTH + 1;
    path_pair(&says);
}

/* Compact: buffers and tables of every small length. */

struct writing {
    struct text text;
    const char *written;
    uint32_t refusal[4]; /* of a text without rows */
};

static const struct writing writings[] = {
    {{"{\"a\":[1,true]}", WORDS(8,0,14,1,5,0, 9,1,4,0,1,0, 7,5,13,2,3,0, 4,6,7,0,1,2, 3,8,12,0,1,2)}, "{\"a\":[1,true]}", {0}},
    {{" { \"b\" : [ 1.0 , true ] , \"a\" : \"\\/\" } ", WORDS(8,1,38,2,7,0, 9,3,6,0,1,0, 7,9,23,2,3,0, 5,11,14,0,1,2, 3,17,21,0,1,2,
        9,26,29,0,1,0, 6,32,36,0,1,0)}, "{\"b\":[1.0,true],\"a\":\"/\"}", {0}},
    {{"{\"\\u0062\":null,\"a\" : false}", WORDS(8,0,27,2,5,0, 9,1,9,0,1,0, 1,10,14,0,1,0, 9,15,18,0,1,0, 2,21,26,0,1,0)},
        "{\"b\":null,\"a\":false}", {0}},
    {{"\"\\u001F\\u000a\\u0022\\u005C\\b\x7f\"", WORDS(6,0,29,0,1,0)}, "\"\\u001f\\n\\\"\\\\\\b\x7f\"", {0}},
    {{"[ \"\\uD83d\\ude00\\u00E9\\u20ac\" ]", WORDS(7,0,30,1,2,0, 6,2,28,0,1,0)}, "[\"\xf0\x9f\x98\x80\xc3\xa9\xe2\x82\xac\"]", {0}},
    {{"-0.5e+3 ", WORDS(5,0,7,0,1,0)}, "-0.5e+3", {0}},
    {{"", NULL, 0}, "", {2, 1, 0, 0}},
    {{"[1,]", NULL, 0}, "", {3, 1, 3, 0}},
    {{"{\"a\":1,\"\\u0061\":2}", NULL, 0}, "", {6, 1, 14, 0}},
};

/* 02, L6: "after codes 1 to 8", room in the table too; "every refusal leaves the buffer untouched". */
static void compact_with(const struct writing *says, size_t words, size_t room, enum side side) {
    const struct text *text = &says->text;
    size_t length = strlen(text->text), needed = strlen(says->written);
    uint32_t rows = (uint32_t)(text->words / TELEPORT_ROW_WORDS), no_room[4] = {TELEPORT_NO_ROOM, 1, 0, rows};
    uint32_t done[4] = {needed <= room ? TELEPORT_OK : TELEPORT_SHORT_BUFFER, 0, 0, (uint32_t)needed};
    int short_of_room = lacks_room(text->words, words), writes = rows && !short_of_room && needed <= room;
    const uint32_t *wanted = !rows ? says->refusal : short_of_room ? no_room : done;
    const uint8_t *lent = lend_text(&text_areas[0], text->text, length, side);
    uint32_t *table = lend_words(&table_areas[0], words, side), *answer = lend_words(&answer_area, 4, side);
    uint8_t *buffer = lend_bytes(&buffer_area, room, side);
    teleport_compact(lent, length, table, words, buffer, room, answer);
    struct lent table_after = {&table_areas[0], table, words}, answer_after = {&answer_area, answer, 4};
    expect(holds(&answer_after, wanted, 4), "the answer of Compact", text->text, length);
    expect(guards_hold(&answer_after), "the words around the answer of Compact", text->text, length);
    expect(holds(&table_after, text->rows, short_of_room ? 0 : text->words), "the table of Compact", text->text, length);
    expect(guards_hold(&table_after), "the words around the table of Compact", text->text, length);
    expect(bytes_hold(&buffer_area, buffer, says->written, writes ? needed : 0), "the buffer of Compact", text->text, length);
}

static void compact_text(const struct writing *says) {
    for (size_t words = 0; words <= says->text.words + TELEPORT_ROW_WORDS; words++) {
        for (size_t room = 0; room <= strlen(says->written) + 1; room++) {
            compact_with(says, words, room, AT_START);
            compact_with(says, words, room, AT_END);
        }
    }
}

/* The longest text, of which the space in front is left out, in buffers that fill whole pages or a byte less than is needed; a byte more. */
static void compact_longest(void) {
    const struct writing says = {{longest, longest_rows, LONG_ROWS * TELEPORT_ROW_WORDS}, longest + 1, {0}};
    const struct writing too_long = {{longest, NULL, 0}, "", {TELEPORT_TOO_LONG, 1, LONGEST, 0}};
    buffer_area = map_area(LONGEST);
    compact_with(&says, says.text.words, LONGEST, AT_START);
    compact_with(&says, says.text.words, LONGEST - 1, AT_END);
    compact_with(&says, says.text.words, LONGEST - 2, AT_START);
    compact_with(&says, says.text.words - 1, LONGEST, AT_END);
    longest[LONGEST] = ' ';
    text_areas[0] = map_area(LONGEST + 1);
    compact_with(&too_long, says.text.words, LONGEST, AT_START);
    longest[LONGEST] = 0;
    text_areas[0] = map_area(LONGEST);
}

/* Compare's sister: buffers of the least length and about it, and tables of every small length. */

static uint32_t room_tables[2][LONG_ROWS * TELEPORT_ROW_WORDS];

/* Check's code, with room for everything. */
static uint32_t checked(const uint8_t *document, size_t length, const uint8_t *schema, size_t schema_length) {
    uint32_t answer[4];
    size_t words = LONG_ROWS * TELEPORT_ROW_WORDS;
    teleport_check(document, length, schema, schema_length, room_tables[0], words, room_tables[1], words, answer);
    return answer[TELEPORT_CODE];
}

/* 02, L1: "a document that meets the new schema and fails the old", "Check, lent enough room, must confirm both". */
static int shows(const uint8_t *document, size_t length, const struct lending *schemas) {
    uint32_t fails = checked(document, length, schemas->texts[1], schemas->lengths[1]);
    return checked(document, length, schemas->texts[0], schemas->lengths[0]) == TELEPORT_OK
        && fails >= TELEPORT_WRONG_KIND && fails <= TELEPORT_NO_DATE;
}

/* All is Compare's, but on 30 the length and the buffer; a short buffer is "judged before everything else". */
static void exhibit_with(const struct pair *pair, const size_t words[2], size_t room, enum side side) {
    const struct outcome too_short = {{TELEPORT_SHORT_FOR_DOCUMENT, 0, 0, 0}, {0, 0}};
    struct outcome wanted = room < TELEPORT_DOCUMENT_LIMIT ? too_short : outcome_of(pair, words);
    const struct lending lent = lend_pair(pair, words, side);
    const char *name = pair->texts[0]->text;
    static uint8_t document[LONGEST];
    uint8_t *buffer = lend_bytes(&buffer_area, room, side);
    size_t written = 0;
    teleport_counterexample(lent.texts[0], lent.lengths[0], lent.texts[1], lent.lengths[1], lent.tables[0], words[0],
        lent.tables[1], words[1], buffer, room, lent.answer);
    if (wanted.answer[TELEPORT_CODE] == TELEPORT_NOT_CARRIED && lent.answer[TELEPORT_OTHER] <= LONGEST) {
        wanted.answer[TELEPORT_OTHER] = (uint32_t)(written = lent.answer[TELEPORT_OTHER]);
        memcpy(document, buffer, written);
        expect(shows(document, written, &lent), "the document", name, lent.lengths[0]);
    }
    expect_outcome(pair, &lent, &wanted);
    expect(bytes_hold(&buffer_area, buffer, (const char *)document, written), "the bytes around the document", name, lent.lengths[0]);
}

static void exhibit_pair(const struct pair *pair) {
    const size_t rooms[] = {0, 1, LONGEST - 1, LONGEST, LONGEST + 1}, roomy[2] = {ROOM, ROOM};
    for (size_t i = 0; i < sizeof rooms / sizeof *rooms; i++) {
        buffer_area = rooms[i] > LONGEST ? larger_area : whole_area;
        exhibit_with(pair, roomy, rooms[i], AT_START);
        exhibit_with(pair, roomy, rooms[i], AT_END);
    }
    buffer_area = whole_area;
    for (size_t words = 0; words <= SMALL; words++) {
        const size_t lengths[3][2] = {{words, words}, {words, ROOM}, {ROOM, words}};
        exhibit_with(pair, lengths[words % 3], LONGEST, words % 2 ? AT_START : AT_END);
    }
}

static void exhibit_pairs(void) {
    struct area before = buffer_area;
    whole_area = map_area(LONGEST);
    larger_area = map_area(LONGEST + 1);
    for (size_t i = 0; i < sizeof pairs / sizeof *pairs; i++)
        if (pairs[i].call == teleport_compare) exhibit_pair(&pairs[i]);
    buffer_area = before;
}

/* A new schema of the longest length, its rows as Read writes them, in pages and tables that end where they end. */
static void exhibit_longest(void) {
    static char schema[TELEPORT_SCHEMA_LIMIT + 1];
    size_t length = (size_t)sprintf(schema, "{\"Object\":{\"required\":{\"n\":\"DateTime\"");
    for (unsigned i = 0; length + 40 < TELEPORT_SCHEMA_LIMIT; i++) length += (size_t)sprintf(schema + length, ",\"%x\":\"DateTime\"", i);
    length += (size_t)sprintf(schema + length, "}}}");
    memset(schema + length, ' ', TELEPORT_SCHEMA_LIMIT - length);
    uint32_t answer[4];
    teleport_read((const uint8_t *)schema, TELEPORT_SCHEMA_LIMIT, longest_rows, LONG_ROWS * TELEPORT_ROW_WORDS, answer);
    const struct text wide = {schema, longest_rows, answer[TELEPORT_OTHER] * TELEPORT_ROW_WORDS};
    const struct pair failing = {teleport_compare, {&wide, &integer}, {TELEPORT_NOT_CARRIED, 0, 0, 0}};
    const size_t words[2] = {wide.words, integer.words}, less[2] = {wide.words - 1, integer.words};
    struct area text = text_areas[0], table = table_areas[0], before = buffer_area;
    text_areas[0] = map_area(TELEPORT_SCHEMA_LIMIT);
    table_areas[0] = map_area(wide.words * sizeof(uint32_t));
    buffer_area = whole_area;
    exhibit_with(&failing, words, LONGEST, AT_START);
    exhibit_with(&failing, words, LONGEST, AT_END);
    exhibit_with(&failing, less, LONGEST, AT_END);
    text_areas[0] = text;
    table_areas[0] = table;
    buffer_area = before;
}

int main(void) {
    setvbuf(stdout, NULL, _IOLBF, BUFSIZ); /* what failed is seen before a trap ends the program */
    for (int i = 0; i < 2; i++) {
        text_areas[i] = map_area(ROOM);
        table_areas[i] = map_area(ROOM * sizeof(uint32_t));
    }
    answer_area = map_area(4 * sizeof(uint32_t));
    dates_area = map_area(DATES_WORDS * sizeof(uint32_t));
    path_area = map_area(2 * TELEPORT_PATH_WORDS * sizeof(uint32_t));
    steps_area = map_area(sizeof(uint32_t));
    buffer_area = map_area(ROOM);
    for (size_t i = 0; i < sizeof readings / sizeof *readings; i++) read_beginnings(&readings[i]);
    for (size_t i = 0; i < sizeof pairs / sizeof *pairs; i++) call_pair(&pairs[i], NULL);
    for (size_t i = 0; i < sizeof datings / sizeof *datings; i++) call_pair(&datings[i].pair, datings[i].dates);
    for (size_t i = 0; i < sizeof pathings / sizeof *pathings; i++) path_pair(&pathings[i]);
    path_deepest();
    for (size_t i = 0; i < sizeof writings / sizeof *writings; i++) compact_text(&writings[i]);
    exhibit_pairs();
    exhibit_longest();
    make_longest(longest, longest_rows);
    text_areas[0] = map_area(LONGEST);
    table_areas[0] = map_area(sizeof longest_rows);
    compact_longest();
    read_longest();
    printf("%lu passed, %lu failed\n", passed, failed);
    return failed != 0;
}
