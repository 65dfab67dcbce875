#include "agree.h"
#include <stdio.h>
#include <string.h>
#include <teleport.h>
#include "inputs.h"
#include "plain.h"

enum { LONG_EVERY = 20000, GUARD = 16, MOST_WORDS = TELEPORT_ROW_WORDS * ROOM_BYTES + GUARD };

static uint32_t tables[2][MOST_WORDS];
static struct text text;
static uint64_t state = 88172645463325252u;

static uint32_t below(uint32_t bound) {
    state ^= state << 13;
    state ^= state >> 7;
    state ^= state << 17;
    return (uint32_t)((state >> 16) % bound);
}

#define PICK(words) (words)[below(sizeof(words) / sizeof *(words))]

static void add(const char *piece) {
    size_t length = strlen(piece);
    memcpy(text.bytes + text.length, piece, length);
    text.length += length;
}

/* Characters in several spellings each, so that names repeat under another one. */
static const char *const spellings[] = {
    "a", "\\u0061", "b", "\\u0062", "/", "\\/", "\\u002f", "\\u002F", "\\n", "\\u000a", "\\\"", "\\u0022", "\\\\", "\\u005C",
    "\303\251", "\\u00e9", "\\u00E9", "\342\202\254", "\\u20ac", "\360\237\230\200", "\\ud83d\\ude00", "\\uD83D\\uDE00",
    "\\ufffd", "\\uD7ff", "\\ue000", "\355\237\277", "\364\217\277\277", "\177", " ",
};

/* Pieces that damage a string or a text, or its beginning. */
static const char *const faults[] = {
    "\\ud83d", "\\ude00", "\\ud83d\\u", "\\ud83d\\ud83d", "\\ud83dx", "\\ud83d\\n", "\\uD8", "\\u12", "\\u12g4", "\\ud83d\\udc0g",
    "\\ud83d\\ude\200", "\\x", "\\\200", "\\\303", "\\\365", "\\u\303", "\\u00\201", "\300\200", "\340\237\277", "\355\240\200",
    "\360\217\277\277", "\364\220\200\200", "\365", "\377", "\200", "\303", "\342\202", "\360\237\230", "\1", "\t", "\"", "\\",
    "\357\273\277", "]", "}", "[", "{", ",", ":", "-", "0", "1", ".", "e", "E+", "nul", "tru", "fals", "x", " ", "\r\n", "\v",
};

static void add_space(void) {
    static const char *const spaces[] = { "", "", "", "", "", "", " ", "\t", "\n", "\r\n  " };
    add(PICK(spaces));
}

static void add_string(uint32_t most) {
    add("\"");
    for (uint32_t left = below(most); left; left--) add(below(100) ? PICK(spellings) : PICK(faults));
    add("\"");
}

static void add_value(uint32_t depth) {
    static const char *const leaves[] = {
        "null", "false", "true", "0", "-0", "1", "-12", "3456789", "0.5", "-1.25e3", "1E+2", "2e-07", "01", "1.", "-", ".5", "1e",
    };
    uint32_t kind = below(depth ? 10 : 6), members = below(4);
    add_space();
    if (kind < 3) add(PICK(leaves));
    else if (kind < 6) add_string(8);
    else {
        int object = kind >= 8;
        add(object ? "{" : "[");
        add_space();
        for (uint32_t i = 0; i < members; i++) {
            if (i) add(",");
            if (object) {
                add_space();
                add_string(3);
                add_space();
                add(":");
            }
            add_value(depth - 1);
        }
        add(object ? "}" : "]");
    }
    add_space();
}

static void add_brackets(void) {
    uint32_t depth = 30 + below(5);
    for (uint32_t i = 0; i < depth; i++) add(i % 3 ? "[" : "{\"a\":");
    add("1");
    for (uint32_t i = depth; i-- > 0;) add(i % 3 ? "]" : "}");
}

static maker *any_maker(void) {
    maker *by = read_inputs[below((uint32_t)read_input_count)].by;
    return by;
}

static void replace(size_t at, size_t old, const uint8_t *new, size_t length) {
    memmove(text.bytes + at + length, text.bytes + at + old, text.length - at - old);
    memcpy(text.bytes + at, new, length);
    text.length += length - old;
}

/* Changes a few bytes at a random offset, or cuts the text there. */
static void damage(void) {
    uint8_t copy[64];
    size_t at = below((uint32_t)text.length + 1), rest = text.length - at;
    size_t length = below((uint32_t)(rest < sizeof copy ? rest + 1 : sizeof copy));
    const char *fault = PICK(faults);
    switch (below(7)) {
    case 0: if (rest) text.bytes[at] ^= (uint8_t)(1u << below(8)); break;
    case 1: if (rest) text.bytes[at] = (uint8_t)below(256); break;
    case 2: replace(at, 0, (const uint8_t *)fault, strlen(fault)); break;
    case 3: if (rest) replace(at, 1, (const uint8_t *)fault, strlen(fault)); break;
    case 4: replace(at, length % 4, copy, 0); break;
    case 5: text.length = at; break;
    case 6:
        memcpy(copy, text.bytes + at, length);
        replace(below((uint32_t)text.length + 1), 0, copy, length);
        break;
    }
}

static void random_text(int whole) {
    uint32_t source = below(10);
    text.length = 0;
    if (whole) {
        make(&text, any_maker(), TELEPORT_DOCUMENT_LIMIT, 0);
        if (below(2)) for (size_t end = TELEPORT_DOCUMENT_LIMIT - 1 + below(3); text.length < end;) add(" ");
    } else if (source == 0) {
        add_brackets();
    } else if (source < 3) {
        make(&text, any_maker(), 24 + below(300), 0);
        if (below(2)) text.length = below((uint32_t)text.length + 1);
    } else {
        add_value(below(5));
    }
    if (source % 2) for (uint32_t left = below(3); left; left--) damage();
}

/* A table of any length up to one with more room than the rows need. */
static size_t random_words(void) {
    uint32_t answer[4];
    plain_read(text.bytes, text.length, tables[0], 0, answer);
    size_t needed = TELEPORT_ROW_WORDS * (size_t)answer[TELEPORT_OTHER];
    switch (below(4)) {
    case 0: return needed;
    case 1: return needed ? needed - 1 : 0;
    case 2: return below((uint32_t)needed + 1);
    default: return needed + below(GUARD);
    }
}

static int agrees(uint32_t seen[2][4]) {
    size_t words = random_words(), bytes = (words + GUARD) * sizeof **tables;
    int fill = (int)below(256);
    for (int i = 0; i < 2; i++) memset(tables[i], fill, bytes);
    teleport_read(text.bytes, text.length, tables[0], words, seen[0]);
    plain_read(text.bytes, text.length, tables[1], words, seen[1]);
    return memcmp(seen[0], seen[1], sizeof seen[0]) == 0 && memcmp(tables[0], tables[1], bytes) == 0;
}

int agree(unsigned long count) {
    uint32_t seen[2][4];
    unsigned long codes[TELEPORT_NO_ROOM + 1] = { 0 };
    for (unsigned long i = 0; i < count; i++) {
        random_text(i % LONG_EVERY == 0);
        if (!agrees(seen)) {
            printf("failed: text %lu, answers or tables:", i);
            for (int k = 0; k < 8; k++) printf(" %u", seen[k / 4][k % 4]);
            putchar('\n');
            for (size_t k = 0; k < text.length; k++) printf("%02x", text.bytes[k]);
            putchar('\n');
            return 1;
        }
        codes[seen[0][TELEPORT_CODE]]++;
    }
    printf("%lu agree; by code:", count);
    for (size_t code = 0; code <= TELEPORT_NO_ROOM; code++) printf(" %zu: %lu", code, codes[code]);
    putchar('\n');
    return 0;
}
