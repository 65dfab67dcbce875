/* Read in plain C: the first pass judges a text, the second writes its rows. */
#include "plain.h"
#include <string.h>
#include <teleport.h>

/*
 * Classes of bytes. PLAIN stands for itself in a string; INSIDE is every byte of a judged string but the quote and the
 * backslash; NUMBER begins a number and POINT goes on with one behind its digits.
 */
enum { PLAIN = 1, INSIDE = 2, SPACE = 4, DIGIT = 8, NUMBER = 16, POINT = 32 };
enum { P = PLAIN | INSIDE, B = P | SPACE, S = SPACE, M = P | NUMBER, D = M | DIGIT, E = P | POINT, H = INSIDE };

#define TIMES_4(x) x, x, x, x
#define TIMES_12(x) TIMES_4(x), TIMES_4(x), TIMES_4(x)
#define TIMES_16(x) TIMES_4(x), TIMES_12(x)

static const uint8_t class_of[256] = {
    0, 0, 0, 0, 0, 0, 0, 0, 0, S, S, 0, 0, S, 0, 0,
    TIMES_16(0),
    B, P, 0, P, P, P, P, P, P, P, P, P, P, M, E, P,
    D, D, D, D, D, D, D, D, D, D, P, P, P, P, P, P,
    P, P, P, P, P, E, P, P, P, P, P, P, P, P, P, P,
    P, P, P, P, P, P, P, P, P, P, P, P, 0, P, P, P,
    P, P, P, P, P, E, P, P, P, P, P, P, P, P, P, P,
    TIMES_16(P),
    TIMES_16(H), TIMES_16(H), TIMES_16(H), TIMES_16(H), TIMES_16(H), TIMES_16(H), TIMES_16(H), TIMES_16(H),
};

/* A name takes four bytes at least, with the brace or comma before it and its colon. Name 0 ends a chain. */
enum { NAMES = TELEPORT_DOCUMENT_LIMIT / 4 + 1, BUCKETS = TELEPORT_DOCUMENT_LIMIT / 4, LEAST_BUCKETS = 16 };

struct name {
    uint32_t hash, object, first, next;
};

/* The first pass. A function of it returns the byte behind what it judged, or NULL after a refusal. */
struct judge {
    const uint8_t *text, *end, *place;
    uint32_t code, rows, objects, names, mask;
    uint16_t heads[BUCKETS];
    struct name name[NAMES];
};

static const uint8_t *refuse(struct judge *j, uint32_t code, const uint8_t *p) {
    j->code = p < j->end ? code : TELEPORT_ENDED_EARLY;
    j->place = p;
    return NULL;
}

/* The end counts as a byte 0, which nothing takes. */
static uint8_t peek(const uint8_t *p, const uint8_t *end) {
    return p < end ? *p : 0;
}

static const uint8_t *skip(const uint8_t *p, const uint8_t *end) {
    while (p < end && *p <= ' ' && class_of[*p] & SPACE) p++;
    return p;
}

/* A do loop, since a while loop is merged with the one around it and then jumps twice for each byte. */
static const uint8_t *plain_run(const uint8_t *p, const uint8_t *end) {
    if (p < end && class_of[*p] & PLAIN)
        do p++;
        while (p < end && class_of[*p] & PLAIN);
    return p;
}

static const uint8_t *digits(const uint8_t *p, const uint8_t *end) {
    while (p < end && class_of[*p] & DIGIT) p++;
    return p;
}

/* A byte of an escape that is wrong there. UTF-8 judges it first. */
static const uint8_t *wrong(struct judge *j, const uint8_t *p) {
    int begins_none = p < j->end && ((*p >= 0x80 && *p < 0xc2) || *p > 0xf4);
    return refuse(j, begins_none ? TELEPORT_NOT_UTF8 : TELEPORT_BYTE_NOT_ALLOWED, p);
}

/* The value of a hex digit; 16 of any other byte and of the end. */
static uint32_t hex(const uint8_t *p, const uint8_t *end) {
    if (p == end) return 16;
    if (class_of[*p] & DIGIT) return *p - '0';
    uint32_t letter = *p | 0x20;
    return letter >= 'a' && letter <= 'f' ? letter - 'a' + 10 : 16;
}

/* Behind the escape of a high surrogate. */
static const uint8_t *judge_partner(struct judge *j, const uint8_t *p, uint32_t high, uint32_t *scalar) {
    const uint8_t *end = j->end;
    if (p == end || *p != '\\') return refuse(j, TELEPORT_LONE_SURROGATE, p);
    if (++p == end || *p != 'u') return refuse(j, TELEPORT_LONE_SURROGATE, p);
    if (hex(++p, end) != 0xd) return refuse(j, TELEPORT_LONE_SURROGATE, p);
    uint32_t low = hex(++p, end);
    if (low < 0xc || low > 0xf) return refuse(j, TELEPORT_LONE_SURROGATE, p);
    for (int i = 0; i < 2; i++) {
        uint32_t digit = hex(++p, end);
        if (digit > 15) return wrong(j, p);
        low = low << 4 | digit;
    }
    *scalar = 0x10000 + ((high - 0xd800) << 10) + (low - 0xc00);
    return p + 1;
}

/* Behind \u. */
static const uint8_t *judge_unicode(struct judge *j, const uint8_t *p, uint32_t *scalar) {
    uint32_t number = 0;
    for (int i = 0; i < 4; i++, p++) {
        uint32_t digit = hex(p, j->end);
        if (digit > 15) return wrong(j, p);
        number = number << 4 | digit;
        if (i == 1 && number >= 0xdc && number <= 0xdf) return refuse(j, TELEPORT_LONE_SURROGATE, p);
    }
    if (number >= 0xd800 && number <= 0xdbff) return judge_partner(j, p, number, scalar);
    *scalar = number;
    return p;
}

/* Behind a backslash. */
static const uint8_t *judge_escape(struct judge *j, const uint8_t *p, uint32_t *scalar) {
    if (p == j->end) return wrong(j, p);
    switch (*p) {
    case '"': case '\\': case '/': *scalar = *p; break;
    case 'b': *scalar = '\b'; break;
    case 'f': *scalar = '\f'; break;
    case 'n': *scalar = '\n'; break;
    case 'r': *scalar = '\r'; break;
    case 't': *scalar = '\t'; break;
    case 'u': return judge_unicode(j, p + 1, scalar);
    default: return wrong(j, p);
    }
    return p + 1;
}

/* The least and the greatest second byte of a character, for first bytes from E0 to F4 hex. */
static const uint8_t least_second[] = { 0xa0, TIMES_12(0x80), 0x80, 0x80, 0x80, 0x90, TIMES_4(0x80) };
static const uint8_t greatest_second[] = { TIMES_12(0xbf), 0xbf, 0x9f, 0xbf, 0xbf, TIMES_4(0xbf), 0x8f };

/* A character whose first byte is 80 hex or more. */
static inline const uint8_t *judge_utf8(struct judge *j, const uint8_t *p) {
    const uint8_t *end = j->end;
    uint8_t lead = *p;
    if (lead < 0xc2 || lead > 0xf4) return refuse(j, TELEPORT_NOT_UTF8, p);
    if (lead >= 0xe0) {
        if (++p == end || *p < least_second[lead - 0xe0] || *p > greatest_second[lead - 0xe0])
            return refuse(j, TELEPORT_NOT_UTF8, p);
        if (lead >= 0xf0 && (++p == end || (*p & 0xc0) != 0x80)) return refuse(j, TELEPORT_NOT_UTF8, p);
    }
    if (++p == end || (*p & 0xc0) != 0x80) return refuse(j, TELEPORT_NOT_UTF8, p);
    return p + 1;
}

/* Behind an opening quote. */
static const uint8_t *judge_string(struct judge *j, const uint8_t *p) {
    const uint8_t *end = j->end;
    uint32_t scalar;
    for (;;) {
        p = plain_run(p, end);
        while (p < end && *p >= 0x80)
            if (!(p = judge_utf8(j, p))) return NULL;
        uint8_t byte = peek(p, end);
        if (byte == '"') return p + 1;
        if (byte == '\\') {
            if (!(p = judge_escape(j, p + 1, &scalar))) return NULL;
        } else if (!(class_of[byte] & PLAIN)) {
            return refuse(j, TELEPORT_BYTE_NOT_ALLOWED, p);
        }
    }
}

/* The next character of a judged name. */
static uint32_t character(struct judge *j, const uint8_t **p) {
    uint32_t scalar = *(*p)++;
    if (scalar == '\\') {
        *p = judge_escape(j, *p, &scalar);
    } else if (scalar >= 0x80) {
        int more = scalar >= 0xf0 ? 3 : scalar >= 0xe0 ? 2 : 1;
        scalar &= 0x3f >> more;
        while (more--) scalar = scalar << 6 | (*(*p)++ & 0x3f);
    }
    return scalar;
}

/* Two judged names, from behind their opening quotes, have the same characters. */
static int same_name(struct judge *j, const uint8_t *a, const uint8_t *b) {
    while (*a != '"' && *b != '"')
        if (character(j, &a) != character(j, &b)) return 0;
    return *a == *b;
}

static uint32_t mix(uint32_t hash, uint32_t byte) {
    return (hash ^ byte) * 16777619u;
}

/* A character of an escape is hashed as its bytes in UTF-8, so that a name's hash does not depend on its spelling. */
static uint32_t mix_scalar(uint32_t hash, uint32_t scalar) {
    if (scalar < 0x80) return mix(hash, scalar);
    if (scalar < 0x800) {
        hash = mix(hash, 0xc0 | scalar >> 6);
    } else {
        if (scalar < 0x10000) {
            hash = mix(hash, 0xe0 | scalar >> 12);
        } else {
            hash = mix(hash, 0xf0 | scalar >> 18);
            hash = mix(hash, 0x80 | (scalar >> 12 & 0x3f));
        }
        hash = mix(hash, 0x80 | (scalar >> 6 & 0x3f));
    }
    return mix(hash, 0x80 | (scalar & 0x3f));
}

/* Keeps the name behind an opening quote, unless its object has it: then 0. The hash takes in the object. */
static int keep_name(struct judge *j, const uint8_t *p, uint32_t object, uint32_t hash) {
    uint16_t *head = &j->heads[hash & j->mask];
    for (uint32_t n = *head; n; n = j->name[n].next) {
        const struct name *other = &j->name[n];
        if (other->hash == hash && other->object == object && same_name(j, j->text + other->first, p)) return 0;
    }
    struct name *kept = &j->name[++j->names];
    kept->hash = hash;
    kept->object = object;
    kept->first = (uint32_t)(p - j->text);
    kept->next = *head;
    *head = (uint16_t)j->names;
    return 1;
}

/* From an opening quote. */
static const uint8_t *judge_name(struct judge *j, const uint8_t *p, uint32_t object) {
    const uint8_t *end = j->end, *first = p + 1;
    uint32_t hash = 2166136261u ^ object * 2654435769u, scalar;
    if (p == end || *p != '"') return refuse(j, TELEPORT_BYTE_NOT_ALLOWED, p);
    j->rows++;
    for (p++;;) {
        for (; p < end && class_of[*p] & PLAIN; p++) hash = mix(hash, *p);
        if (p == end) return refuse(j, TELEPORT_ENDED_EARLY, p);
        if (*p == '"') break;
        if (*p >= 0x80) {
            const uint8_t *lead = p;
            if (!(p = judge_utf8(j, p))) return NULL;
            while (lead < p) hash = mix(hash, *lead++);
        } else if (*p == '\\') {
            if (!(p = judge_escape(j, p + 1, &scalar))) return NULL;
            hash = mix_scalar(hash, scalar);
        } else {
            return refuse(j, TELEPORT_BYTE_NOT_ALLOWED, p);
        }
    }
    return keep_name(j, first, object, hash) ? p + 1 : refuse(j, TELEPORT_NAME_TWICE, p);
}

static const uint8_t *judge_word(struct judge *j, const uint8_t *p, const char *word) {
    for (; *word; word++, p++)
        if (p == j->end || *p != (uint8_t)*word) return refuse(j, TELEPORT_BYTE_NOT_ALLOWED, p);
    return p;
}

/* One digit or more. */
static const uint8_t *judge_digits(struct judge *j, const uint8_t *p) {
    const uint8_t *behind = digits(p, j->end);
    return behind > p ? behind : refuse(j, TELEPORT_BYTE_NOT_ALLOWED, p);
}

/* Behind the digits of the integer part. */
static const uint8_t *judge_point(struct judge *j, const uint8_t *p) {
    if (*p == '.' && !(p = judge_digits(j, p + 1))) return NULL;
    if (p < j->end && (*p == 'e' || *p == 'E')) {
        p++;
        if (p < j->end && (*p == '+' || *p == '-')) p++;
        return judge_digits(j, p);
    }
    return p;
}

/* A digit behind a leading 0 is left: nothing takes it behind a value. */
static const uint8_t *judge_number(struct judge *j, const uint8_t *p) {
    p += *p == '-';
    if (p < j->end && *p == '0') p++;
    else if (!(p = judge_digits(j, p))) return NULL;
    return p < j->end && class_of[*p] & POINT ? judge_point(j, p) : p;
}

/* A value that holds no other, by its first byte. */
static const uint8_t *judge_leaf(struct judge *j, const uint8_t *p, uint8_t byte) {
    if (byte == '"') return judge_string(j, p + 1);
    if (class_of[byte] & NUMBER) return judge_number(j, p);
    switch (byte) {
    case 'n': return judge_word(j, p, "null");
    case 'f': return judge_word(j, p, "false");
    case 't': return judge_word(j, p, "true");
    default: return refuse(j, TELEPORT_BYTE_NOT_ALLOWED, p);
    }
}

/* A name, its colon and the space around it. */
static const uint8_t *judge_member(struct judge *j, const uint8_t *p, uint32_t object) {
    if (!(p = judge_name(j, p, object))) return NULL;
    if (peek(p, j->end) != ':') p = skip(p, j->end);
    if (peek(p, j->end) != ':') return refuse(j, TELEPORT_BYTE_NOT_ALLOWED, p);
    return skip(p + 1, j->end);
}

/* A value and the space behind it. */
static const uint8_t *judge_value(struct judge *j, const uint8_t *p) {
    const uint8_t *end = j->end;
    struct {
        uint32_t object; /* its number; 0 for an array */
        uint8_t closing;
    } open[TELEPORT_DOCUMENT_DEPTH + 1];
    uint32_t depth = 0;
    for (open[0].object = 0;;) {
        if (open[depth].object && !(p = judge_member(j, p, open[depth].object))) return NULL;
        j->rows++;
        uint8_t byte = peek(p, end);
        if (byte == '[' || byte == '{') {
            if (depth++ == TELEPORT_DOCUMENT_DEPTH) return refuse(j, TELEPORT_TOO_DEEP, p);
            open[depth].object = byte == '{' ? ++j->objects : 0;
            open[depth].closing = byte == '{' ? '}' : ']';
            p = skip(p + 1, end);
            if (peek(p, end) != open[depth].closing) continue;
        } else if (!(p = judge_leaf(j, p, byte))) {
            return NULL;
        }
        for (; depth && (byte = peek(p, end)) != ','; p++) {
            if (byte == open[depth].closing) depth--;
            else if (!(class_of[byte] & SPACE)) return refuse(j, TELEPORT_BYTE_NOT_ALLOWED, p);
        }
        if (!depth) return skip(p, end);
        p = skip(p + 1, end);
    }
}

/* Only as many buckets are cleared as the length calls for. */
static const uint8_t *judge_text(struct judge *j, const uint8_t *text, size_t text_len) {
    uint32_t buckets = LEAST_BUCKETS;
    while (buckets < text_len / 4) buckets *= 2;
    memset(j->heads, 0, buckets * sizeof *j->heads);
    j->mask = buckets - 1;
    j->text = text;
    j->end = text + text_len;
    j->rows = j->objects = j->names = 0;
    const uint8_t *p = judge_value(j, skip(text, j->end));
    return !p || p == j->end ? p : refuse(j, TELEPORT_BYTE_NOT_ALLOWED, p);
}

/* The second pass. Of a judged text only a number can reach the end, so that nothing else looks for it. */
static const uint8_t *skip_judged(const uint8_t *p) {
    while (*p <= ' ') p++;
    return p;
}

/* A do loop for the same reason. */
static const uint8_t *inside_run(const uint8_t *p) {
    if (class_of[*p] & INSIDE)
        do p++;
        while (class_of[*p] & INSIDE);
    return p;
}

/* From an opening quote. */
static inline const uint8_t *string_end(const uint8_t *p) {
    for (p++;; p += 2) {
        p = inside_run(p);
        if (*p == '"') return p + 1;
    }
}

static const uint8_t *number_end(const uint8_t *p, const uint8_t *end, uint32_t *kind) {
    p = digits(p + 1, end);
    *kind = TELEPORT_WHOLE;
    while (p < end && class_of[*p] & POINT) {
        *kind = TELEPORT_FRACTIONAL;
        p = digits(p + (p[1] == '+' || p[1] == '-' ? 2 : 1), end);
    }
    return p;
}

static void put(uint32_t *row, uint32_t kind, size_t first, size_t end, uint32_t parent) {
    row[TELEPORT_ROW_KIND] = kind;
    row[TELEPORT_ROW_FIRST] = (uint32_t)first;
    row[TELEPORT_ROW_END] = (uint32_t)end;
    row[TELEPORT_ROW_CHILDREN] = 0;
    row[TELEPORT_ROW_SUBTREE] = 1;
    row[TELEPORT_ROW_PARENT] = parent;
}

static const uint8_t *fill_leaf(const uint8_t *text, const uint8_t *end, const uint8_t *p, uint32_t *row, uint32_t parent) {
    const uint8_t *first = p;
    uint32_t kind = TELEPORT_STRING;
    if (*p == '"') {
        p = string_end(p);
    } else if (class_of[*p] & NUMBER) {
        p = number_end(p, end, &kind);
    } else {
        kind = *p == 'n' ? TELEPORT_NULL : *p == 'f' ? TELEPORT_FALSE : TELEPORT_TRUE;
        p += 4 + (*p == 'f');
    }
    put(row, kind, (size_t)(first - text), (size_t)(p - text), parent);
    return p;
}

/* A name, its colon and the space around it. */
static const uint8_t *fill_name(const uint8_t *text, const uint8_t *p, uint32_t *row, uint32_t parent) {
    const uint8_t *behind = string_end(p);
    put(row, TELEPORT_NAME, (size_t)(p - text), (size_t)(behind - text), parent);
    return skip_judged(skip_judged(behind) + 1);
}

/*
 * `in` is the row of the innermost bracket open and `parent` its number, `open` has the rows around it. Outside of all
 * stands a row of no table, whose number is 0.
 */
static void fill_value(const uint8_t *text, const uint8_t *end, uint32_t *table) {
    uint32_t none[TELEPORT_ROW_WORDS] = { 0 }, *row = table, *in = none, *open[TELEPORT_DOCUMENT_DEPTH], depth = 0, parent = 0;
    for (const uint8_t *p = skip_judged(text);;) {
        if (in[TELEPORT_ROW_KIND] == TELEPORT_OBJECT) {
            p = fill_name(text, p, row, parent);
            row += TELEPORT_ROW_WORDS;
        }
        in[TELEPORT_ROW_CHILDREN]++;
        if (*p == '[' || *p == '{') {
            uint8_t closing = *p == '{' ? '}' : ']';
            put(row, *p == '{' ? TELEPORT_OBJECT : TELEPORT_ARRAY, (size_t)(p - text), 0, parent);
            open[depth++] = in;
            in = row;
            parent = (uint32_t)((row - table) / TELEPORT_ROW_WORDS);
            row += TELEPORT_ROW_WORDS;
            p = skip_judged(p + 1);
            if (*p != closing) continue;
        } else {
            p = fill_leaf(text, end, p, row, parent);
            row += TELEPORT_ROW_WORDS;
        }
        for (; depth && *p != ','; p++) {
            if (*p <= ' ') continue;
            in[TELEPORT_ROW_END] = (uint32_t)(p + 1 - text);
            in[TELEPORT_ROW_SUBTREE] = (uint32_t)((row - in) / TELEPORT_ROW_WORDS);
            parent = in[TELEPORT_ROW_PARENT];
            in = open[--depth];
        }
        if (!depth) return;
        p = skip_judged(p + 1);
    }
}

static void answer_with(uint32_t answer[4], uint32_t code, uint32_t text, uint32_t place, uint32_t other) {
    answer[TELEPORT_CODE] = code;
    answer[TELEPORT_TEXT] = text;
    answer[TELEPORT_PLACE] = place;
    answer[TELEPORT_OTHER] = other;
}

void plain_read(const uint8_t *text, size_t text_len, uint32_t *table, size_t table_len, uint32_t answer[4]) {
    if (text_len > TELEPORT_DOCUMENT_LIMIT) {
        answer_with(answer, TELEPORT_TOO_LONG, 1, TELEPORT_DOCUMENT_LIMIT, 0);
        return;
    }
    struct judge j;
    if (!judge_text(&j, text, text_len)) {
        answer_with(answer, j.code, 1, (uint32_t)(j.place - text), 0);
        return;
    }
    if (j.rows > table_len / TELEPORT_ROW_WORDS) {
        answer_with(answer, TELEPORT_NO_ROOM, 1, 0, j.rows);
        return;
    }
    fill_value(text, text + text_len, table);
    answer_with(answer, TELEPORT_OK, 0, 0, j.rows);
}
