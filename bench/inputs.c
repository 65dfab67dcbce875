#include "inputs.h"
#include <stdarg.h>
#include <stdio.h>
#include <teleport.h>

static uint32_t next_random(struct text *t) {
    t->seed = t->seed * 6364136223846793005u + 1442695040888963407u;
    return (uint32_t)(t->seed >> 33);
}

static uint32_t below(struct text *t, uint32_t bound) {
    return next_random(t) % bound;
}

static void add_byte(struct text *t, uint8_t byte) {
    t->bytes[t->length++] = byte;
}

static void add(struct text *t, const char *format, ...) {
    va_list arguments;
    va_start(arguments, format);
    t->length += (size_t)vsnprintf((char *)t->bytes + t->length, ROOM_BYTES - t->length, format, arguments);
    va_end(arguments);
}

/* Each draw is a statement of its own: C leaves open the order of arguments. */
#define PICK(t, words) (words)[below(t, sizeof(words) / sizeof *(words))]

/* Keeps what was added since `mark` if `closing` more bytes fit behind it; else takes it back. */
static int fits(struct text *t, size_t *mark, size_t closing) {
    if (t->length + closing <= t->limit) {
        *mark = t->length;
        return 1;
    }
    t->length = *mark;
    return 0;
}

void make(struct text *t, maker *by, size_t limit, uint32_t variant) {
    t->limit = limit;
    t->length = 0;
    t->seed = 20240401 + variant;
    by(t);
}

/* An array of as many elements as fit. */
static void make_array(struct text *t, maker *element) {
    add_byte(t, '[');
    size_t mark = t->length;
    for (element(t); fits(t, &mark, 1); element(t)) add_byte(t, ',');
    add_byte(t, ']');
}

/* A season file, as a ferry operator publishes it. */
static const char *const slips[] = {
    "Skagen 1", "Skagen 2", "Troms\303\270 Prostneset", "Tr\303\246na",
    "Ballstad", "Sund, north slip", "Kirkenes", "\303\205lesund",
};
static const char *const vessels[] = { "Havstjerna", "Nordlys", "Bj\303\270rn", "Gann" };
static const char *const notes[] = {
    "No lorries over 3.5 t", "Runs on school days only; call before 18:00",
    "Caf\303\251 closed", "Change at \\\"Sund\\\"\\nfor Ballstad",
};

/* What stands behind the opening brace of a sailing, between its members and before its closing brace. */
struct layout {
    const char *open, *next, *close;
};

static void add_time(struct text *t, const char *name, uint32_t month, uint32_t day, uint32_t minute) {
    add(t, "\"%s\": \"2024-%02u-%02uT%02u:%02u:00+02:00\"", name, month, day, minute / 60, minute % 60);
}

static void add_sailing(struct text *t, uint32_t number, const struct layout *l) {
    uint32_t month = 4 + below(t, 6), day = 1 + below(t, 30), minute = 300 + below(t, 900);
    add(t, "{%s\"number\": %u%s", l->open, number, l->next);
    add_time(t, "departs", month, day, minute);
    add(t, "%s", l->next);
    add_time(t, "arrives", month, day, minute + 20 + below(t, 200));
    add(t, "%s\"from\": \"%s\"", l->next, PICK(t, slips));
    add(t, "%s\"to\": \"%s\"", l->next, PICK(t, slips));
    add(t, "%s\"vessel\": \"%s\"", l->next, PICK(t, vessels));
    add(t, "%s\"cars\": %u", l->next, 20 + below(t, 180));
    add(t, "%s\"bookable\": %s", l->next, below(t, 3) ? "true" : "false");
    if (below(t, 5) == 0) add(t, "%s\"note\": \"%s\"", l->next, PICK(t, notes));
    add(t, "%s}", l->close);
}

static void add_season(struct text *t, const struct layout *l) {
    add(t, "{\"operator\": \"Nordkyst Ferries\", \"from\": \"2024-04-01T00:00:00+02:00\", ");
    add(t, "\"to\": \"2024-09-30T23:59:59+02:00\", \"fare\": 12.50, \"sailings\": [");
    size_t mark = t->length;
    uint32_t number = 100;
    for (add_sailing(t, number, l); fits(t, &mark, 2); add_sailing(t, ++number, l)) add(t, ", ");
    add(t, "]}");
}

static void make_season(struct text *t) {
    static const struct layout compact = { "", ", ", "" };
    add_season(t, &compact);
}

static void make_indented(struct text *t) {
    static const struct layout lines = { "\n            ", ",\n            ", "\n        " };
    add_season(t, &lines);
}

static void make_season_schema(struct text *t) {
    add(t, "{\"Object\": {\"required\": {\"operator\": \"String\", \"from\": \"DateTime\", \"to\": \"DateTime\", ");
    add(t, "\"sailings\": {\"Array\": {\"Object\": {\"required\": {\"number\": \"Integer\", \"departs\": \"DateTime\", ");
    add(t, "\"arrives\": \"DateTime\", \"from\": \"String\", \"to\": \"String\", \"bookable\": \"Boolean\"}, ");
    add(t, "\"optional\": {\"vessel\": \"String\", \"cars\": \"Integer\", \"note\": \"String\"}}}}}, ");
    add(t, "\"optional\": {\"fare\": \"Float\"}}}");
}

/* The shortest names first: the empty one, then all of one, two and three bytes that need no escape. */
enum { NAME_BYTES = 93 };

static size_t short_name(uint32_t number, char *name) {
    size_t length = 0;
    for (uint32_t level = 1; number >= level; level *= NAME_BYTES, length++) number -= level;
    for (size_t i = length; i-- > 0; number /= NAME_BYTES) {
        uint32_t byte = ' ' + number % NAME_BYTES;
        byte += byte >= '"';
        name[i] = (char)(byte + (byte >= '\\'));
    }
    name[length] = 0;
    return length;
}

static void make_widest(struct text *t) {
    char name[8];
    uint32_t number = 0;
    add_byte(t, '{');
    for (size_t mark = t->length; fits(t, &mark, 0);) {
        short_name(number++, name);
        add(t, "\"%s\":1,", name);
    }
    t->bytes[t->length - 1] = '}';
}

static void make_long_names(struct text *t) {
    uint32_t number = 1000;
    add_byte(t, '{');
    for (size_t mark = t->length; fits(t, &mark, 0);)
        add(t, "\"a_name_of_sixty_bytes_of_which_the_last_few_are_its_own_%u\":1,", number++);
    t->bytes[t->length - 1] = '}';
}

/* Four letters, of which the first and third are written as escapes. */
static void make_escaped_names(struct text *t) {
    uint32_t number = 0;
    add_byte(t, '{');
    for (size_t mark = t->length; fits(t, &mark, 0);) {
        uint32_t rest = number++;
        add_byte(t, '"');
        for (int i = 0; i < 4; i++, rest /= 26)
            add(t, i % 2 ? "%c" : "\\u%04x", 'a' + rest % 26);
        add(t, "\":1,");
    }
    t->bytes[t->length - 1] = '}';
}

/* All the brackets that an element may open, the array around it counted. */
static void add_deep(struct text *t) {
    enum { INNER = TELEPORT_DOCUMENT_DEPTH - 1 };
    for (int i = 0; i < INNER; i++) add(t, i % 2 ? "[" : "{\"a\":");
    add_byte(t, '0');
    for (int i = INNER; i-- > 0;) add_byte(t, i % 2 ? ']' : '}');
}

static void make_deep(struct text *t) {
    make_array(t, add_deep);
}

static void add_ascii(struct text *t) {
    static const char letters[] = "etaoin shrdlu ETAOIN,.0123-";
    add_byte(t, '"');
    for (uint32_t left = 100 + below(t, 900); left; left--) add_byte(t, (uint8_t)letters[below(t, sizeof letters - 1)]);
    add_byte(t, '"');
}

static void make_ascii(struct text *t) {
    make_array(t, add_ascii);
}

/* Strings of one script each: two, three or four bytes to a character, with a space between words of seven. */
static void add_multibyte(struct text *t) {
    uint32_t script = below(t, 10);
    add_byte(t, '"');
    for (uint32_t left = 50 + below(t, 300); left; left--) {
        if (left % 8 == 0) {
            add_byte(t, ' ');
            continue;
        }
        if (script < 5) add(t, "%c", 0xd0 + below(t, 2));
        else if (script < 9) add(t, "%c\240", 0xe3 + below(t, 6));
        else add(t, "\360\237%c", 0x98 + below(t, 2));
        add(t, "%c", 0x80 + below(t, 0x40));
    }
    add_byte(t, '"');
}

static void make_multibyte(struct text *t) {
    make_array(t, add_multibyte);
}

static void add_escapes(struct text *t) {
    static const char *const escapes[] = { "\\n", "\\\"", "\\\\", "\\t", "\\/", "\\u00e9", "\\u20AC", "\\ud83d\\ude00" };
    add_byte(t, '"');
    for (uint32_t left = 20 + below(t, 40); left; left--) {
        if (below(t, 8) == 0) add(t, "%s", PICK(t, escapes));
        else add_byte(t, (uint8_t)('a' + below(t, 26)));
    }
    add_byte(t, '"');
}

static void make_escapes(struct text *t) {
    make_array(t, add_escapes);
}

/* Most have five digits, as ids and minutes do. */
static void add_integer(struct text *t) {
    add(t, "%s", below(t, 8) ? "" : "-");
    add(t, "%u", below(t, 100000));
}

static void make_integers(struct text *t) {
    make_array(t, add_integer);
}

static void add_float(struct text *t) {
    static const char *const exponents[] = { "", "", "", "e5", "E-3", "e+12" };
    add(t, "%s", below(t, 4) ? "" : "-");
    add(t, "%u", below(t, 1000));
    add(t, ".%u", below(t, 1000000));
    add(t, "%s", PICK(t, exponents));
}

static void make_floats(struct text *t) {
    make_array(t, add_float);
}

static void add_literal(struct text *t) {
    static const char *const literals[] = { "null", "false", "true" };
    add(t, "%s", PICK(t, literals));
}

static void make_literals(struct text *t) {
    make_array(t, add_literal);
}

static void make_64(struct text *t) {
    add(t, "{\"id\":1017,\"from\":\"Slip 2\",\"cars\":120,\"late\":false,\"note\":null }");
}

/* The library's hash of five characters: a sum of them times powers of 257, of which a multiple's upper bits count. */
static uint32_t hash_of_five(const uint8_t *name) {
    uint32_t sum = 0;
    for (int i = 0; i < 5; i++) sum = sum * 257 + name[i];
    return (sum * 2654435769u) >> 16;
}

/* Names of five bytes that all have the hash 0, found by trying all: none shorter are enough to fill a text. */
enum { COLLIDING = 7000, COLLIDING_BYTES = 5 };

static uint8_t colliding[COLLIDING][COLLIDING_BYTES];

static void find_colliding(void) {
    uint8_t name[COLLIDING_BYTES] = { '#', '#', '#', '#', '#' };
    for (size_t found = 0; found < COLLIDING;) {
        if (hash_of_five(name) == 0)
            for (int i = 0; i < COLLIDING_BYTES; i++) colliding[found][i] = name[i];
        found += hash_of_five(name) == 0;
        for (int i = COLLIDING_BYTES - 1; i >= 0; i--) {
            name[i] += 1 + (name[i] == '[');
            if (name[i] < 0x7f) break;
            name[i] = '#';
        }
    }
}

static void make_colliding(struct text *t) {
    if (!colliding[0][0]) find_colliding();
    add_byte(t, '{');
    size_t number = 0;
    for (size_t mark = t->length; fits(t, &mark, 0); number++) add(t, "\"%.5s\":1,", (const char *)colliding[number]);
    t->bytes[t->length - 1] = '}';
}

const struct read_input read_inputs[] = {
    { "season", make_season, 0 },
    { "widest", make_widest, 0 },
    { "long-names", make_long_names, 0 },
    { "escaped-names", make_escaped_names, 0 },
    { "deep", make_deep, 0 },
    { "ascii", make_ascii, 0 },
    { "multibyte", make_multibyte, 0 },
    { "escapes", make_escapes, 0 },
    { "integers", make_integers, 0 },
    { "floats", make_floats, 0 },
    { "literals", make_literals, 0 },
    { "indented", make_indented, 0 },
    { "1-kb", make_season, 1024 },
    { "64-bytes", make_64, 64 },
    { "colliding", make_colliding, 65536 },
};
const size_t read_input_count = sizeof read_inputs / sizeof *read_inputs;

/* The widest schema: as many names as fit, half of them required. The document has them all. */
enum { DEFINED_BYTES = sizeof "\"\":\"JSON\"," - 1, FRAME_BYTES = sizeof "{\"Object\":{\"required\":{},\"optional\":{}}}" - 1 };

static uint32_t defined_names(void) {
    size_t length = FRAME_BYTES - 2; /* no comma behind the last name of either */
    char name[8];
    for (uint32_t number = 0;; number++) {
        length += DEFINED_BYTES + short_name(number, name);
        if (length > TELEPORT_SCHEMA_LIMIT) return number;
    }
}

/* The short names from `first` on, each with a value. */
static void add_names(struct text *t, uint32_t first, uint32_t count, int backwards, const char *value) {
    char name[8];
    for (uint32_t i = 0; i < count; i++) {
        short_name(first + (backwards ? count - 1 - i : i), name);
        add(t, "%s\"%s\":%s", i ? "," : "", name, value);
    }
}

static void add_wide_schema(struct text *t, int backwards) {
    uint32_t names = defined_names(), required = names / 2;
    add(t, "{\"Object\":{\"required\":{");
    add_names(t, 0, required, backwards, "\"JSON\"");
    add(t, "},\"optional\":{");
    add_names(t, required, names - required, backwards, "\"JSON\"");
    add(t, "}}}");
}

static void make_wide_schema(struct text *t) {
    add_wide_schema(t, 0);
}

static void make_wide_schema_backwards(struct text *t) {
    add_wide_schema(t, 1);
}

static void make_wide_document(struct text *t) {
    add_byte(t, '{');
    add_names(t, 0, defined_names(), 1, "1");
    add_byte(t, '}');
}

static void add_small_object(struct text *t) {
    add(t, "{\"at\":%u,", below(t, 1440));
    add(t, "\"slip\":\"%c\",", 'A' + below(t, 26));
    add(t, "\"open\":%s}", below(t, 2) ? "true" : "false");
}

static void make_small_objects(struct text *t) {
    make_array(t, add_small_object);
}

static void make_small_objects_schema(struct text *t) {
    add(t, "{\"Array\":{\"Object\":{\"required\":{\"at\":\"Integer\",\"slip\":\"String\"},");
    add(t, "\"optional\":{\"open\":\"Boolean\"}}}}");
}

const struct pair_input pair_inputs[] = {
    { "check-season", make_season, make_season_schema, 0, 1, 1 },
    { "check-widest", make_wide_document, make_wide_schema, 0, 0, 0 },
    { "check-array", make_small_objects, make_small_objects_schema, 0, 1, 0 },
    { "compare-widest", make_wide_schema, make_wide_schema_backwards, 1, 0, 0 },
};
const size_t pair_input_count = sizeof pair_inputs / sizeof *pair_inputs;

/* The widest schema backwards, a name less, and what fails under the last one that is left. */
static void make_wide_schema_failing(struct text *t) {
    uint32_t names = defined_names(), required = names / 2;
    add(t, "{\"Object\":{\"required\":{");
    add_names(t, 0, required, 1, "\"JSON\"");
    add(t, "},\"optional\":{");
    add_names(t, required + 2, names - required - 2, 1, "\"JSON\"");
    add_byte(t, ',');
    add_names(t, required, 1, 0, "\"Float\"");
    add(t, "}}}");
}

/* As many names as fit, all of them required: the longest document. */
static void make_dates(struct text *t) {
    char name[8];
    add(t, "{\"Object\":{\"required\":{");
    size_t mark = t->length;
    for (uint32_t number = 0;; number++) {
        short_name(number, name);
        add(t, "%s\"%s\":\"DateTime\"", number ? "," : "", name);
        if (!fits(t, &mark, 3)) break;
    }
    add(t, "}}}");
}

/* Names that begin with the same letters in all ways: a name that is none of them has 11 letters. */
static void make_alike(struct text *t) {
    enum { LETTERS = 9 };
    add(t, "{\"Object\":{\"optional\":{");
    for (uint32_t number = 0; number < 1u << LETTERS; number++) {
        add(t, "%s\"a", number ? "," : "");
        for (int i = 0; i < LETTERS; i++) add_byte(t, number >> i & 1 ? 'a' : 'b');
        add(t, "\":\"JSON\"");
    }
    add(t, "}}}");
}

static void make_map(struct text *t) {
    add(t, "{\"Map\":\"Integer\"}");
}

static void make_float(struct text *t) {
    add(t, "\"Float\"");
}

/* Objects in objects, with many names each, and a type under the last name of the last. */
static void add_nested(struct text *t, const char *type) {
    enum { LEVELS = 8, NAMES = 40 };
    for (int level = 0; level < LEVELS; level++) {
        add(t, "{\"Object\":{\"required\":{");
        for (int i = 0; i < NAMES; i++) add(t, "\"n%d\":%s", i, i + 1 < NAMES ? "\"JSON\"," : "");
    }
    add(t, "%s", type);
    for (int level = 0; level < LEVELS; level++) add(t, "}}}");
}

static void make_nested(struct text *t) {
    add_nested(t, "\"Float\"");
}

static void make_nested_narrower(struct text *t) {
    add_nested(t, "\"Integer\"");
}

const struct pair_input shown_inputs[] = {
    { "widest", make_wide_schema, make_wide_schema_failing, 1, 0, 0 },
    { "longest", make_dates, make_float, 1, 0, 0 },
    { "made-up-name", make_alike, make_map, 1, 0, 0 },
    { "nested", make_nested, make_nested_narrower, 1, 0, 0 },
};
const size_t shown_input_count = sizeof shown_inputs / sizeof *shown_inputs;
