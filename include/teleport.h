/*
 * Reads JSON text, checks a document against a Teleport schema and gives its dates or the path to what does not fit,
 * compares two schemas, shows by a document that one is not carried to the other, writes a text in its one spelling.
 */
#ifndef TELEPORT_H
#define TELEPORT_H

#include <stddef.h>
#include <stdint.h>

#ifdef __cplusplus
extern "C" {
#endif

/*
 * Rows have six words, so that a table of w words holds w / 6 of them, rounded down. The shared library is called
 * libteleport.so.2: a program that was compiled for rows of another width does not load it.
 */
#define TELEPORT_VERSION "0.2.0"

/*
 * answer[0]. Behind each code: answer[2], the place, and answer[3], other. A place is a byte of a text, counted from 0.
 * With the codes 2 to 7 the bytes before the place begin some well-formed text within the depth, of whatever length;
 * with 3 to 7 no such text begins with one byte more.
 */
enum teleport_code {
    TELEPORT_OK = 0,                  /* read, met, carried or written: 0; after Read the rows, after Compact the length */
    TELEPORT_TOO_LONG = 1,            /* the limit; 0 */
    TELEPORT_ENDED_EARLY = 2,         /* the length of the text; 0 */
    TELEPORT_BYTE_NOT_ALLOWED = 3,    /* that byte; 0 */
    TELEPORT_NOT_UTF8 = 4,            /* the first breaking byte inside a string; 0 */
    TELEPORT_LONE_SURROGATE = 5,      /* the first byte that shows it; 0 */
    TELEPORT_NAME_TWICE = 6,          /* the closing quote of the later name; 0 */
    TELEPORT_TOO_DEEP = 7,            /* the opening bracket; 0 */
    TELEPORT_NO_ROOM = 8,             /* 0; the rows needed; with text 0, the list is short: the words it needs */
    TELEPORT_NOT_A_DEFINITION = 10,   /* the first byte of the value; 0 */
    TELEPORT_UNKNOWN_TYPE = 11,       /* the opening quote of its name; 0 */
    TELEPORT_REQUIRED_OPTIONAL = 12,  /* the opening quote of the name under "optional"; 0 */
    TELEPORT_WRONG_KIND = 20,         /* the value's first byte; the definition's first byte, in the schema */
    TELEPORT_MISSING = 21,            /* the object's brace; the opening quote of the name, in the schema */
    TELEPORT_NO_DATE = 22,            /* the string's opening quote; the definition's first byte, in the schema */
    TELEPORT_NOT_CARRIED = 30,        /* 0; 0; after Counterexample the length of the document */
    TELEPORT_SHORT_FOR_DOCUMENT = 31, /* 0; 0 */
    TELEPORT_SHORT_BUFFER = 60        /* 0; the bytes needed */
};

/* answer[1] is the text that the place is in: 1 or 2 in the order of the arguments, 0 for none. */
enum { TELEPORT_CODE = 0, TELEPORT_TEXT = 1, TELEPORT_PLACE = 2, TELEPORT_OTHER = 3, TELEPORT_ANSWER_WORDS = 4 };

/*
 * The dates of a document: how many, and the earliest and the latest moment. A moment is whole seconds from
 * 1970-01-01T00:00:00Z, negative before it, leap seconds not counted: from -62167305540 to 253402387139.
 */
enum { TELEPORT_DATES_COUNT = 0, TELEPORT_DATES_EARLIEST = 1, TELEPORT_DATES_LATEST = 2, TELEPORT_DATES_NUMBERS = 3 };

/* The longest text in bytes, and how many brackets may stand open. */
enum {
    TELEPORT_DOCUMENT_LIMIT = 65536,
    TELEPORT_DOCUMENT_DEPTH = 32,
    TELEPORT_SCHEMA_LIMIT = 16384,
    TELEPORT_SCHEMA_DEPTH = 24
};

/* The least words of a list for a path. */
enum { TELEPORT_PATH_WORDS = TELEPORT_DOCUMENT_DEPTH + 1 };

/* A call needs less than this much stack. */
enum { TELEPORT_STACK_BYTES = 327680 };

/* A table has one row of six words for each value and each member name, in order of their first bytes. */
enum {
    TELEPORT_ROW_KIND = 0,
    TELEPORT_ROW_FIRST = 1,    /* first byte; of a string or name, its opening quote */
    TELEPORT_ROW_END = 2,      /* the byte after the last */
    TELEPORT_ROW_CHILDREN = 3, /* its elements or members */
    TELEPORT_ROW_SUBTREE = 4,  /* rows of the whole subtree, its own included */
    TELEPORT_ROW_PARENT = 5,   /* row of the array or object that it stands in; a name stands in its object; 0 at the top */
    TELEPORT_ROW_WORDS = 6
};

enum teleport_kind {
    TELEPORT_NULL = 1,
    TELEPORT_FALSE = 2,
    TELEPORT_TRUE = 3,
    TELEPORT_WHOLE = 4,      /* a number without fraction or exponent */
    TELEPORT_FRACTIONAL = 5, /* any other number */
    TELEPORT_STRING = 6,
    TELEPORT_ARRAY = 7,
    TELEPORT_OBJECT = 8,
    TELEPORT_NAME = 9
};

/*
 * What the caller keeps, in each call:
 * - A text pointer is not NULL and leads to as many readable bytes as its length says; the pointer of a table or of the
 *   path is not NULL, is aligned for uint32_t and leads to as many writable words as its length says; a buffer pointer is
 *   not NULL and leads to as many writable bytes as its length says. A length may be 0.
 * - answer has four words; dates has three numbers and is aligned for int64_t; steps has one word. No table, path or
 *   buffer, nor the answer, the dates or the steps, overlaps another of these or a text, and nobody else writes to any of
 *   them during the call. The two texts may overlap or be the same.
 *
 * Every call returns, whatever the bytes are. It allocates nothing, keeps no state, may run on several threads and
 * needs less than TELEPORT_STACK_BYTES (320 KiB) of stack.
 *
 * Tables afterwards:
 * - With the codes 1 to 8 the table of the text that the answer names is as it was, and so is that of a text that was not
 *   reached: where Check refuses the schema, the document's; where Compare refuses the new schema, the old one's.
 *   With 31, and with 8 and text 0, all tables are as they were.
 * - Every other table holds the rows of its text, and the words behind the last row are as they were: with 0, 20 to 22, 30
 *   and 60 all tables; with 10 to 12 that of the schema that is refused; where Check refuses the document, the schema's; where
 *   Compare refuses the old schema, the new one's. A text has at most as many rows as bytes.
 *
 * A buffer afterwards: with 0 of Compact and 30 it holds what was written, from byte 0, and the bytes behind are as they
 * were; with every other answer it is as it was.
 *
 *     static const uint8_t text[] = "[1,]";
 *     uint32_t table[6 * 4], answer[4];
 *     teleport_read(text, 4, table, 24, answer);    answer is 3 1 3 0: the byte at place 3 is not allowed there
 */

/* Is the text well-formed JSON? Writes its rows to table. */
void teleport_read(const uint8_t *text, size_t text_len, uint32_t *table, size_t table_len, uint32_t answer[4]);

/*
 * Does the document (text 1, table1) meet the schema (text 2, table2)? The schema is judged first. A string is a date by
 * RFC 3339, years 0000 to 9999; second 60 is taken exactly when the time, moved by its offset to UTC, is 23:59 on 30 June or
 * 31 December, in any year.
 */
void teleport_check(const uint8_t *document, size_t document_len, const uint8_t *schema, size_t schema_len,
                    uint32_t *table1, size_t table1_len, uint32_t *table2, size_t table2_len, uint32_t answer[4]);

/*
 * Check, with the same answer and tables, and its dates. With 0, dates has how many values were judged as DateTime, and
 * their earliest and latest moment. Each value under DateTime counts once, also where two are written alike; strings
 * under String, JSON or Schema, or under a name that the schema does not have, are no dates. A moment is the written
 * time less its offset, without its fraction; second 60 is the second after 59. Where there are no dates, and with every
 * other code, all three are 0: only the count tells none from one at 1970-01-01T00:00:00Z, whose moment is 0.
 */
void teleport_check_dates(const uint8_t *document, size_t document_len, const uint8_t *schema, size_t schema_len,
                          uint32_t *table1, size_t table1_len, uint32_t *table2, size_t table2_len,
                          uint32_t answer[4], int64_t dates[3]);

/*
 * Check, with the same answer and tables, and the path to what does not fit. With 20 to 22, path has row numbers of
 * table1: the row of the value at the place, with 21 that of the object, then the row that it stands in, which is its word
 * TELEPORT_ROW_PARENT, and so on up to the top's, 0. steps[0] is how many there are. With every other code steps[0] is 0.
 * The words behind the path, and with other codes all of the list, are as they were. A list of fewer words than
 * TELEPORT_PATH_WORDS is 8 0 0 33, before everything else.
 */
void teleport_check_path(const uint8_t *document, size_t document_len, const uint8_t *schema, size_t schema_len,
                         uint32_t *table1, size_t table1_len, uint32_t *table2, size_t table2_len,
                         uint32_t *path, size_t path_len, uint32_t answer[4], uint32_t steps[1]);

/* Does every JSON value that meets the new schema (text 1, table1) meet the old one (text 2, table2)? */
void teleport_compare(const uint8_t *new_schema, size_t new_len, const uint8_t *old_schema, size_t old_len,
                      uint32_t *table1, size_t table1_len, uint32_t *table2, size_t table2_len, uint32_t answer[4]);

/*
 * Writes the one spelling of the text's value to buffer: no space; members in their order; numbers as spelled; in strings
 * only ", \ and bytes under 20 hex escaped, by the short form where there is one, else \u00 with lower-case digits. Two
 * texts come out equal exactly when they are the same JSON value, members in the same order. What is written is never
 * longer than the text. The codes are those of Read, then 60.
 */
void teleport_compact(const uint8_t *text, size_t text_len, uint32_t *table, size_t table_len,
                      uint8_t *buffer, size_t buffer_len, uint32_t answer[4]);

/*
 * Compare's sister: with 30 it writes a document, within a document's limits, that meets the new schema and fails the old:
 * Check, lent room, gives 0 under the new and 20 to 22 under the old. Which one is left open. A buffer of fewer bytes than
 * TELEPORT_DOCUMENT_LIMIT is 31, before everything else. Otherwise code, text, place and tables are Compare's.
 */
void teleport_counterexample(const uint8_t *new_schema, size_t new_len, const uint8_t *old_schema, size_t old_len,
                             uint32_t *table1, size_t table1_len, uint32_t *table2, size_t table2_len,
                             uint8_t *buffer, size_t buffer_len, uint32_t answer[4]);

#ifdef __cplusplus
}
#endif

#endif
