/*
 * Shows which strings with second 60 are dates. For each line DAY OFFSET that is read, Check is asked under the schema
 * "DateTime" about DAYThh:mm:60OFFSET at every time of the day; written are DAY, OFFSET and the times hh:mm that were taken.
 * An answer that neither takes the string nor finds it no date ends the program with status 1, as half a line does.
 */
#include <stdio.h>
#include <stdlib.h>
#include <string.h>
#include <teleport.h>

enum { MINUTES = 24 * 60 };

static const uint8_t schema[] = "\"DateTime\"";
static const uint32_t meets[TELEPORT_ANSWER_WORDS] = {TELEPORT_OK, 0, 0, 0};
static const uint32_t no_date[TELEPORT_ANSWER_WORDS] = {TELEPORT_NO_DATE, 1, 0, 0};

static int is_date(const char *document, size_t length) {
    uint32_t tables[2][TELEPORT_ROW_WORDS], answer[TELEPORT_ANSWER_WORDS] = {UINT32_MAX, 0, 0, 0};
    teleport_check((const uint8_t *)document, length, schema, sizeof schema - 1,
                   tables[0], TELEPORT_ROW_WORDS, tables[1], TELEPORT_ROW_WORDS, answer);
    if (memcmp(answer, meets, sizeof answer) == 0) return 1;
    if (memcmp(answer, no_date, sizeof answer) == 0) return 0;
    fprintf(stderr, "%s: %u %u %u %u\n", document, answer[0], answer[1], answer[2], answer[3]);
    exit(1);
}

/* Puts the digits of hh:mm in their places. */
static void set_time(char *time, int minutes) {
    int hour = minutes / 60, minute = minutes % 60;
    time[0] = (char)('0' + hour / 10);
    time[1] = (char)('0' + hour % 10);
    time[3] = (char)('0' + minute / 10);
    time[4] = (char)('0' + minute % 10);
}

static void write_line(const char *day, const char *offset) {
    char document[64];
    int length = sprintf(document, "\"%sT00:00:60%s\"", day, offset);
    char *time = strchr(document, 'T') + 1;
    printf("%s %s", day, offset);
    for (int minutes = 0; minutes < MINUTES; minutes++) {
        set_time(time, minutes);
        if (is_date(document, (size_t)length)) printf(" %.5s", time);
    }
    putchar('\n');
}

int main(void) {
    char day[11], offset[7];
    int found;
    while ((found = scanf("%10s %6s", day, offset)) == 2) write_line(day, offset);
    return found != EOF || fflush(stdout) != 0;
}
