/* What the exported functions answer about many dates, for compare.py:
 *
 *     answers years|stamps|pairs|windows <WORDS >BYTES
 *
 * The words have 32 bits, in this machine's order. Each answer is a byte, 255 for a number above 254.
 */
#include "jangqeruz.h"

#include <stdio.h>
#include <string.h>

enum { STAMP = 5, LAST_MONTH = 13, LAST_DAY = 32 };

static uint32_t words[JANGQERUZ_WORDS];

static void put(uint64_t answer)
{
    putchar(answer < 255 ? (int)answer : 255);
}

/* One frame of stereo DSD. */
static void tell_area(void)
{
    jangqeruz_defaults(words, JANGQERUZ_WORDS);
    words[JANGQERUZ_WORD_CHANNELS] = 2;
    words[JANGQERUZ_WORD_PLAYTIME] = words[JANGQERUZ_WORD_END] = 1;
}

/* The verdict on a build with one comment of this date, of one letter or left out as empty: number and detail. */
static void put_verdict(const uint32_t *stamp, uint32_t letters)
{
    static const uint32_t pool[] = {'A'};
    uint32_t comment[JANGQERUZ_COMMENT_ROW_WORDS] = {0};
    uint64_t verdict;

    memcpy(comment, stamp, STAMP * sizeof *stamp);
    comment[JANGQERUZ_COMMENT_ROW_TEXT_LENGTH] = letters;
    verdict = jangqeruz_verdict(words, JANGQERUZ_WORDS, pool, 1, NULL, 0, NULL, 0, NULL, 0, comment,
                                JANGQERUZ_COMMENT_ROW_WORDS, NULL, 0, NULL, 0);
    put(verdict >> 32);
    put(verdict & UINT32_MAX);
}

/* A stamp as a note's, as a window's, and as the date of a build's comment. */
static void put_stamp(const uint32_t *stamp)
{
    put(jangqeruz_note_fault(stamp));
    put(jangqeruz_date_fault(stamp));
    put_verdict(stamp, stamp[2] % 2);
}

/* Each month and day of a year, and some that are none. */
static void put_year(const uint32_t *year)
{
    uint32_t month, day;

    for (month = 0; month <= LAST_MONTH; month++)
        for (day = 0; day <= LAST_DAY; day++) {
            uint32_t stamp[STAMP] = {*year, month, day, *year % 24, *year % 60};
            put_stamp(stamp);
        }
}

static void put_pair(const uint32_t *pair)
{
    put(jangqeruz_earlier(pair, pair + STAMP));
}

/* Start, end and note: the number and what `falls` gets, whatever it had before. */
static void put_window(const uint32_t *window)
{
    static const uint64_t before[] = {0, 1, UINT64_MAX};
    size_t i;

    for (i = 0; i < sizeof before / sizeof *before; i++) {
        uint64_t falls[1] = {before[i]};
        put(jangqeruz_falls_in(falls, window, window + STAMP, window + 2 * STAMP));
        put(falls[0]);
    }
}

static const struct {
    const char *name;
    size_t row;
    void (*answer)(const uint32_t *row);
} asked[] = {
    {"years", 1, put_year},
    {"stamps", STAMP, put_stamp},
    {"pairs", 2 * STAMP, put_pair},
    {"windows", 3 * STAMP, put_window},
};

int main(int argc, char **argv)
{
    uint32_t row[3 * STAMP];
    size_t i;

    tell_area();
    for (i = 0; i < sizeof asked / sizeof *asked; i++)
        if (argc == 2 && strcmp(argv[1], asked[i].name) == 0) {
            while (fread(row, sizeof *row, asked[i].row, stdin) == asked[i].row)
                asked[i].answer(row);
            return ferror(stdin) != 0 || fclose(stdout) != 0;
        }
    fputs("usage: answers years|stamps|pairs|windows <WORDS >BYTES\n", stderr);
    return 2;
}
