/* Dates of comments, from C: what is wrong with one, their order, and a window, its start counted in and its end counted
 * out; and that a build takes a comment of a date that is none. host/test.sh compiles and runs it. */
#include "jangqeruz.h"

#include <stdio.h>

static const uint32_t start[5] = {2024, 2, 29, 0, 0}, last[5] = {2024, 12, 31, 23, 59}, end[5] = {2025, 1, 1, 0, 0};
static const uint32_t undated[5] = {0, 0, 0, 0, 0}, none[5] = {2023, 2, 29, 0, 0}, past[5] = {2024, 1, 1, 24, 0};

static bool faults(void)
{
    return !jangqeruz_date_fault(start) && !jangqeruz_note_fault(undated)
           && jangqeruz_date_fault(undated) == JANGQERUZ_REFUSED_NO_SUCH_DATE
           && jangqeruz_note_fault(none) == JANGQERUZ_REFUSED_NO_SUCH_DATE
           && jangqeruz_note_fault(past) == JANGQERUZ_REFUSED_COMMENT_DATE;
}

static bool windows(void)
{
    uint64_t falls[4], first, second, third, fourth, refused[1] = {77};

    first = jangqeruz_falls_in(falls, start, end, start);
    second = jangqeruz_falls_in(falls + 1, start, end, last);
    third = jangqeruz_falls_in(falls + 2, start, end, end);
    fourth = jangqeruz_falls_in(falls + 3, start, end, undated);
    return !(first || second || third || fourth) && falls[0] == 1 && falls[1] == 1 && falls[2] == 0 && falls[3] == 0
           && jangqeruz_falls_in(refused, past, none, start) == JANGQERUZ_REFUSED_COMMENT_DATE && refused[0] == 0;
}

static bool ordered(void)
{
    return jangqeruz_earlier(last, end) && !jangqeruz_earlier(end, last) && !jangqeruz_earlier(end, end);
}

/* The verdict on one frame of stereo DSD with a comment of this date. */
static uint64_t verdict(const uint32_t stamp[5])
{
    static const uint32_t pool[] = {'A'};
    uint32_t words[JANGQERUZ_WORDS], comment[JANGQERUZ_COMMENT_ROW_WORDS] = {0};
    size_t i;

    jangqeruz_defaults(words, JANGQERUZ_WORDS);
    words[JANGQERUZ_WORD_CHANNELS] = 2;
    words[JANGQERUZ_WORD_PLAYTIME] = words[JANGQERUZ_WORD_END] = 1;
    for (i = 0; i < 5; i++)
        comment[i] = stamp[i];
    comment[JANGQERUZ_COMMENT_ROW_TEXT_LENGTH] = 1;
    return jangqeruz_verdict(words, JANGQERUZ_WORDS, pool, 1, NULL, 0, NULL, 0, NULL, 0, comment,
                             JANGQERUZ_COMMENT_ROW_WORDS, NULL, 0, NULL, 0);
}

static bool taken(void)
{
    return !verdict(start) && !verdict(undated) && !verdict(none)
           && verdict(past) >> 32 == JANGQERUZ_REFUSED_COMMENT_DATE;
}

int main(void)
{
    if (faults() && windows() && ordered() && taken())
        return 0;
    fputs("dates.c: a date is told otherwise\n", stderr);
    return 1;
}
