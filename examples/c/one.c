/* One frame of stereo DSD as a DSDIFF file: a build, a query, a read, and a refusal. Writes one.dff, or the
 * file that is named.
 *
 *     cc -std=c99 -I include examples/c/one.c libjangqeruz.a -o one && ./one
 */
#include "jangqeruz.h"

#include <stdio.h>
#include <stdlib.h>
#include <string.h>

enum { CHANNELS = 2, FRAMES = 1, FRAME_BYTES = CHANNELS * 4704 };

/* Builds into buffers of these lengths. The number of the refusal, 0 for none; answer gets the lengths of header, sound
 * and trailer, or a refusal's detail. This file has no texts, tracks, markers, comments or chunks of our own, and DSD has
 * no lengths, so these lists are empty. */
static uint64_t build(const uint32_t words[JANGQERUZ_WORDS], uint8_t *header, size_t header_len, uint8_t *trailer,
                      size_t trailer_len, uint64_t answer[3])
{
    return jangqeruz_build(words, JANGQERUZ_WORDS, NULL, 0, NULL, 0, NULL, 0, NULL, 0, NULL, 0, NULL, 0, NULL, 0,
                           header, header_len, trailer, trailer_len, answer, 3);
}

/* The refusal, told on standard error. */
static int refused(const char *what, uint64_t number)
{
    fprintf(stderr, "%s: refused (%llu); docs/REFUSALS.md tells why\n", what, (unsigned long long)number);
    return EXIT_FAILURE;
}

int main(int argc, char **argv)
{
    uint32_t words[JANGQERUZ_WORDS];
    uint64_t answer[3], range[2], filled[1], number, length;
    static uint8_t frame[FRAME_BYTES], file[16384];
    uint8_t *header, *trailer;
    const char *name = argc > 1 ? argv[1] : "one.dff";
    FILE *out;

    /* What is told: the defaults, and the area. */
    jangqeruz_defaults(words, JANGQERUZ_WORDS);
    words[JANGQERUZ_WORD_SOUND] = JANGQERUZ_SOUND_DSD;
    words[JANGQERUZ_WORD_CHANNELS] = CHANNELS;
    words[JANGQERUZ_WORD_LAYOUT] = JANGQERUZ_LAYOUT_STEREO;
    words[JANGQERUZ_WORD_PLAYTIME] = FRAMES;
    words[JANGQERUZ_WORD_FIRST] = 0;
    words[JANGQERUZ_WORD_END] = FRAMES;

    /* How long are header and trailer? A build without room is refused with the length that it needs. */
    header = trailer = NULL;
    length = 0;
    number = build(words, NULL, 0, NULL, 0, answer);
    if (number == JANGQERUZ_REFUSED_HEADER_SHORT) {
        length = answer[0];
        header = (uint8_t *)malloc(length);
        if (header == NULL)
            return EXIT_FAILURE;
        number = build(words, header, length, NULL, 0, answer);
    }
    if (number == JANGQERUZ_REFUSED_TRAILER_SHORT) {
        size_t trailer_len = answer[0];
        trailer = (uint8_t *)malloc(trailer_len);
        if (trailer == NULL)
            return EXIT_FAILURE;
        number = build(words, header, length, trailer, trailer_len, answer);
    }
    if (number != JANGQERUZ_ACCEPTED)
        return refused("build", number);
    printf("header %llu, sound %llu, trailer %llu\n", (unsigned long long)answer[0], (unsigned long long)answer[1],
           (unsigned long long)answer[2]);

    /* Which frames does a read of the whole file need? Frame 0, of which we have DSD silence. */
    number = jangqeruz_query(range, false, false, CHANNELS, FRAMES, NULL, 0, answer[0], answer[2], 0, sizeof file);
    if (number != JANGQERUZ_ACCEPTED)
        return refused("query", number);
    printf("frames %llu to %llu\n", (unsigned long long)range[0], (unsigned long long)range[1]);
    memset(frame, 0x69, sizeof frame);

    number = jangqeruz_read(file, sizeof file, filled, false, false, CHANNELS, FRAMES, NULL, 0, header, answer[0],
                            trailer, answer[2], 0, NULL, 0, NULL, 0, frame, sizeof frame);
    if (number != JANGQERUZ_ACCEPTED)
        return refused("read", number);
    printf("read %llu bytes\n", (unsigned long long)filled[0]);

    out = fopen(name, "wb");
    if (out == NULL || fwrite(file, 1, filled[0], out) != filled[0] || fclose(out) != 0) {
        perror(name);
        return EXIT_FAILURE;
    }

    /* Seven channels are refused, and nothing is written. */
    words[JANGQERUZ_WORD_CHANNELS] = 7;
    number = build(words, header, length, trailer, answer[2], answer);
    printf("seven channels: refused (%llu)\n", (unsigned long long)number);

    free(header);
    free(trailer);
    return number == JANGQERUZ_REFUSED_CHANNELS ? EXIT_SUCCESS : EXIT_FAILURE;
}
