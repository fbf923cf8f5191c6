/* Document 01's figures of two files that are built by the defaults, from C: one frame of stereo DSD, and stereo DST
 * frames of 3 and 4 bytes. host/test.sh compiles and runs it. */
#include "jangqeruz.h"

#include <stdio.h>

/* Builds a stereo file of so many frames; true if header and file have these lengths. */
static bool built(uint32_t sound, uint32_t frames, const uint32_t *lengths, size_t lengths_len, uint64_t header_bytes,
                  uint64_t file_bytes)
{
    uint32_t words[JANGQERUZ_WORDS];
    uint64_t answer[3], number;
    uint8_t header[512], trailer[512];

    if (jangqeruz_defaults(words, JANGQERUZ_WORDS) != JANGQERUZ_WORDS)
        return false;
    words[JANGQERUZ_WORD_SOUND] = sound;
    words[JANGQERUZ_WORD_CHANNELS] = 2;
    words[JANGQERUZ_WORD_PLAYTIME] = words[JANGQERUZ_WORD_END] = frames;
    number = jangqeruz_build(words, JANGQERUZ_WORDS, NULL, 0, NULL, 0, NULL, 0, NULL, 0, NULL, 0, NULL, 0, lengths,
                             lengths_len, header, sizeof header, trailer, sizeof trailer, answer, 3);
    printf("refusal %d, header %d, file %d\n", (int)number, (int)answer[0], (int)(answer[0] + answer[1] + answer[2]));
    return number == JANGQERUZ_ACCEPTED && answer[0] == header_bytes && answer[0] + answer[1] + answer[2] == file_bytes;
}

/* Default words that do not all fit: those that do are stored, nothing behind them, and the answer is how many there are. */
static bool fitted(void)
{
    uint32_t all[JANGQERUZ_WORDS], words[JANGQERUZ_WORDS + 1];
    size_t room, i;

    jangqeruz_defaults(all, JANGQERUZ_WORDS);
    for (room = 0; room <= JANGQERUZ_WORDS; room++) {
        for (i = 0; i <= JANGQERUZ_WORDS; i++)
            words[i] = 77;
        if (jangqeruz_defaults(words, room) != JANGQERUZ_WORDS || words[room] != 77)
            return false;
        for (i = 0; i < room; i++)
            if (words[i] != all[i])
                return false;
    }
    return true;
}

int main(void)
{
    static const uint32_t lengths[] = {3, 4};

    return built(JANGQERUZ_SOUND_DSD, 1, NULL, 0, 144, 9552) && built(JANGQERUZ_SOUND_DST, 2, lengths, 2, 158, 226)
                   && fitted()
               ? 0
               : 1;
}
