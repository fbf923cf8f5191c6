/* Jangqeruz: the proved DSDIFF writer, for C99 and C++.
 *
 * Made by tools/border/border.py from crates/abi/src and the tables beside it; not edited by hand.
 *
 * A file is never stored. jangqeruz_build writes what stands before and behind the sound, jangqeruz_query tells which
 * frames a read needs, and jangqeruz_read fills a buffer with the file's bytes from any offset on. examples/c/one.c
 * does all three; docs/USING.md tells more.
 *
 * Of every function:
 * - A list is a pointer and the number of its elements, NAME and NAME_len. A pointer may be NULL only if its number is
 *   0. Pointers without a number, as range[2], have just so many elements.
 * - Lists that are written to overlap no other list of the call.
 * - Nothing is kept after the call, nothing is allocated, there is no global state: any thread may call at any time.
 * - 32 KiB of stack are enough.
 * - Every input is answered: with bytes, or with the number of a refusal (enum jangqeruz_refusal; docs/REFUSALS.md),
 *   and then no buffer of bytes is altered. The build, the query, the read and the dates are proved so.
 * - A switch is on if its word is not 0.
 */
#ifndef JANGQERUZ_H
#define JANGQERUZ_H

#include <stdbool.h>
#include <stddef.h>
#include <stdint.h>

#ifdef __cplusplus
extern "C" {
#endif

/* The places of a build's words. */
enum jangqeruz_word {
    JANGQERUZ_WORD_SOUND = 0, /* switch: on for DST, off for DSD: JANGQERUZ_SOUND_.. */
    JANGQERUZ_WORD_PLAYTIME = 1, /* frames of the area */
    JANGQERUZ_WORD_CHANNELS = 2, /* 1 to 6 */
    JANGQERUZ_WORD_LAYOUT = 3, /* the speakers: JANGQERUZ_LAYOUT_.. */
    JANGQERUZ_WORD_FIRST = 4, /* the range's first frame */
    JANGQERUZ_WORD_END = 5, /* one past its last */
    JANGQERUZ_WORD_CHANNEL_NUMBERS_GIVEN = 6, /* switch: the channels of an unspecified layout have the numbers below */
    JANGQERUZ_WORD_CHANNEL_NUMBERS_COUNT = 7, /* how many numbers */
    JANGQERUZ_WORD_CHANNEL_NUMBERS = 8, /* the numbers, 0 to 999 (6 words) */
    JANGQERUZ_WORD_UNSPECIFIED_LOUDSPEAKER_CONFIGURATION = 14, /* switch: LSCO for an unspecified layout */
    JANGQERUZ_WORD_LOUDSPEAKER_CONFIGURATION = 15, /* switch: LSCO for the other layouts */
    JANGQERUZ_WORD_ABSOLUTE_START_GIVEN = 16, /* switch: there is a start */
    JANGQERUZ_WORD_ABSOLUTE_START = 17, /* the frame that the file starts at: ABSS */
    JANGQERUZ_WORD_DST_CRC = 18, /* switch: a CRC, DSTC, after each DST frame */
    JANGQERUZ_WORD_DST_INDEX = 19, /* switch: the index, DSTI, of a DST file */
    JANGQERUZ_WORD_DST_INDEX_OFFSET = 20, /* switch: where an entry of the index leads: JANGQERUZ_OFFSET_.. */
    JANGQERUZ_WORD_SOURCE_TRACK = 21, /* the track that the range is of, 1 to 65,535; 0 for none */
    JANGQERUZ_WORD_EDITED_MASTER = 22, /* switch: an edited master */
    JANGQERUZ_WORD_EDITED_MASTER_INFO = 23, /* switch: DIIN */
    JANGQERUZ_WORD_EDITED_MASTER_ID_WRITTEN = 24, /* switch: EMID in DIIN */
    JANGQERUZ_WORD_EDITED_MASTER_ID = 25, /* EMID's bytes: start and length in raw (2 words) */
    JANGQERUZ_WORD_CUSTOM_MARKERS = 27, /* switch: the markers are those given, not made from tracks */
    JANGQERUZ_WORD_SOURCE_TRACK_MARKERS = 28, /* switch: a source track gives markers */
    JANGQERUZ_WORD_CLIPPED_PROGRAM = 29, /* switch: markers also of a range that is not the whole area */
    JANGQERUZ_WORD_MARKER_TITLES = 30, /* switch: a track's start has its title */
    JANGQERUZ_WORD_TEXT_PAD_COUNTED = 31, /* switch: the pad of DIAR, DITI and MARK is inside their sizes */
    JANGQERUZ_WORD_ARTIST_TITLE = 32, /* DIAR and DITI in DIIN: JANGQERUZ_ARTIST_TITLE_.. */
    JANGQERUZ_WORD_ARTIST_TITLE_SOURCE = 33, /* whose artist and title: JANGQERUZ_ARTIST_TITLE_SOURCE_.. */
    JANGQERUZ_WORD_ALBUM_ARTIST = 34, /* text: given or not, start and length in pool (3 words) */
    JANGQERUZ_WORD_ALBUM_TITLE = 37, /* text: given or not, start and length in pool (3 words) */
    JANGQERUZ_WORD_TRACK_ARTIST = 40, /* text of the source track: given or not, start and length in pool (3 words) */
    JANGQERUZ_WORD_TRACK_TITLE = 43, /* text of the source track: given or not, start and length in pool (3 words) */
    JANGQERUZ_WORD_TEXT_REPLACEMENT_GIVEN = 46, /* switch: a value that is no text byte is replaced, not removed */
    JANGQERUZ_WORD_TEXT_REPLACEMENT = 47, /* by this byte, 0x20 to 0x7E */
    JANGQERUZ_WORD_EMPTY_TEXT = 48, /* switch: texts without bytes are written */
    JANGQERUZ_WORD_EMPTY_INFO = 49, /* switch: a DIIN without chunks is written */
    JANGQERUZ_WORD_D1 = 50, /* switch, departure D1: the pad counted inside CMPR */
    /* switch, departure D2: texts in ISO 8859-1; what else there is vanishes, and the replacement is idle */
    JANGQERUZ_WORD_D2 = 51,
    JANGQERUZ_WORD_PROPERTY_ORDER = 52, /* the chunks of PROP, each once (5 words): JANGQERUZ_PROPERTY_.. */
    JANGQERUZ_WORD_INFO_ORDER = 57, /* the chunks of DIIN, each once (4 words): JANGQERUZ_INFO_.. */
    JANGQERUZ_WORD_LOCAL_ORDER = 61, /* the chunks of the file, none twice (5 words): JANGQERUZ_LOCAL_.. */
    JANGQERUZ_WORD_LOCAL_ORDER_COUNT = 66, /* how many of these names count */
    JANGQERUZ_WORDS = 67, /* how many words a build has */
};

/* The kind of sound. */
enum {
    JANGQERUZ_SOUND_DSD = 0, /* plain DSD */
    JANGQERUZ_SOUND_DST = 1, /* DST frames */
};

/* The speakers. */
enum {
    JANGQERUZ_LAYOUT_STEREO = 0, /* 2 channels */
    JANGQERUZ_LAYOUT_THREE_TWO = 1, /* 5 channels */
    JANGQERUZ_LAYOUT_FIVE_POINT_ONE = 2, /* 6 channels */
    JANGQERUZ_LAYOUT_UNSPECIFIED = 3, /* 1 to 6 channels, named by numbers */
};

/* Where an entry of the index leads. */
enum {
    JANGQERUZ_OFFSET_CHUNK_HEADER = 0, /* to the header of the frame's DSTF */
    JANGQERUZ_OFFSET_FRAME_DATA = 1, /* to its data */
};

/* Whether DIIN has artist and title. */
enum {
    JANGQERUZ_ARTIST_TITLE_UNSET = 0, /* in an edited master only */
    JANGQERUZ_ARTIST_TITLE_ON = 1, /* it has */
    JANGQERUZ_ARTIST_TITLE_OFF = 2, /* it has not */
};

/* Whose artist and title. */
enum {
    JANGQERUZ_ARTIST_TITLE_SOURCE_ALBUM = 0, /* the album's */
    JANGQERUZ_ARTIST_TITLE_SOURCE_TRACK = 1, /* the source track's */
    JANGQERUZ_ARTIST_TITLE_SOURCE_TRACK_THEN_ALBUM = 2, /* the source track's, or else the album's */
};

/* A chunk of PROP. */
enum {
    JANGQERUZ_PROPERTY_FS = 0, /* sample rate */
    JANGQERUZ_PROPERTY_CHNL = 1, /* channels */
    JANGQERUZ_PROPERTY_CMPR = 2, /* compression */
    JANGQERUZ_PROPERTY_ABSS = 3, /* absolute start */
    JANGQERUZ_PROPERTY_LSCO = 4, /* speakers */
};

/* A chunk of DIIN. */
enum {
    JANGQERUZ_INFO_EMID = 0, /* edited master ID */
    JANGQERUZ_INFO_MARK = 1, /* all markers */
    JANGQERUZ_INFO_DIAR = 2, /* artist */
    JANGQERUZ_INFO_DITI = 3, /* title */
};

/* A chunk of the file. */
enum {
    JANGQERUZ_LOCAL_PROP = 0, /* properties */
    JANGQERUZ_LOCAL_SOUND = 1, /* the sound, DSD or DST */
    JANGQERUZ_LOCAL_DSTI = 2, /* index */
    JANGQERUZ_LOCAL_DIIN = 3, /* edited master information */
    JANGQERUZ_LOCAL_COMT = 4, /* comments */
};

/* The kind of a marker. */
enum {
    JANGQERUZ_MARKER_KIND_TRACK_START = 0, /* a track starts */
    JANGQERUZ_MARKER_KIND_TRACK_STOP = 1, /* a track stops */
    JANGQERUZ_MARKER_KIND_PROGRAM_START = 2, /* the program starts */
    JANGQERUZ_MARKER_KIND_INDEX = 4, /* an index inside a track */
};

/* The kind of a comment. */
enum {
    JANGQERUZ_COMMENT_KIND_GENERAL = 0, /* no reference */
    JANGQERUZ_COMMENT_KIND_CHANNEL = 1, /* reference: a channel, 0 for all */
    JANGQERUZ_COMMENT_KIND_SOUND_SOURCE = 2, /* reference: 0 to 2 */
    JANGQERUZ_COMMENT_KIND_FILE_HISTORY = 3, /* reference: 0 to 4 */
};

/* The places in a row: a track. */
enum {
    JANGQERUZ_TRACK_ROW_START = 0, /* first frame, in the area */
    JANGQERUZ_TRACK_ROW_DURATION = 1, /* frames */
    JANGQERUZ_TRACK_ROW_TITLE_START = 2, /* its title in pool */
    JANGQERUZ_TRACK_ROW_TITLE_LENGTH = 3,
    JANGQERUZ_TRACK_ROW_WORDS = 4, /* words a row */
};

/* The places in a row: a custom marker. */
enum {
    JANGQERUZ_MARKER_ROW_FRAME = 0, /* its frame, in the area */
    JANGQERUZ_MARKER_ROW_KIND_AND_FLAGS = 1, /* the kind times 65,536, and the flags of a track's start */
    JANGQERUZ_MARKER_ROW_TEXT_START = 2, /* its text in raw */
    JANGQERUZ_MARKER_ROW_TEXT_LENGTH = 3,
    JANGQERUZ_MARKER_ROW_WORDS = 4, /* words a row */
};

/* The places in a row: a comment. */
enum {
    JANGQERUZ_COMMENT_ROW_YEAR = 0,
    JANGQERUZ_COMMENT_ROW_MONTH = 1,
    JANGQERUZ_COMMENT_ROW_DAY = 2,
    JANGQERUZ_COMMENT_ROW_HOUR = 3,
    JANGQERUZ_COMMENT_ROW_MINUTES = 4,
    JANGQERUZ_COMMENT_ROW_KIND = 5, /* its kind */
    JANGQERUZ_COMMENT_ROW_REFERENCE = 6, /* what it is about */
    JANGQERUZ_COMMENT_ROW_TEXT_START = 7, /* its text in pool */
    JANGQERUZ_COMMENT_ROW_TEXT_LENGTH = 8,
    JANGQERUZ_COMMENT_ROW_WORDS = 9, /* words a row */
};

/* The places in a row: a chunk of the caller's own. */
enum {
    JANGQERUZ_CALLER_ROW_NAME = 0, /* its four bytes as one number, the first byte highest */
    JANGQERUZ_CALLER_ROW_DATA_START = 1, /* its data in raw */
    JANGQERUZ_CALLER_ROW_DATA_LENGTH = 2,
    JANGQERUZ_CALLER_ROW_WORDS = 3, /* words a row */
};

/* The word of a marker's kind and flags, and the word of a chunk's name, as 'A', 'B', 'C', 'D'. */
#define JANGQERUZ_KIND_AND_FLAGS(kind, flags) ((uint32_t)(kind) * 65536u + (uint32_t)(flags))
#define JANGQERUZ_NAME(a, b, c, d) \
    (((uint32_t)(a) << 24) | ((uint32_t)(b) << 16) | ((uint32_t)(c) << 8) | (uint32_t)(d))

/* The numbers of the refusals. */
enum jangqeruz_refusal {
    JANGQERUZ_ACCEPTED = 0,
    /* A text (EMID and marker texts included) exceeds 1,048,576 values, or tracks exceed 65,535, caller chunks 255,
     * custom markers 65,535, or one caller chunk 16,777,216 bytes.
     */
    JANGQERUZ_REFUSED_LIMITS = 1,
    JANGQERUZ_REFUSED_OUTSIDE_POOL = 2, /* A stretch runs outside its pool. */
    JANGQERUZ_REFUSED_NO_SCALAR = 3, /* A text value is no Unicode scalar. */
    /* A caller name has a byte outside 0x20 to 0x7E or a space before a non-space (4, 5: the first at fault). */
    JANGQERUZ_REFUSED_CALLER_NAME = 4,
    /* A caller name is FRM8, FVER, PROP, "DSD ", "DST ", DSTI, COMT, DIIN or MANF. */
    JANGQERUZ_REFUSED_CALLER_NAME_RESERVED = 5,
    JANGQERUZ_REFUSED_PLAYTIME = 6, /* Playtime exceeds 1,151,999. */
    JANGQERUZ_REFUSED_CHANNELS = 7, /* Channels aren't 1 to 6. */
    JANGQERUZ_REFUSED_LAYOUT_CHANNELS = 8, /* Stereo, ThreeTwo, FivePointOne don't have 2, 5, 6 channels. */
    /* DST: lengths don't number end − first, or first exceeds end; DSD: they don't number 0. */
    JANGQERUZ_REFUSED_LENGTHS_COUNT = 9,
    JANGQERUZ_REFUSED_LENGTH = 10, /* A length isn't 1 to 65,536. */
    JANGQERUZ_REFUSED_RANGE = 11, /* First exceeds end, or end playtime. */
    JANGQERUZ_REFUSED_RANGE_EMPTY = 12, /* First equals end. */
    JANGQERUZ_REFUSED_SOURCE_TRACK = 13, /* No such source track (13 and 14 not for an edited master). */
    JANGQERUZ_REFUSED_SOURCE_TRACK_OUTSIDE = 14, /* It doesn't overlap the range. */
    JANGQERUZ_REFUSED_MASTER_RANGE = 15, /* Edited master (15 to 23): the range isn't 0 to playtime. */
    JANGQERUZ_REFUSED_MASTER_LAYOUT = 16, /* Unspecified layout. */
    JANGQERUZ_REFUSED_MASTER_TRACKS = 17, /* No tracks, or more than 255. */
    JANGQERUZ_REFUSED_TRACK_SHORT = 18, /* A track is under 75 frames; detail, the first one's number. */
    JANGQERUZ_REFUSED_MASTER_SPANS = 19, /* Spans empty, out of order or overlapping. */
    JANGQERUZ_REFUSED_MASTER_END = 20, /* The last ends after 1,151,999. */
    JANGQERUZ_REFUSED_MASTER_MARKERS = 21, /* Custom markers. */
    JANGQERUZ_REFUSED_MASTER_LOUDSPEAKERS = 22, /* LSCO off. */
    JANGQERUZ_REFUSED_MASTER_ID = 23, /* EMID off. */
    JANGQERUZ_REFUSED_REPLACEMENT = 24, /* Replacement byte outside 0x20 to 0x7E. */
    /* Unspecified layout: given channel numbers don't number the channels. */
    JANGQERUZ_REFUSED_CHANNEL_NUMBERS_COUNT = 25,
    JANGQERUZ_REFUSED_CHANNEL_NUMBER_LARGE = 26, /* One exceeds 999 (26, 27: the first at fault). */
    JANGQERUZ_REFUSED_CHANNEL_NUMBER_REPEATED = 27, /* One repeats. */
    JANGQERUZ_REFUSED_PROPERTY_ORDER = 28, /* Property order isn't each name once. */
    JANGQERUZ_REFUSED_START = 29, /* Start + positions exceeds 6,479,999. */
    JANGQERUZ_REFUSED_INFO_ORDER = 30, /* Info on (30 to 33): info order isn't each name once. */
    JANGQERUZ_REFUSED_EDITED_MASTER_ID = 31, /* EMID is on with a byte outside 0x20 to 0x7E. */
    JANGQERUZ_REFUSED_MARKER_OUTSIDE = 32, /* A marker before first or after end (32, 33: the first at fault). */
    /* Its text has a byte outside 0x20 to 0x7E and, under D2, also outside 0xA0 to 0xFF. */
    JANGQERUZ_REFUSED_MARKER_TEXT = 33,
    /* Comment month over 12, day 31, hour 23 or minutes 59 (34 to 36: the first at fault). */
    JANGQERUZ_REFUSED_COMMENT_DATE = 34,
    JANGQERUZ_REFUSED_COMMENT_REFERENCE = 35, /* Reference over the channels, 2 or 4 for kinds 1, 2, 3. */
    JANGQERUZ_REFUSED_COMMENTS_COUNT = 36, /* A 65,536th comment would be written. */
    JANGQERUZ_REFUSED_LOCAL_ORDER_REPEATS = 37, /* Local order repeats. */
    JANGQERUZ_REFUSED_LOCAL_ORDER_LACKS = 38, /* It lacks a chunk to be written. */
    JANGQERUZ_REFUSED_PROPERTY_AFTER_SOUND = 39, /* PROP after sound. */
    JANGQERUZ_REFUSED_HEADER_SHORT = 40, /* Header buffer short; detail, the length needed. */
    JANGQERUZ_REFUSED_TRAILER_SHORT = 41, /* Trailer buffer short; likewise. */
    /* Read or query: channels or a length as in 7 or 10, over 1,151,999 positions, or header or trailer over 2^40
     * bytes.
     */
    JANGQERUZ_REFUSED_NO_FILE = 42,
    /* Read: the lent lengths or byte counts aren't those of the needed positions (plain content for DSD or CRC, DST
     * bytes for DST, otherwise empty).
     */
    JANGQERUZ_REFUSED_WRONGLY_LENT = 43,
    /* A comment's date must be a Gregorian date with year 1 or later, or have month and day both zero, the sign for an
     * undated note. Only of dates and windows that are asked about by themselves; a build takes a comment with any date
     * that 34 allows.
     */
    JANGQERUZ_REFUSED_NO_SUCH_DATE = 46,
};

/* ------------------------------------------------------------------------------------------------------------------- */

/* The words of a build before anything is told. */

/* The default words, as many as `words` has room for; the answer is how many a build has. Each option's is its default;
 * those of the area are 0, and are still to be told.
 */
size_t jangqeruz_defaults(uint32_t *words, size_t words_len);

/* ------------------------------------------------------------------------------------------------------------------- */

/* A build. The words are those of `jangqeruz_verdict`. */

/* Header and trailer of a file. The number of the refusal is answered, 0 for none; `answer` gets the lengths of header,
 * sound and trailer, or the refusal's detail and zeros, as many of the three as it has room for. Stretches may overlap,
 * so that a small input can ask for very much: 65,535 comments of the same 1,048,576 values are a COMT of
 * 68,719,345,652 bytes, and markers can make about as much of DIIN. The time, also of a build that is refused, grows
 * with the values that words and rows name, added up, whether they are written or not (docs/PERFORMANCE.md has the cost
 * of one); of comments there may be any number of rows, since 36 counts those that are written. A server adds up the
 * lengths in all words and rows before it calls, and turns away what is above a limit of its own.
 */
uint64_t jangqeruz_build(
    const uint32_t *words,
    size_t words_len,
    const uint32_t *pool,
    size_t pool_len,
    const uint8_t *raw,
    size_t raw_len,
    const uint32_t *tracks,
    size_t tracks_len,
    const uint32_t *markers,
    size_t markers_len,
    const uint32_t *comments,
    size_t comments_len,
    const uint32_t *callers,
    size_t callers_len,
    const uint32_t *lengths,
    size_t lengths_len,
    uint8_t *header,
    size_t header_len,
    uint8_t *trailer,
    size_t trailer_len,
    uint64_t *answer,
    size_t answer_len);

/* ------------------------------------------------------------------------------------------------------------------- */

/* The verdict on the inputs of a build. The single values are words, each at its own place, as Inputs.antt of the crate
 * words and the names of the header (WORD_..) list them. What is wrong with the words themselves is refused first
 * (Border.antt there): their number, a word that its field cannot hold, a number that names nothing. A switch is on if
 * its word is not 0.
 */

/* The number of the refusal, 0 for none, times 2^32, and the low 32 bits of its detail. The tracks, markers, comments
 * and caller's chunks are rows of words, the lengths those of the DST frames. EMID, the texts of markers and the
 * caller's chunks are bytes of `raw`, the other texts values of `pool`. The time grows as that of `jangqeruz_build`,
 * and a server does the same about it.
 */
uint64_t jangqeruz_verdict(
    const uint32_t *words,
    size_t words_len,
    const uint32_t *pool,
    size_t pool_len,
    const uint8_t *raw,
    size_t raw_len,
    const uint32_t *tracks,
    size_t tracks_len,
    const uint32_t *markers,
    size_t markers_len,
    const uint32_t *comments,
    size_t comments_len,
    const uint32_t *callers,
    size_t callers_len,
    const uint32_t *lengths,
    size_t lengths_len);

/* ------------------------------------------------------------------------------------------------------------------- */

/* The query and the read of a whole file. DST has one position for each length, DSD has so many `positions`; the other
 * of the two is not looked at. The number of the refusal is answered, 0 for none.
 */

/* The positions that a read of so many bytes from the file's byte `offset` on needs. `range` gets the first and one
 * past the last, or the refusal's detail and a zero.
 */
uint64_t jangqeruz_query(
    uint64_t range[2],
    bool dst,
    bool crc,
    uint8_t channels,
    uint32_t positions,
    const uint32_t *lengths,
    size_t lengths_len,
    uint64_t header,
    uint64_t trailer,
    uint64_t offset,
    uint64_t room);

/* The file's bytes from its byte `offset` on, into `out`. `filled` gets how many, or the refusal's detail. Of the
 * positions that the query answers are lent: the lengths of their DST frames (`lent`) and these joined (`frames`), none
 * for DSD; and their plain contents joined (`contents`), for DSD and for DST with CRCs.
 */
uint64_t jangqeruz_read(
    uint8_t *out,
    size_t out_len,
    uint64_t filled[1],
    bool dst,
    bool crc,
    uint8_t channels,
    uint32_t positions,
    const uint32_t *lengths,
    size_t lengths_len,
    const uint8_t *header,
    size_t header_len,
    const uint8_t *trailer,
    size_t trailer_len,
    uint64_t offset,
    const uint32_t *lent,
    size_t lent_len,
    const uint8_t *frames,
    size_t frames_len,
    const uint8_t *contents,
    size_t contents_len);

/* ------------------------------------------------------------------------------------------------------------------- */

/* PROP. What is written into `out` is what fits of it; the answer is the length of all of it. */

/* PROP, its chunks in the order of these numbers. The channel numbers are used if they are given. */
size_t jangqeruz_property(
    uint8_t *out,
    size_t out_len,
    const uint8_t order[5],
    bool dst,
    uint8_t layout_number,
    uint8_t channels,
    bool numbers_given,
    uint32_t numbers_count,
    const uint16_t numbers[6],
    bool start_given,
    uint32_t start_frame,
    bool loudspeaker_configuration,
    bool unspecified_loudspeaker_configuration,
    bool d1);

/* ------------------------------------------------------------------------------------------------------------------- */

/* DIIN. What is written into `out` is what fits of it; the answer is the length of all of it. */

/* DIIN, its chunks in the order of these numbers. EMID and the texts of custom markers are bytes of `raw`, the other
 * texts values of `pool`.
 */
size_t jangqeruz_diin(
    uint8_t *out,
    size_t out_len,
    const uint32_t *pool,
    size_t pool_len,
    const uint8_t *raw,
    size_t raw_len,
    const uint32_t *tracks,
    size_t tracks_len,
    const uint32_t *custom,
    size_t custom_len,
    const uint8_t order[4],
    bool on,
    bool empty_info,
    const uint32_t emid[3],
    bool custom_markers,
    uint32_t first,
    uint32_t end,
    uint32_t playtime,
    uint16_t source_track,
    bool source_track_markers,
    bool clipped_program,
    bool titles,
    bool start_given,
    uint32_t start_frame,
    uint8_t rule_number,
    uint8_t replacement,
    bool empty_text,
    bool text_pad_counted,
    bool artist_title,
    uint8_t source_number,
    const uint32_t album_artist[3],
    const uint32_t album_title[3],
    const uint32_t track_artist[3],
    const uint32_t track_title[3]);

/* ------------------------------------------------------------------------------------------------------------------- */

/* Texts. A text is `length` values of `pool` from `start` on. What is written into `out` is what fits of it; the answer
 * is the length of all of it.
 */

/* A text's bytes. */
size_t jangqeruz_text_bytes(
    uint8_t *out,
    size_t out_len,
    const uint32_t *pool,
    size_t pool_len,
    uint32_t start,
    uint32_t length,
    uint8_t rule_number,
    uint8_t replacement);

/* DIAR or DITI, by its name. */
size_t jangqeruz_diin_text(
    uint8_t *out,
    size_t out_len,
    const uint8_t id[4],
    const uint32_t *pool,
    size_t pool_len,
    bool given,
    uint32_t start,
    uint32_t length,
    uint8_t rule_number,
    uint8_t replacement,
    bool empty_text,
    bool text_pad_counted);

/* COMT, of rows of nine words. */
size_t jangqeruz_comt(
    uint8_t *out,
    size_t out_len,
    const uint32_t *pool,
    size_t pool_len,
    const uint32_t *rows,
    size_t rows_len,
    uint8_t rule_number,
    uint8_t replacement,
    bool empty_text,
    bool text_pad_counted);

/* ------------------------------------------------------------------------------------------------------------------- */

/* Dates of comments. A stamp is five words: year, month, day, hour and minutes, as a comment's row begins with them.
 * Where a refusal is answered, it is by its number, 34 or 46, 0 for none.
 */

/* What is wrong with a date that a window starts or ends with. */
uint64_t jangqeruz_date_fault(const uint32_t date[5]);

/* What is wrong with the date of a comment, which may be undated: month and day both 0. A build asks less: it refuses a
 * comment's date with 34 alone.
 */
uint64_t jangqeruz_note_fault(const uint32_t note[5]);

/* Whether `a` is earlier than `b`, by year, then month, day, hour and minutes. Nothing is refused. */
bool jangqeruz_earlier(const uint32_t a[5], const uint32_t b[5]);

/* Whether a comment falls in a window, its start counted in and its end counted out; an undated one falls in none.
 * `falls` gets 1 or 0, or the refusal's detail.
 */
uint64_t jangqeruz_falls_in(
    uint64_t falls[1],
    const uint32_t start[5],
    const uint32_t end[5],
    const uint32_t note[5]);

/* ------------------------------------------------------------------------------------------------------------------- */

/* The sound of a file: DST by the lengths of its frames, DSD by the number n of its positions. A read skips so many
 * bytes of the sound and fills `out`; the answer is how many bytes it filled, or the largest usize if what is lent is
 * not what the needed positions have.
 */

uint32_t jangqeruz_crc(const uint8_t *content, size_t content_len);

/* The DST chunk's header and FRTE. What is written into `out` is what fits of it; the answer is the length of all of
 * it.
 */
size_t jangqeruz_dst_head(
    uint8_t *out,
    size_t out_len,
    bool crc,
    const uint32_t *lengths,
    size_t lengths_len);

/* The data of DSTI, likewise, where the first unit starts at `base`. */
size_t jangqeruz_dst_index(
    uint8_t *out,
    size_t out_len,
    bool crc,
    bool frame_data,
    uint64_t base,
    const uint32_t *lengths,
    size_t lengths_len);

/* The needed positions: the first, and one past the last. */
void jangqeruz_dst_positions(
    size_t range[2],
    bool crc,
    const uint32_t *lengths,
    size_t lengths_len,
    uint64_t from,
    uint64_t count);

void jangqeruz_dsd_positions(
    size_t range[2],
    uint8_t channels,
    uint32_t n,
    uint64_t from,
    uint64_t count);

size_t jangqeruz_dst_fill(
    uint8_t *out,
    size_t out_len,
    uint64_t skip,
    bool crc,
    uint8_t channels,
    const uint32_t *lengths,
    size_t lengths_len,
    const uint32_t *lent,
    size_t lent_len,
    const uint8_t *frames,
    size_t frames_len,
    const uint8_t *contents,
    size_t contents_len);

size_t jangqeruz_dsd_fill(
    uint8_t *out,
    size_t out_len,
    uint64_t skip,
    uint8_t channels,
    uint32_t n,
    const uint8_t *contents,
    size_t contents_len);

#ifdef __cplusplus
}
#endif

#endif
