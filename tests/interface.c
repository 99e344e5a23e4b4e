/*
 * Links the library and calls every function on good and bad input, through include/mfer.h alone.
 * Compiles as C99 and as C++. The last line counts the tests; exit status 1 if one failed.
 */
#include "mfer.h"

#include <stdio.h>
#include <stdlib.h>
#include <string.h>

static int passed, failed;
static int ok;

#define EXPECT(condition)                                                     \
    do {                                                                      \
        if (!(condition)) {                                                   \
            printf("interface.c:%d: not so: %s\n", __LINE__, #condition);     \
            ok = 0;                                                           \
        }                                                                     \
    } while (0)

#define UNSET 0xA5A5A5A5A5A5A5A5u
#define SIZE(array) (sizeof(array) / sizeof((array)[0]))

/* Document 01's P2: two channels, little-endian; samples 1 and 2, and -1. */
static const uint8_t P2[] = {0x01, 0x01, 0x01, 0x04, 0x01, 0x02, 0x05, 0x01, 0x02, 0x3F, 0x01, 0x03,
                             0x04, 0x01, 0x01, 0x1E, 0x06, 0x01, 0x00, 0x02, 0x00, 0xFF, 0xFF};

/* Document 01's P6: refused 8 at 3. */
static const uint8_t P6[] = {0x05, 0x01, 0x02, 0x3F, 0x02, 0x00};

/* Two frames of one channel: a single that is null, one that is no number; then a double. */
static const uint8_t FLOATS[] = {0x0A, 1,    7,    0x12, 4,    0x80, 0,    0,    0,    0x1E, 12, 0x80,
                                 0,    0,    0,    0x7F, 0xC0, 0,    1,    0x3F, 0x80, 0,    0,  0x12,
                                 0,    0x0A, 1,    8,    0x1E, 8,    0xFF, 0xF0, 0,    0,    0,  0,
                                 0,    0};

static const uint8_t P2_CANONICAL[113] = {
    0x01, 0x01, 0x00, 0x05, 0x04, 0x00, 0x00, 0x00, 0x02, 0x06, 0x04, 0x00, 0x00, 0x00, 0x01,
    0x07, 0x04, 0x00, 0x00, 0x00, 0x00, 0x3F, 0x00, 0x27, 0x04, 0x04, 0x00, 0x00, 0x00, 0x02,
    0x08, 0x02, 0x00, 0x00, 0x09, 0x02, 0x00, 0x00, 0x0A, 0x01, 0x00, 0x0B, 0x06, 0x00, 0x00,
    0x00, 0x00, 0x03, 0xE8, 0x0C, 0x06, 0x00, 0xFA, 0x00, 0x00, 0x00, 0x01, 0x0D, 0x02, 0x00,
    0x00, 0x12, 0x00, 0x3F, 0x01, 0x27, 0x04, 0x04, 0x00, 0x00, 0x00, 0x01, 0x08, 0x02, 0x00,
    0x00, 0x09, 0x02, 0x00, 0x00, 0x0A, 0x01, 0x00, 0x0B, 0x06, 0x00, 0x00, 0x00, 0x00, 0x03,
    0xE8, 0x0C, 0x06, 0x00, 0xFA, 0x00, 0x00, 0x00, 0x01, 0x0D, 0x02, 0x00, 0x00, 0x12, 0x00,
    0x1E, 0x06, 0x00, 0x01, 0x00, 0x02, 0xFF, 0xFF};

/* Document 01's P4: two channels of one octet; 7 and 8. */
static const uint8_t P4[] = {0x05, 0x01, 0x02, 0x3F, 0x00, 0x03, 0x0A, 0x01,
                             0x03, 0x0A, 0x01, 0x05, 0x1E, 0x02, 0x07, 0x08};

/* Document 01's P9 as document 02 has it: two sequences are declared, and 5 is there. */
static const uint8_t P9[] = {0x06, 0x01, 0x02, 0x1E, 0x02, 0x00, 0x05};

/* 256 channels with blocks of 1,048,576 and 4,294,967,295 sequences are declared; two samples of the first
   channel are there. */
static const uint8_t DECLARED[] = {0x05, 2,    1,    0,    0x04, 3,    0x10, 0, 0, 0x06, 4,
                                   0xFF, 0xFF, 0xFF, 0xFF, 0x1E, 4,    0,    1, 0, 2};

/* Two frames, the settings ahead of the first; octets past the samples of both. */
static const uint8_t LASTING[] = {0x01, 1, 1,    0x05, 1,    2,    0x06, 1,    1,    0x08, 1,    7,
                                  0x0D, 2, 1,    0,    0x3F, 1,    7,    0x0A, 1,    1,    0x12, 2,
                                  0x34, 0x12, 0x1E, 6, 1,    0,    2,    0,    9,    9,    0x1E, 9,
                                  3,    0, 0x34, 0x12, 0x99, 0x99, 0x99, 0x99, 0x99};

/* Blocks of 2, 1 and 3 octets, two sequences and one octet past them; then a start pointer, and two
   frames of one channel. */
static const uint8_t BLOCKS[] = {0x05, 1, 3, 0x0A, 1, 3, 0x3F, 0, 3, 0x04, 1,    2, 0x3F, 2,    3,
                                 0x04, 1, 3, 0x1E, 13, 0, 1, 2, 3, 4,    5, 6,    7, 8,    9,    10,
                                 11,   12, 0x07, 1, 0xFB, 0x05, 0, 0x1E, 2,    0xFF, 0x80, 0x1E, 0};

static void expect_check(const uint8_t *file, size_t file_len, uint32_t number, uint64_t frames,
                         uint64_t place)
{
    uint64_t frames_out = UNSET, place_out = UNSET;
    EXPECT(mfer_check(file, file_len, &frames_out, &place_out) == number);
    EXPECT(frames_out == frames);
    EXPECT(place_out == place);
}

/* Buffers for three values, and that they keep what they held. */
#define VALUES 3

static void unset_values(uint8_t kinds[VALUES], int64_t wholes[VALUES])
{
    memset(kinds, 0xA5, VALUES * sizeof *kinds);
    memset(wholes, 0xA5, VALUES * sizeof *wholes);
}

static void expect_unset_values(const uint8_t kinds[VALUES], const int64_t wholes[VALUES])
{
    size_t i;
    for (i = 0; i < VALUES; i++)
        EXPECT(kinds[i] == 0xA5 && (uint64_t)wholes[i] == UNSET);
}

/* Both buffers of the values keep what they held, and buffers of no length may be null. */
static void expect_values_refusal(const uint8_t *file, size_t file_len, uint32_t frame,
                                  uint32_t channel, uint64_t number, uint32_t refusal,
                                  uint64_t place)
{
    uint64_t place_out = UNSET, count = UNSET;
    uint8_t kinds[VALUES];
    int64_t wholes[VALUES];

    unset_values(kinds, wholes);
    EXPECT(mfer_values(file, file_len, frame, channel, number, kinds, VALUES, wholes,
                       VALUES, &count, &place_out) == refusal);
    EXPECT(place_out == place && count == 0);
    expect_unset_values(kinds, wholes);

    place_out = count = UNSET;
    EXPECT(mfer_values(file, file_len, frame, channel, number, NULL, 0, NULL, 0, &count,
                       &place_out) == refusal);
    EXPECT(place_out == place && count == 0);
}

/* Every question on a file answers this refusal, all other outputs 0 and the buffers as they were. */
static void expect_refusal(const uint8_t *file, size_t file_len, uint32_t frame, uint32_t channel,
                           uint64_t number, uint32_t refusal, uint64_t place)
{
    int64_t numbers[MFER_NUMBERS];
    uint64_t bits[2], place_out = UNSET, bits_out = UNSET, count = UNSET, out[3];
    uint32_t kind = 99;
    int64_t whole = 99;
    size_t i;

    if (refusal != MFER_NO_SAMPLE) {
        memset(numbers, 0xA5, sizeof numbers);
        memset(bits, 0xA5, sizeof bits);
        EXPECT(mfer_attributes(file, file_len, frame, channel, numbers, bits, &place_out) == refusal);
        EXPECT(place_out == place);
        for (i = 0; i < SIZE(numbers); i++)
            EXPECT(numbers[i] == 0);
        EXPECT(bits[0] == 0 && bits[1] == 0);

        place_out = UNSET;
        EXPECT(mfer_samples_there(file, file_len, frame, channel, &count, &place_out) == refusal);
        EXPECT(place_out == place && count == 0);
    }

    place_out = UNSET;
    EXPECT(mfer_sample(file, file_len, frame, channel, number, &place_out, &kind, &whole,
                       &bits_out) == refusal);
    EXPECT(place_out == place);
    EXPECT(kind == 0 && whole == 0 && bits_out == 0);

    place_out = UNSET;
    memset(out, 0xA5, sizeof out);
    EXPECT(mfer_samples(file, file_len, frame, channel, number, out, SIZE(out), &count,
                        &place_out) == refusal);
    EXPECT(place_out == place && count == 0);
    for (i = 0; i < SIZE(out); i++)
        EXPECT(out[i] == UNSET);

    place_out = count = UNSET;
    EXPECT(mfer_samples(file, file_len, frame, channel, number, NULL, 0, &count, &place_out) ==
           refusal);
    EXPECT(place_out == place && count == 0);
    expect_values_refusal(file, file_len, frame, channel, number, refusal, place);
}

/* The file is refused when a walk is opened, and the walk keeps all it held. */
static void expect_walk_refusal(const uint8_t *file, size_t file_len, uint32_t refusal,
                                uint64_t place)
{
    uint64_t walk[MFER_WALK], frames_out = UNSET, place_out = UNSET;
    size_t i, kept = 0;
    memset(walk, 0xA5, sizeof walk);
    EXPECT(mfer_walk_open(file, file_len, walk, &frames_out, &place_out) == refusal);
    EXPECT(frames_out == 0 && place_out == place);
    for (i = 0; i < MFER_WALK; i++)
        kept += walk[i] == UNSET;
    EXPECT(kept == MFER_WALK);
}

static void expect_canonical_length(const uint8_t *file, size_t file_len, uint32_t number,
                                    uint64_t length, uint64_t place)
{
    uint64_t length_out = UNSET, place_out = UNSET;
    EXPECT(mfer_canonical_length(file, file_len, &length_out, &place_out) == number);
    EXPECT(length_out == length);
    EXPECT(place_out == place);
}

static void expect_canonical_refusal(const uint8_t *file, size_t file_len, size_t room,
                                     uint32_t refusal, uint64_t place)
{
    uint64_t written = UNSET, place_out = UNSET;
    uint8_t *out = (uint8_t *)malloc(room + 1);
    size_t i;

    memset(out, 0xA5, room + 1);
    EXPECT(mfer_canonical(file, file_len, out, room, &written, &place_out) == refusal);
    EXPECT(written == 0 && place_out == place);
    for (i = 0; i < room + 1; i++)
        EXPECT(out[i] == 0xA5);
    free(out);
}

static void expect_sample(const uint8_t *file, size_t file_len, uint32_t frame, uint32_t channel,
                          uint64_t number, uint64_t place, uint32_t kind, int64_t whole,
                          uint64_t bits)
{
    uint64_t place_out = UNSET, bits_out = UNSET;
    uint32_t kind_out = 99;
    int64_t whole_out = 99;
    EXPECT(mfer_sample(file, file_len, frame, channel, number, &place_out, &kind_out, &whole_out,
                       &bits_out) == MFER_OK);
    EXPECT(place_out == place);
    EXPECT(kind_out == kind);
    EXPECT(whole_out == whole);
    EXPECT(bits_out == bits);
}

static void check_good_files(void)
{
    static const uint8_t p3[] = {0x1E, 0x00};
    expect_check(P2, sizeof P2, MFER_OK, 1, 0);
    expect_check(p3, sizeof p3, MFER_OK, 1, 0);
    expect_check(FLOATS, sizeof FLOATS, MFER_OK, 2, 0);
    expect_check(P2_CANONICAL, sizeof P2_CANONICAL, MFER_OK, 1, 0);
    expect_check(P9, sizeof P9, MFER_OK, 1, 0);
    expect_check(DECLARED, sizeof DECLARED, MFER_OK, 1, 0);
}

static void empty_and_null(void)
{
    uint64_t written = UNSET, place = UNSET;
    uint8_t out = 0xA5;
    expect_check(NULL, 0, MFER_OK, 0, 0);
    expect_check(P2, 0, MFER_OK, 0, 0);
    expect_refusal(NULL, 0, 0, 0, 0, MFER_NO_FRAME, 0);
    expect_canonical_length(NULL, 0, MFER_OK, 0, 0);
    EXPECT(mfer_canonical(NULL, 0, NULL, 0, &written, &place) == MFER_OK);
    EXPECT(written == 0 && place == 0);
    written = place = UNSET;
    EXPECT(mfer_canonical(NULL, 0, &out, 1, &written, &place) == MFER_OK);
    EXPECT(written == 0 && place == 0 && out == 0xA5);
}

/* One file for each refusal of the check, but for 11 and 15, and for 14, which is retired. */
static void check_refusals(void)
{
    static const struct {
        uint32_t number;
        uint64_t place;
        size_t length;
        uint8_t octets[16];
    } files[] = {
        {MFER_CONTEXT_TAG, 0, 2, {0x67, 0x00}},
        {MFER_LENGTH_OCTET, 0, 2, {0x0A, 0x80}},
        {MFER_PAST_END, 0, 2, {0x0A, 0x01}},
        {MFER_LONG_CHANNEL, 0, 5, {0x3F, 0x80, 0x80, 0x80, 0x80}},
        {MFER_BARRED_TAG, 3, 5, {0x3F, 0x00, 0x02, 0x05, 0x00}},
        {MFER_UNFIT_LENGTH, 0, 4, {0x0A, 0x02, 0x00, 0x00}},
        {MFER_UNFIT_VALUE, 0, 3, {0x0A, 0x01, 0x09}},
        {MFER_CHANNEL_NUMBER, 3, 6, {0x05, 0x01, 0x02, 0x3F, 0x02, 0x00}},
        {MFER_COMPRESSED, 0, 3, {0x0E, 0x01, 0x00}},
        {MFER_UNENDED_GROUP, 0, 3, {0x3F, 0x00, 0x80}},
        {MFER_SAMPLE_WIDTH, 3, 7, {0x0D, 0x01, 0x01, 0x1E, 0x02, 0x00, 0x05}},
        {MFER_START_RANGE, 10, 12, {0x07, 4, 0x7F, 0xFF, 0xFF, 0xFF, 0x1E, 2, 0, 5, 0x1E, 0}},
        {MFER_PAST_END, 3, 6, {0x06, 0x01, 0x02, 0x1E, 0x02, 0x00}},
    };
    size_t i;
    for (i = 0; i < SIZE(files); i++) {
        const uint8_t *file = files[i].octets;
        expect_check(file, files[i].length, files[i].number, 0, files[i].place);
        expect_walk_refusal(file, files[i].length, files[i].number, files[i].place);
        expect_refusal(file, files[i].length, 0, 0, 0, files[i].number, files[i].place);
        expect_refusal(file, files[i].length, UINT32_MAX, UINT32_MAX, UINT64_MAX, files[i].number,
                       files[i].place);
        expect_canonical_length(file, files[i].length, files[i].number, 0, files[i].place);
        expect_canonical_refusal(file, files[i].length, 200, files[i].number, files[i].place);
        expect_canonical_refusal(file, files[i].length, 0, files[i].number, files[i].place);
    }
}

static void too_many_frames(void)
{
    size_t i, length = 2 * (MFER_MAX_FRAMES + 1);
    uint8_t *file = (uint8_t *)malloc(length);
    for (i = 0; i < length; i += 2) {
        file[i] = 0x1E;
        file[i + 1] = 0;
    }
    expect_check(file, length - 2, MFER_OK, MFER_MAX_FRAMES, 0);
    expect_check(file, length, MFER_MANY_FRAMES, 0, 2 * MFER_MAX_FRAMES);
    expect_walk_refusal(file, length, MFER_MANY_FRAMES, 2 * MFER_MAX_FRAMES);
    free(file);
}

/* Memory that nobody writes to, so that little of it is ever there. */
static void too_long_a_file(void)
{
    size_t length = (size_t)MFER_MAX_OCTETS + 1;
    uint8_t *file = (uint8_t *)calloc(length, 1);
    EXPECT(file != NULL);
    if (file == NULL)
        return;
    expect_check(file, length, MFER_LONG_FILE, 0, 0);
    expect_refusal(file, length, 0, 0, 0, MFER_LONG_FILE, 0);
    expect_walk_refusal(file, length, MFER_LONG_FILE, 0);
    expect_canonical_length(file, length, MFER_LONG_FILE, 0, 0);
    expect_canonical_refusal(file, length, 200, MFER_LONG_FILE, 0);
    free(file);
}

/* One frame of a file that is as long as may be: its canonical file would be longer. */
static void too_long_a_canonical_file(void)
{
    static const uint8_t head[] = {0x1E, 0x84, 0x7F, 0xFF, 0xFF, 0xF9};
    uint8_t *file = (uint8_t *)calloc(MFER_MAX_OCTETS, 1);
    EXPECT(file != NULL);
    if (file == NULL)
        return;
    memcpy(file, head, sizeof head);
    expect_check(file, MFER_MAX_OCTETS, MFER_OK, 1, 0);
    expect_canonical_length(file, MFER_MAX_OCTETS, MFER_NO_ROOM, 0, 0);
    free(file);
}

static void huge_indexes(void)
{
    expect_refusal(P2, sizeof P2, 1, 0, 0, MFER_NO_FRAME, 0);
    expect_refusal(P2, sizeof P2, UINT32_MAX, UINT32_MAX, UINT64_MAX, MFER_NO_FRAME, 0);
    expect_refusal(P2, sizeof P2, 0, 2, 0, MFER_NO_CHANNEL, 0);
    expect_refusal(P2, sizeof P2, 0, 256, UINT64_MAX, MFER_NO_CHANNEL, 0);
    expect_refusal(P2, sizeof P2, 0, UINT32_MAX, UINT64_MAX, MFER_NO_CHANNEL, 0);
    expect_refusal(P2, sizeof P2, 0, 0, 2, MFER_NO_SAMPLE, 0);
    expect_refusal(P2, sizeof P2, 0, 1, (uint64_t)1 << 32, MFER_NO_SAMPLE, 0);
    expect_refusal(P2, sizeof P2, 0, 1, (uint64_t)1 << 63, MFER_NO_SAMPLE, 0);
    expect_refusal(P2, sizeof P2, 0, 0, UINT64_MAX, MFER_NO_SAMPLE, 0);
    expect_refusal(P9, sizeof P9, 0, 0, 2, MFER_NO_SAMPLE, 0);
    expect_refusal(P9, sizeof P9, 0, 0, UINT64_MAX, MFER_NO_SAMPLE, 0);
    expect_refusal(DECLARED, sizeof DECLARED, 0, 255, (uint64_t)UINT32_MAX << 20, MFER_NO_SAMPLE, 0);
}

static void attributes(void)
{
    static const int64_t expected[MFER_NUMBERS] = {0, 2, 1, 2, 0, 0, 0, 0, 0, 1000, 0, -6, 1, 2, 0};
    int64_t numbers[MFER_NUMBERS];
    uint64_t bits[2], place = UNSET;
    memset(numbers, 0xA5, sizeof numbers);
    memset(bits, 0xA5, sizeof bits);
    EXPECT(mfer_attributes(P2, sizeof P2, 0, 0, numbers, bits, &place) == MFER_OK);
    EXPECT(memcmp(numbers, expected, sizeof numbers) == 0);
    EXPECT(bits[0] == 0 && bits[1] == 0 && place == 0);
    EXPECT(mfer_attributes(P2, sizeof P2, 0, 1, numbers, bits, &place) == MFER_OK);
    EXPECT(numbers[MFER_NUMBER_BLOCK] == 1);
    EXPECT(mfer_attributes(FLOATS, sizeof FLOATS, 0, 0, numbers, bits, &place) == MFER_OK);
    EXPECT(numbers[MFER_NUMBER_TYPE] == MFER_TYPE_SINGLE);
    EXPECT(numbers[MFER_NUMBER_WIDTH] == 4 && numbers[MFER_NUMBER_NULL_WIDTH] == 4);
    EXPECT(bits[0] == 0 && bits[1] == 0x80000000u);
    EXPECT(mfer_attributes(FLOATS, sizeof FLOATS, 1, 0, numbers, bits, &place) == MFER_OK);
    EXPECT(numbers[MFER_NUMBER_START] == 3 && numbers[MFER_NUMBER_SEQUENCES] == 1);
    EXPECT(numbers[MFER_NUMBER_WIDTH] == 8 && numbers[MFER_NUMBER_NULL_WIDTH] == 0);
    EXPECT(bits[0] == 0 && bits[1] == 0);
}

static void one_sample(void)
{
    static const uint8_t status[] = {0x0A, 1, 4, 0x1E, 2, 0xFF, 0xFE};
    expect_sample(P2, sizeof P2, 0, 0, 0, 17, MFER_WHOLE, 1, 1);
    expect_sample(P2, sizeof P2, 0, 0, 1, 19, MFER_WHOLE, 2, 2);
    expect_sample(P2, sizeof P2, 0, 1, 0, 21, MFER_WHOLE, -1, 0xFFFF);
    expect_sample(status, sizeof status, 0, 0, 0, 5, MFER_STATUS, 0, 0xFFFE);
    expect_sample(FLOATS, sizeof FLOATS, 0, 0, 0, 11, MFER_NULL, 0, 0x80000000u);
    expect_sample(FLOATS, sizeof FLOATS, 0, 0, 1, 15, MFER_NOT_NUMBER, 0, 0x7FC00001u);
    expect_sample(FLOATS, sizeof FLOATS, 0, 0, 2, 19, MFER_SINGLE, 0, 0x3F800000u);
    expect_sample(FLOATS, sizeof FLOATS, 1, 0, 0, 30, MFER_DOUBLE, 0, 0xFFF0000000000000u);
}

static void samples_in_bulk(void)
{
    uint64_t out[4], count = UNSET, place = UNSET;
    memset(out, 0xA5, sizeof out);
    EXPECT(mfer_samples(P2, sizeof P2, 0, 0, 0, out, SIZE(out), &count, &place) == MFER_OK);
    EXPECT(count == 2 && place == 0);
    EXPECT(out[0] == 1 && out[1] == 2 && out[2] == UNSET && out[3] == UNSET);
    memset(out, 0xA5, sizeof out);
    EXPECT(mfer_samples(FLOATS, sizeof FLOATS, 0, 0, 1, out, 1, &count, &place) == MFER_OK);
    EXPECT(count == 1 && out[0] == 0x7FC00001u && out[1] == UNSET);
    count = UNSET;
    EXPECT(mfer_samples(P2, sizeof P2, 0, 1, 0, NULL, 0, &count, &place) == MFER_OK);
    EXPECT(count == 0 && place == 0);
}

static void values_in_bulk(void)
{
    /* Signed 16 bits, null 8000h: 700 samples, from -350 on, one of them null. */
    static uint8_t file[8 + 1400];
    static const uint8_t head[8] = {0x12, 2, 0x80, 0x00, 0x1E, 0x82, 0x05, 0x78};
    static uint8_t kinds[800];
    static int64_t wholes[800];
    uint64_t count = UNSET, place = UNSET, bits;
    uint32_t kind;
    int64_t whole;
    size_t i;

    memcpy(file, head, sizeof head);
    for (i = 0; i < 700; i++) {
        int sample = i == 300 ? -32768 : (int)i - 350;
        file[8 + 2 * i] = (uint8_t)((unsigned)sample >> 8);
        file[9 + 2 * i] = (uint8_t)sample;
    }
    memset(kinds, 0xA5, sizeof kinds);
    memset(wholes, 0xA5, sizeof wholes);
    EXPECT(mfer_values(file, sizeof file, 0, 0, 0, kinds, SIZE(kinds), wholes, SIZE(wholes), &count,
                       &place) == MFER_OK);
    EXPECT(count == 700 && place == 0);
    for (i = 0; i < 700; i++) {
        EXPECT(mfer_sample(file, sizeof file, 0, 0, i, &place, &kind, &whole, &bits) == MFER_OK);
        EXPECT(kinds[i] == kind && wholes[i] == whole);
    }
    EXPECT(kinds[300] == MFER_NULL && wholes[299] == -51 && wholes[699] == 349);
    EXPECT(kinds[700] == 0xA5 && (uint64_t)wholes[700] == UNSET);

    /* The shorter buffer decides. */
    memset(kinds, 0xA5, sizeof kinds);
    memset(wholes, 0xA5, sizeof wholes);
    EXPECT(mfer_values(FLOATS, sizeof FLOATS, 0, 0, 0, kinds, 3, wholes, 2, &count, &place) == MFER_OK);
    EXPECT(count == 2 && place == 0);
    EXPECT(kinds[0] == MFER_NULL && kinds[1] == MFER_NOT_NUMBER && kinds[2] == 0xA5);
    EXPECT(wholes[0] == 0 && wholes[1] == 0 && (uint64_t)wholes[2] == UNSET);
    EXPECT(mfer_values(FLOATS, sizeof FLOATS, 0, 0, 2, kinds, 3, wholes, 2, &count, &place) == MFER_OK);
    EXPECT(count == 1 && kinds[0] == MFER_SINGLE && kinds[1] == MFER_NOT_NUMBER);
    EXPECT(mfer_values(FLOATS, sizeof FLOATS, 1, 0, 0, kinds, 3, wholes, 2, &count, &place) == MFER_OK);
    EXPECT(count == 1 && kinds[0] == MFER_DOUBLE);
    EXPECT(mfer_values(P2, sizeof P2, 0, 1, 0, kinds, 3, NULL, 0, &count, &place) == MFER_OK);
    EXPECT(count == 0 && place == 0);
}

/* A sample is declared and not there: by its number, in buffers and in none. */
static void expect_no_data(const uint8_t *file, size_t file_len, uint32_t frame, uint32_t channel,
                           uint64_t number)
{
    uint64_t count = UNSET, place = UNSET, out[3];
    uint8_t kinds[VALUES];
    int64_t wholes[VALUES];
    size_t i;

    expect_sample(file, file_len, frame, channel, number, 0, MFER_NO_DATA, 0, 0);
    memset(out, 0xA5, sizeof out);
    EXPECT(mfer_samples(file, file_len, frame, channel, number, out, SIZE(out), &count, &place) == MFER_OK);
    EXPECT(count == 0 && place == 0);
    for (i = 0; i < SIZE(out); i++)
        EXPECT(out[i] == UNSET);
    unset_values(kinds, wholes);
    count = place = UNSET;
    EXPECT(mfer_values(file, file_len, frame, channel, number, kinds, VALUES, wholes, VALUES, &count,
                       &place) == MFER_OK);
    EXPECT(count == 0 && place == 0);
    expect_unset_values(kinds, wholes);
    count = place = UNSET;
    EXPECT(mfer_samples(file, file_len, frame, channel, number, NULL, 0, &count, &place) == MFER_OK);
    EXPECT(count == 0 && place == 0);
    count = place = UNSET;
    EXPECT(mfer_values(file, file_len, frame, channel, number, NULL, 0, NULL, 0, &count, &place) == MFER_OK);
    EXPECT(count == 0 && place == 0);
}

static uint64_t samples_there(const uint8_t *file, size_t file_len, uint32_t frame, uint32_t channel)
{
    uint64_t count = UNSET, place = UNSET;
    EXPECT(mfer_samples_there(file, file_len, frame, channel, &count, &place) == MFER_OK);
    EXPECT(place == 0);
    return count;
}

/* What is there is read, and what is not there is told. */
static void samples_not_there(void)
{
    const uint64_t declared = (uint64_t)UINT32_MAX << 20;
    uint64_t out[4], count = UNSET, place = UNSET;
    uint8_t kinds[4];
    int64_t wholes[4];

    EXPECT(samples_there(P2, sizeof P2, 0, 0) == 2 && samples_there(P2, sizeof P2, 0, 1) == 1);
    EXPECT(samples_there(FLOATS, sizeof FLOATS, 0, 0) == 3);
    EXPECT(samples_there(P9, sizeof P9, 0, 0) == 1);
    expect_sample(P9, sizeof P9, 0, 0, 0, 5, MFER_WHOLE, 5, 5);
    expect_no_data(P9, sizeof P9, 0, 0, 1);
    memset(out, 0xA5, sizeof out);
    EXPECT(mfer_samples(P9, sizeof P9, 0, 0, 0, out, SIZE(out), &count, &place) == MFER_OK);
    EXPECT(count == 1 && place == 0 && out[0] == 5 && out[1] == UNSET);

    EXPECT(samples_there(DECLARED, sizeof DECLARED, 0, 0) == 2);
    EXPECT(samples_there(DECLARED, sizeof DECLARED, 0, 1) == 0);
    EXPECT(samples_there(DECLARED, sizeof DECLARED, 0, 255) == 0);
    memset(kinds, 0xA5, sizeof kinds);
    memset(wholes, 0xA5, sizeof wholes);
    EXPECT(mfer_values(DECLARED, sizeof DECLARED, 0, 0, 1, kinds, 4, wholes, 4, &count, &place) == MFER_OK);
    EXPECT(count == 1 && kinds[0] == MFER_WHOLE && wholes[0] == 2);
    EXPECT(kinds[1] == 0xA5 && (uint64_t)wholes[1] == UNSET);
    expect_no_data(DECLARED, sizeof DECLARED, 0, 0, 2);
    expect_no_data(DECLARED, sizeof DECLARED, 0, 0, declared - 1);
    expect_no_data(DECLARED, sizeof DECLARED, 0, 255, 0);
    expect_no_data(DECLARED, sizeof DECLARED, 0, 255, declared - 1);
}

/* The walk is behind the last frame. */
static void expect_walk_end(const uint8_t *file, size_t file_len, uint64_t *walk)
{
    uint64_t frame[MFER_FRAME_NUMBERS], place = UNSET;
    int64_t start = 99;
    size_t i;
    memset(frame, 0xA5, sizeof frame);
    EXPECT(mfer_walk_next(file, file_len, walk, &start, frame, &place) == MFER_NO_FRAME);
    EXPECT(start == 0 && place == 0);
    for (i = 0; i < SIZE(frame); i++)
        EXPECT(frame[i] == 0);
}

/* Both buffers of the values by a walk keep what they held, and buffers of no length may be null. */
static void expect_walk_lacks_values(const uint8_t *file, size_t file_len, const uint64_t *walk,
                                     uint32_t channel, uint64_t first, uint32_t refusal)
{
    uint64_t place = UNSET, count = UNSET;
    uint8_t kinds[VALUES];
    int64_t wholes[VALUES];

    unset_values(kinds, wholes);
    EXPECT(mfer_walk_values(file, file_len, walk, channel, first, kinds, VALUES, wholes,
                            VALUES, &count, &place) == refusal);
    EXPECT(count == 0 && place == 0);
    expect_unset_values(kinds, wholes);

    place = count = UNSET;
    EXPECT(mfer_walk_values(file, file_len, walk, channel, first, NULL, 0, NULL, 0, &count, &place) ==
           refusal);
    EXPECT(count == 0 && place == 0);
}

/* The samples of a channel are refused so by the walk, as bits and as values. */
static void expect_walk_lacks_samples(const uint8_t *file, size_t file_len, const uint64_t *walk,
                                      uint32_t channel, uint64_t first, uint32_t refusal)
{
    uint64_t place = UNSET, count = UNSET, out[3];
    size_t i;

    memset(out, 0xA5, sizeof out);
    EXPECT(mfer_walk_samples(file, file_len, walk, channel, first, out, SIZE(out), &count, &place) ==
           refusal);
    EXPECT(count == 0 && place == 0);
    for (i = 0; i < SIZE(out); i++)
        EXPECT(out[i] == UNSET);

    place = count = UNSET;
    EXPECT(mfer_walk_samples(file, file_len, walk, channel, first, NULL, 0, &count, &place) ==
           refusal);
    EXPECT(count == 0 && place == 0);
    expect_walk_lacks_values(file, file_len, walk, channel, first, refusal);
}

/* All samples of a frame are refused so, in a buffer with room for some and in none. */
static void expect_walk_lacks_frame(const uint8_t *file, size_t file_len, const uint64_t *walk,
                                    uint32_t refusal)
{
    uint64_t place = UNSET, count = UNSET, out[3];
    size_t i;

    memset(out, 0xA5, sizeof out);
    EXPECT(mfer_walk_frame(file, file_len, walk, out, SIZE(out), &count, &place) == refusal);
    EXPECT(count == 0 && place == 0);
    for (i = 0; i < SIZE(out); i++)
        EXPECT(out[i] == UNSET);

    place = count = UNSET;
    EXPECT(mfer_walk_frame(file, file_len, walk, NULL, 0, &count, &place) == refusal);
    EXPECT(count == 0 && place == 0);
}

/* The walk answers this refusal to the questions for a channel and its samples; where it is at no
   frame, to that for all samples too. */
static void expect_walk_lacks(const uint8_t *file, size_t file_len, const uint64_t *walk,
                              uint32_t channel, uint64_t first, uint32_t refusal)
{
    int64_t numbers[MFER_NUMBERS];
    uint64_t bits[2], below = UNSET, place = UNSET, count = UNSET;
    size_t i;

    if (refusal != MFER_NO_SAMPLE) {
        memset(numbers, 0xA5, sizeof numbers);
        memset(bits, 0xA5, sizeof bits);
        EXPECT(mfer_walk_channel(walk, channel, numbers, bits, &below, &place) == refusal);
        for (i = 0; i < SIZE(numbers); i++)
            EXPECT(numbers[i] == 0);
        EXPECT(bits[0] == 0 && bits[1] == 0 && below == 0 && place == 0);

        place = UNSET;
        EXPECT(mfer_walk_samples_there(walk, channel, &count, &place) == refusal);
        EXPECT(count == 0 && place == 0);
    }

    expect_walk_lacks_samples(file, file_len, walk, channel, first, refusal);
    if (refusal == MFER_NO_FRAME)
        expect_walk_lacks_frame(file, file_len, walk, refusal);
}

/* The place of a sample by what a walk says of its frame and its channel. */
static uint64_t place_of(const uint64_t *frame, const int64_t *numbers, uint64_t below, uint64_t number)
{
    uint64_t block = (uint64_t)numbers[MFER_NUMBER_BLOCK];
    uint64_t width = (uint64_t)numbers[MFER_NUMBER_WIDTH];
    return frame[MFER_FRAME_PLACE] + number / block * frame[MFER_FRAME_OCTETS] + below +
           number % block * width;
}

/* The number that the octets at a place stand for. */
static uint64_t bits_of(const uint8_t *octets, uint64_t width, int little)
{
    uint64_t bits = 0, i;
    for (i = 0; i < width; i++)
        bits = bits << 8 | octets[little ? width - 1 - i : i];
    return bits;
}

/* The values of a channel by the walk are what mfer_values tells, in pieces of 7, up to the last sample
   there. */
static void same_values(const uint8_t *file, size_t file_len, const uint64_t *walk, uint32_t number,
                        uint32_t channel, uint64_t samples, uint32_t behind)
{
    uint8_t kinds[7], kinds_asked[7];
    int64_t wholes[7], wholes_asked[7];
    uint64_t count = UNSET, count_asked, place, first = 0;
    uint32_t refusal;

    do {
        place = UNSET;
        memset(kinds, 0xA5, sizeof kinds);
        memset(wholes, 0xA5, sizeof wholes);
        memset(kinds_asked, 0xA5, sizeof kinds_asked);
        memset(wholes_asked, 0xA5, sizeof wholes_asked);
        refusal = mfer_walk_values(file, file_len, walk, channel, first, kinds, SIZE(kinds), wholes,
                                   SIZE(wholes), &count, &place);
        EXPECT(place == 0);
        EXPECT(mfer_values(file, file_len, number, channel, first, kinds_asked, SIZE(kinds_asked),
                           wholes_asked, SIZE(wholes_asked), &count_asked, &place) == refusal);
        EXPECT(count == count_asked && memcmp(kinds, kinds_asked, sizeof kinds) == 0);
        EXPECT(memcmp(wholes, wholes_asked, sizeof wholes) == 0);
        first += count;
    } while (refusal == MFER_OK && count > 0);
    EXPECT(refusal == behind && first == samples);
    if (samples > 0) {
        EXPECT(mfer_walk_values(file, file_len, walk, channel, 0, NULL, 0, NULL, 0, &count, &place) ==
               MFER_OK);
        EXPECT(count == 0 && place == 0);
    }
}

/* A channel by the walk is what mfer_attributes, mfer_samples_there, mfer_sample, mfer_samples and mfer_values
   tell. Behind the last sample there is MFER_OK where more are declared, else MFER_NO_SAMPLE. */
static void same_channel(const uint8_t *file, size_t file_len, const uint64_t *walk, uint32_t number,
                         const uint64_t *frame, uint32_t channel)
{
    int64_t numbers[MFER_NUMBERS], numbers_asked[MFER_NUMBERS], whole;
    uint64_t bits[2], bits_asked[2], below = UNSET, place = UNSET, declared, samples, i;
    uint64_t out[7], out_asked[7], count = UNSET, count_asked, first;
    uint32_t kind, refusal, behind;

    EXPECT(mfer_walk_channel(walk, channel, numbers, bits, &below, &place) == MFER_OK);
    EXPECT(place == 0);
    EXPECT(mfer_attributes(file, file_len, number, channel, numbers_asked, bits_asked, &place) ==
           MFER_OK);
    EXPECT(memcmp(numbers, numbers_asked, sizeof numbers) == 0);
    EXPECT(memcmp(bits, bits_asked, sizeof bits) == 0);

    declared = (uint64_t)(numbers[MFER_NUMBER_SEQUENCES] * numbers[MFER_NUMBER_BLOCK]);
    samples = samples_there(file, file_len, number, channel);
    place = UNSET;
    EXPECT(mfer_walk_samples_there(walk, channel, &count, &place) == MFER_OK);
    EXPECT(count == samples && place == 0 && samples <= declared);
    behind = samples < declared ? MFER_OK : MFER_NO_SAMPLE;
    for (i = 0; i < samples; i++) {
        uint64_t at = place_of(frame, numbers, below, i), width = (uint64_t)numbers[MFER_NUMBER_WIDTH];
        EXPECT(mfer_sample(file, file_len, number, channel, i, &place, &kind, &whole, bits_asked) ==
               MFER_OK);
        EXPECT(place == at && kind <= MFER_NULL);
        EXPECT(at + width <= frame[MFER_FRAME_PLACE] + frame[MFER_FRAME_LENGTH]);
        EXPECT(bits_asked[0] == bits_of(file + at, width, frame[MFER_FRAME_LITTLE] == 1));
    }
    if (samples < declared) {
        expect_no_data(file, file_len, number, channel, samples);
        expect_no_data(file, file_len, number, channel, declared - 1);
    }

    /* In pieces of 7, up to the last sample there. */
    first = 0;
    do {
        place = UNSET;
        memset(out, 0xA5, sizeof out);
        memset(out_asked, 0xA5, sizeof out_asked);
        refusal = mfer_walk_samples(file, file_len, walk, channel, first, out, SIZE(out), &count, &place);
        EXPECT(place == 0);
        EXPECT(mfer_samples(file, file_len, number, channel, first, out_asked, SIZE(out_asked),
                            &count_asked, &place) == refusal);
        EXPECT(count == count_asked && memcmp(out, out_asked, sizeof out) == 0);
        first += count;
    } while (refusal == MFER_OK && count > 0);
    EXPECT(refusal == behind && first == samples);
    same_values(file, file_len, walk, number, channel, samples, behind);
    expect_walk_lacks(file, file_len, walk, channel, declared, MFER_NO_SAMPLE);
    expect_walk_lacks(file, file_len, walk, channel, UINT64_MAX, MFER_NO_SAMPLE);
    if (samples > 0) {
        EXPECT(mfer_walk_samples(file, file_len, walk, channel, 0, NULL, 0, &count, &place) == MFER_OK);
        EXPECT(count == 0 && place == 0);
    }
}

/* All samples of a frame are the `samples` words at `expected`: as many of them as fit are told in a buffer
   of this length, whose memory ends with it. */
static void expect_frame(const uint8_t *file, size_t file_len, const uint64_t *walk,
                         const uint64_t *expected, size_t samples, size_t room)
{
    uint64_t *out = (uint64_t *)malloc(room * sizeof *out);
    uint64_t count = UNSET, place = UNSET;
    size_t told = samples <= room ? samples : room, i;

    for (i = 0; i < room; i++)
        out[i] = UNSET;
    EXPECT(mfer_walk_frame(file, file_len, walk, out, room, &count, &place) == MFER_OK);
    EXPECT(count == told && place == 0);
    for (i = 0; i < room; i++)
        EXPECT(out[i] == (i < told ? expected[i] : UNSET));
    free(out);
}

/* All samples of a frame by the walk are what mfer_samples tells of one channel after another. */
static void same_frame(const uint8_t *file, size_t file_len, const uint64_t *walk, uint32_t number,
                       const uint64_t *frame)
{
    const size_t room = (size_t)frame[MFER_FRAME_LENGTH] + 1;
    uint64_t *expected = (uint64_t *)malloc(room * sizeof *expected);
    uint64_t count, place;
    size_t samples = 0;
    uint32_t channel;

    for (channel = 0; channel < frame[MFER_FRAME_CHANNELS]; channel++)
        if (mfer_samples(file, file_len, number, channel, 0, expected + samples, room - samples, &count,
                         &place) == MFER_OK)
            samples += (size_t)count;
    EXPECT(samples < room);
    expect_frame(file, file_len, walk, expected, samples, samples);
    expect_frame(file, file_len, walk, expected, samples, samples + 3);
    expect_frame(file, file_len, walk, expected, samples, room - 1);
    if (samples > 0) {
        expect_frame(file, file_len, walk, expected, samples, samples - 1);
        expect_frame(file, file_len, walk, expected, samples, samples / 2);
    }
    count = place = UNSET;
    EXPECT(mfer_walk_frame(file, file_len, walk, NULL, 0, &count, &place) == MFER_OK);
    EXPECT(count == 0 && place == 0);
    free(expected);
}

/* All of a file by the walk is what the single questions tell. The walk's array is not set before. */
static void same_by_walk(const uint8_t *file, size_t file_len)
{
    uint64_t *walk = (uint64_t *)malloc(MFER_WALK * sizeof *walk);
    uint64_t frames = UNSET, frames_asked, place = UNSET, frame[MFER_FRAME_NUMBERS];
    int64_t start;
    uint32_t number, channel;

    EXPECT(mfer_walk_open(file, file_len, walk, &frames, &place) == MFER_OK);
    EXPECT(place == 0);
    EXPECT(mfer_check(file, file_len, &frames_asked, &place) == MFER_OK && frames == frames_asked);
    expect_walk_lacks(file, file_len, walk, 0, 0, MFER_NO_FRAME);
    for (number = 0; number < frames; number++) {
        int64_t numbers[MFER_NUMBERS];
        uint64_t bits[2];
        start = 99;
        place = UNSET;
        EXPECT(mfer_walk_next(file, file_len, walk, &start, frame, &place) == MFER_OK);
        EXPECT(place == 0);
        EXPECT(mfer_attributes(file, file_len, number, 0, numbers, bits, &place) == MFER_OK);
        EXPECT(start == numbers[MFER_NUMBER_START]);
        EXPECT(frame[MFER_FRAME_CHANNELS] == (uint64_t)numbers[MFER_NUMBER_CHANNELS]);
        EXPECT(frame[MFER_FRAME_SEQUENCES] == (uint64_t)numbers[MFER_NUMBER_SEQUENCES]);
        EXPECT(frame[MFER_FRAME_LITTLE] <= 1);
        EXPECT(frame[MFER_FRAME_PLACE] + frame[MFER_FRAME_LENGTH] <= file_len);
        for (channel = 0; channel < frame[MFER_FRAME_CHANNELS]; channel++)
            same_channel(file, file_len, walk, number, frame, channel);
        same_frame(file, file_len, walk, number, frame);
        expect_walk_lacks(file, file_len, walk, channel, 0, MFER_NO_CHANNEL);
        expect_walk_lacks(file, file_len, walk, UINT32_MAX, UINT64_MAX, MFER_NO_CHANNEL);
    }
    for (number = 0; number < 3; number++) {
        expect_walk_end(file, file_len, walk);
        expect_walk_lacks(file, file_len, walk, 0, 0, MFER_NO_FRAME);
    }
    free(walk);
}

/* A file of so many frames, and its length: each has two channels, and settings of its own. */
static uint8_t *many_frames(size_t frames, size_t *length)
{
    static const uint8_t head[] = {0x01, 1, 1, 0x05, 1, 2};
    const size_t each = 15;
    uint8_t *file = (uint8_t *)malloc(sizeof head + frames * each);
    size_t i;
    memcpy(file, head, sizeof head);
    for (i = 0; i < frames; i++) {
        uint8_t one[15] = {0x3F, 1, 3, 0x09, 1, 0, 0x0A, 1, 0, 0x1E, 4, 0, 0x80, 0xFF, 0};
        one[5] = (uint8_t)i;
        one[8] = (uint8_t)(i % 2 == 0 ? MFER_TYPE_SIGNED_16 : MFER_TYPE_UNSIGNED_8);
        one[11] = (uint8_t)(i / 256);
        one[14] = (uint8_t)(7 * i);
        memcpy(file + sizeof head + i * each, one, each);
    }
    *length = sizeof head + frames * each;
    return file;
}

static void walk_tells_the_same(void)
{
    static const uint8_t p3[] = {0x1E, 0x00};
    static const uint8_t p5[] = {0x3F, 0x00, 0x03, 0x0A, 0x01, 0x03, 0x1E, 0x02, 0x00, 0x09};
    static const uint8_t p11[] = {0x05, 0x02, 0x01, 0x00, 0x3F, 0x81, 0x7F, 0x03, 0x0A, 0x01, 0x03};
    size_t length;
    uint8_t *file = many_frames(100, &length);
    same_by_walk(NULL, 0);
    same_by_walk(P2, sizeof P2);
    same_by_walk(p3, sizeof p3);
    same_by_walk(P4, sizeof P4);
    same_by_walk(p5, sizeof p5);
    same_by_walk(p11, sizeof p11);
    same_by_walk(P2_CANONICAL, sizeof P2_CANONICAL);
    same_by_walk(FLOATS, sizeof FLOATS);
    same_by_walk(LASTING, sizeof LASTING);
    same_by_walk(BLOCKS, sizeof BLOCKS);
    same_by_walk(P9, sizeof P9);
    same_by_walk(DECLARED, sizeof DECLARED);
    same_by_walk(file, length);
    free(file);
}

/*
 * Blocks of 2, 1 and 3 samples of 2, 1 and 4 octets, two sequences of 17 octets, and null bits that are 0 in
 * the last channel: the waveform ends after each octet, a frame of one octet comes behind it. The memory of
 * the file and of what is written ends with them.
 */
static void waveforms_cut_after_each_octet(void)
{
    static const uint8_t head[] = {0x01, 1,    0,    0x05, 1, 3,    0x06, 1, 2, 0x3F, 0,    3,    0x04, 1, 2,
                                   0x3F, 1,    3,    0x0A, 1, 3,    0x3F, 2, 12, 0x04, 1,   3,    0x0A, 1, 6,
                                   0x12, 4,    0,    0,    0, 0,    0x1E};
    static const uint8_t behind[] = {0x05, 0, 0x06, 0, 0x0A, 1, 3, 0x1E, 1, 99};
    static const uint64_t starts[] = {0, 2, 4, 5, 9, 13}, widths[] = {2, 2, 1, 4, 4, 4};
    static const uint32_t channels[] = {0, 0, 1, 2, 2, 2};
    size_t length, little, i;
    for (length = 0; length <= 40; length++)
        for (little = 0; little < 2; little++) {
            const size_t file_len = sizeof head + 1 + length + sizeof behind;
            uint8_t *file = (uint8_t *)malloc(file_len), *out;
            uint64_t there[3] = {0, 0, 0}, canonical_len, written, place, again_len;
            memcpy(file, head, sizeof head);
            file[2] = (uint8_t)little;
            file[sizeof head] = (uint8_t)length;
            for (i = 0; i < length; i++)
                file[sizeof head + 1 + i] = (uint8_t)(i < 25 ? i + 1 : 0);
            memcpy(file + sizeof head + 1 + length, behind, sizeof behind);
            for (i = 0; i < 12; i++)
                there[channels[i % 6]] += i / 6 * 17 + starts[i % 6] + widths[i % 6] <= length;
            expect_check(file, file_len, MFER_OK, 2, 0);
            for (i = 0; i < 3; i++)
                EXPECT(samples_there(file, file_len, 0, (uint32_t)i) == there[i]);
            EXPECT(samples_there(file, file_len, 1, 0) == 1);
            same_by_walk(file, file_len);

            EXPECT(mfer_canonical_length(file, file_len, &canonical_len, &place) == MFER_OK);
            out = (uint8_t *)malloc((size_t)canonical_len);
            EXPECT(mfer_canonical(file, file_len, out, (size_t)canonical_len, &written, &place) == MFER_OK);
            EXPECT(written == canonical_len);
            for (i = 0; i < 3; i++)
                EXPECT(samples_there(out, (size_t)written, 0, (uint32_t)i) == there[i]);
            EXPECT(mfer_canonical_length(out, (size_t)written, &again_len, &place) == MFER_OK);
            EXPECT(again_len == written);
            same_by_walk(out, (size_t)written);
            free(out);
            free(file);
        }
}

static void walk_numbers(void)
{
    static const uint64_t first[MFER_FRAME_NUMBERS] = {3, 2, 0, 20, 13, 6};
    static const uint64_t second[MFER_FRAME_NUMBERS] = {1, 2, 0, 40, 2, 1};
    static const uint64_t little[MFER_FRAME_NUMBERS] = {2, 1, 1, 17, 6, 6};
    uint64_t walk[MFER_WALK], frames, frame[MFER_FRAME_NUMBERS], place, bits[2], below, out[4], count;
    int64_t start, numbers[MFER_NUMBERS];

    EXPECT(mfer_walk_open(BLOCKS, sizeof BLOCKS, walk, &frames, &place) == MFER_OK && frames == 3);
    EXPECT(mfer_walk_next(BLOCKS, sizeof BLOCKS, walk, &start, frame, &place) == MFER_OK);
    EXPECT(start == 0 && memcmp(frame, first, sizeof frame) == 0);
    EXPECT(mfer_walk_channel(walk, 2, numbers, bits, &below, &place) == MFER_OK);
    EXPECT(below == 3 && numbers[MFER_NUMBER_BLOCK] == 3);
    EXPECT(mfer_walk_samples(BLOCKS, sizeof BLOCKS, walk, 2, 1, out, 4, &count, &place) == MFER_OK);
    EXPECT(count == 4 && out[0] == 4 && out[1] == 5 && out[2] == 9 && out[3] == 10);
    EXPECT(mfer_walk_next(BLOCKS, sizeof BLOCKS, walk, &start, frame, &place) == MFER_OK);
    EXPECT(start == -5 && memcmp(frame, second, sizeof frame) == 0);
    EXPECT(mfer_walk_open(P2, sizeof P2, walk, &frames, &place) == MFER_OK && frames == 1);
    EXPECT(mfer_walk_next(P2, sizeof P2, walk, &start, frame, &place) == MFER_OK);
    EXPECT(start == 0 && memcmp(frame, little, sizeof frame) == 0);
}

/* Each kind of value by a walk; the shorter buffer decides how many. */
static void walk_values(void)
{
    uint64_t walk[MFER_WALK], frames, frame[MFER_FRAME_NUMBERS], place = UNSET, count = UNSET;
    int64_t start, wholes[4];
    uint8_t kinds[4];

    EXPECT(mfer_walk_open(FLOATS, sizeof FLOATS, walk, &frames, &place) == MFER_OK);
    EXPECT(mfer_walk_next(FLOATS, sizeof FLOATS, walk, &start, frame, &place) == MFER_OK);
    memset(kinds, 0xA5, sizeof kinds);
    memset(wholes, 0xA5, sizeof wholes);
    place = UNSET;
    EXPECT(mfer_walk_values(FLOATS, sizeof FLOATS, walk, 0, 0, kinds, 4, wholes, 2, &count, &place) ==
           MFER_OK);
    EXPECT(count == 2 && place == 0);
    EXPECT(kinds[0] == MFER_NULL && kinds[1] == MFER_NOT_NUMBER && kinds[2] == 0xA5);
    EXPECT(wholes[0] == 0 && wholes[1] == 0 && (uint64_t)wholes[2] == UNSET);
    EXPECT(mfer_walk_values(FLOATS, sizeof FLOATS, walk, 0, 2, kinds, 1, wholes, 4, &count, &place) ==
           MFER_OK);
    EXPECT(count == 1 && kinds[0] == MFER_SINGLE && kinds[1] == MFER_NOT_NUMBER);
    EXPECT(wholes[0] == 0 && (uint64_t)wholes[2] == UNSET);
    EXPECT(mfer_walk_next(FLOATS, sizeof FLOATS, walk, &start, frame, &place) == MFER_OK);
    EXPECT(mfer_walk_values(FLOATS, sizeof FLOATS, walk, 0, 0, kinds, 4, wholes, 4, &count, &place) ==
           MFER_OK);
    EXPECT(count == 1 && kinds[0] == MFER_DOUBLE && wholes[0] == 0);

    EXPECT(mfer_walk_open(P2, sizeof P2, walk, &frames, &place) == MFER_OK);
    EXPECT(mfer_walk_next(P2, sizeof P2, walk, &start, frame, &place) == MFER_OK);
    EXPECT(mfer_walk_values(P2, sizeof P2, walk, 1, 0, kinds, 4, wholes, 4, &count, &place) == MFER_OK);
    EXPECT(count == 1 && kinds[0] == MFER_WHOLE && wholes[0] == -1);
    EXPECT(mfer_walk_values(P2, sizeof P2, walk, 0, 0, kinds, 4, NULL, 0, &count, &place) == MFER_OK);
    EXPECT(count == 0 && place == 0);
    EXPECT(mfer_walk_values(P2, sizeof P2, walk, 0, 0, NULL, 0, wholes, 4, &count, &place) == MFER_OK);
    EXPECT(count == 0 && place == 0 && wholes[0] == -1);
}

/* Of samples that are declared and not there a walk writes nothing, and of no such sample it says so. */
static void walk_to_samples_not_there(void)
{
    const uint64_t declared = (uint64_t)UINT32_MAX << 20;
    const uint64_t firsts[] = {2, 3, declared / 2, declared - 1};
    uint64_t walk[MFER_WALK], frames, frame[MFER_FRAME_NUMBERS], place, count, out[3];
    int64_t start, wholes[VALUES];
    uint8_t kinds[VALUES];
    size_t i, j;

    EXPECT(mfer_walk_open(DECLARED, sizeof DECLARED, walk, &frames, &place) == MFER_OK && frames == 1);
    EXPECT(mfer_walk_next(DECLARED, sizeof DECLARED, walk, &start, frame, &place) == MFER_OK);
    EXPECT(frame[MFER_FRAME_SEQUENCES] == UINT32_MAX && frame[MFER_FRAME_LENGTH] == 4);
    EXPECT(frame[MFER_FRAME_OCTETS] == (uint64_t)1 << 29);
    for (i = 0; i < SIZE(firsts); i++) {
        memset(out, 0xA5, sizeof out);
        count = place = UNSET;
        EXPECT(mfer_walk_samples(DECLARED, sizeof DECLARED, walk, 0, firsts[i], out, SIZE(out), &count,
                                 &place) == MFER_OK);
        EXPECT(count == 0 && place == 0);
        for (j = 0; j < SIZE(out); j++)
            EXPECT(out[j] == UNSET);
        unset_values(kinds, wholes);
        count = place = UNSET;
        EXPECT(mfer_walk_values(DECLARED, sizeof DECLARED, walk, 0, firsts[i], kinds, VALUES, wholes, VALUES,
                                &count, &place) == MFER_OK);
        EXPECT(count == 0 && place == 0);
        expect_unset_values(kinds, wholes);
    }
    expect_walk_lacks(DECLARED, sizeof DECLARED, walk, 0, declared, MFER_NO_SAMPLE);
    expect_walk_lacks(DECLARED, sizeof DECLARED, walk, 255, declared, MFER_NO_SAMPLE);
}

/* Channel after channel, each sample with its bits, and a frame of no sequences. */
static void walk_frame(void)
{
    static const uint64_t blocks[] = {0, 1, 6, 7, 2, 8, 3, 4, 5, 9, 10, 11};
    static const uint64_t one[] = {0xFF, 0x80}, little[] = {1, 2, 0xFFFF};
    static const uint64_t singles[] = {0x80000000u, 0x7FC00001u, 0x3F800000u};
    static const uint64_t doubles[] = {0xFFF0000000000000u}, cut[] = {5}, declared[] = {1, 2};
    uint64_t walk[MFER_WALK], frames, frame[MFER_FRAME_NUMBERS], place;
    int64_t start;
    size_t room;

    EXPECT(mfer_walk_open(BLOCKS, sizeof BLOCKS, walk, &frames, &place) == MFER_OK);
    EXPECT(mfer_walk_next(BLOCKS, sizeof BLOCKS, walk, &start, frame, &place) == MFER_OK);
    for (room = 0; room < 20; room++)
        expect_frame(BLOCKS, sizeof BLOCKS, walk, blocks, SIZE(blocks), room);
    EXPECT(mfer_walk_next(BLOCKS, sizeof BLOCKS, walk, &start, frame, &place) == MFER_OK);
    for (room = 0; room < 5; room++)
        expect_frame(BLOCKS, sizeof BLOCKS, walk, one, SIZE(one), room);
    EXPECT(mfer_walk_next(BLOCKS, sizeof BLOCKS, walk, &start, frame, &place) == MFER_OK);
    for (room = 0; room < 3; room++)
        expect_frame(BLOCKS, sizeof BLOCKS, walk, NULL, 0, room);

    EXPECT(mfer_walk_open(P2, sizeof P2, walk, &frames, &place) == MFER_OK);
    EXPECT(mfer_walk_next(P2, sizeof P2, walk, &start, frame, &place) == MFER_OK);
    expect_frame(P2, sizeof P2, walk, little, SIZE(little), 3);
    EXPECT(mfer_walk_open(FLOATS, sizeof FLOATS, walk, &frames, &place) == MFER_OK);
    EXPECT(mfer_walk_next(FLOATS, sizeof FLOATS, walk, &start, frame, &place) == MFER_OK);
    expect_frame(FLOATS, sizeof FLOATS, walk, singles, SIZE(singles), 4);
    EXPECT(mfer_walk_next(FLOATS, sizeof FLOATS, walk, &start, frame, &place) == MFER_OK);
    expect_frame(FLOATS, sizeof FLOATS, walk, doubles, SIZE(doubles), 4);

    EXPECT(mfer_walk_open(P9, sizeof P9, walk, &frames, &place) == MFER_OK);
    EXPECT(mfer_walk_next(P9, sizeof P9, walk, &start, frame, &place) == MFER_OK);
    for (room = 0; room < 3; room++)
        expect_frame(P9, sizeof P9, walk, cut, SIZE(cut), room);
    EXPECT(mfer_walk_open(DECLARED, sizeof DECLARED, walk, &frames, &place) == MFER_OK);
    EXPECT(mfer_walk_next(DECLARED, sizeof DECLARED, walk, &start, frame, &place) == MFER_OK);
    for (room = 0; room < 5; room++)
        expect_frame(DECLARED, sizeof DECLARED, walk, declared, SIZE(declared), room);
}

/* As many frames as there may be, of as many channels. */
static void walk_over_the_most_frames(void)
{
    static const uint8_t head[] = {0x05, 2, 1, 0};
    size_t i, length = sizeof head + 2 * MFER_MAX_FRAMES;
    uint8_t *file = (uint8_t *)malloc(length);
    uint64_t walk[MFER_WALK], frames = 0, place, frame[MFER_FRAME_NUMBERS], met = 0, bits[2], below;
    uint64_t count;
    int64_t start, numbers[MFER_NUMBERS];
    memcpy(file, head, sizeof head);
    for (i = sizeof head; i < length; i += 2) {
        file[i] = 0x1E;
        file[i + 1] = 0;
    }
    EXPECT(mfer_walk_open(file, length, walk, &frames, &place) == MFER_OK);
    EXPECT(frames == MFER_MAX_FRAMES);
    while (mfer_walk_next(file, length, walk, &start, frame, &place) == MFER_OK) {
        EXPECT(frame[MFER_FRAME_CHANNELS] == MFER_MAX_CHANNELS && frame[MFER_FRAME_OCTETS] == 512);
        EXPECT(mfer_walk_channel(walk, 255, numbers, bits, &below, &place) == MFER_OK && below == 510);
        count = UNSET;
        EXPECT(mfer_walk_frame(file, length, walk, NULL, 0, &count, &place) == MFER_OK && count == 0);
        met++;
    }
    EXPECT(met == frames);
    expect_walk_end(file, length, walk);
    free(file);
}

/* A copy goes on by itself, and so does a walk that is opened again. */
static void walk_copied(void)
{
    uint64_t walk[MFER_WALK], copy[MFER_WALK], frames, place, bits, count;
    uint64_t frame[MFER_FRAME_NUMBERS], frame_of_copy[MFER_FRAME_NUMBERS];
    int64_t start, start_of_copy;
    EXPECT(mfer_walk_open(LASTING, sizeof LASTING, walk, &frames, &place) == MFER_OK && frames == 2);
    EXPECT(mfer_walk_next(LASTING, sizeof LASTING, walk, &start, frame, &place) == MFER_OK);
    memcpy(copy, walk, sizeof copy);
    EXPECT(mfer_walk_next(LASTING, sizeof LASTING, walk, &start, frame, &place) == MFER_OK);
    EXPECT(mfer_walk_samples(LASTING, sizeof LASTING, walk, 0, 0, &bits, 1, &count, &place) == MFER_OK);
    EXPECT(bits == 3);
    EXPECT(mfer_walk_samples(LASTING, sizeof LASTING, copy, 0, 0, &bits, 1, &count, &place) == MFER_OK);
    EXPECT(bits == 1);
    expect_walk_end(LASTING, sizeof LASTING, walk);
    EXPECT(mfer_walk_next(LASTING, sizeof LASTING, copy, &start_of_copy, frame_of_copy, &place) == MFER_OK);
    EXPECT(start == start_of_copy && memcmp(frame, frame_of_copy, sizeof frame) == 0);
    EXPECT(mfer_walk_open(P4, sizeof P4, copy, &frames, &place) == MFER_OK && frames == 1);
    expect_walk_lacks(P4, sizeof P4, copy, 0, 0, MFER_NO_FRAME);
    EXPECT(mfer_walk_next(P4, sizeof P4, copy, &start, frame, &place) == MFER_OK);
    expect_walk_end(P4, sizeof P4, copy);
}

/* A file that is not the one that was opened: its next item is refused, or the samples do not lie in
   it. */
static void walk_over_another_file(void)
{
    static const uint8_t bad[] = {0x0A, 0x80};
    uint64_t walk[MFER_WALK], frames, place, frame[MFER_FRAME_NUMBERS], count;
    int64_t start;
    size_t i;
    EXPECT(mfer_walk_open(P2, sizeof P2, walk, &frames, &place) == MFER_OK);
    EXPECT(mfer_walk_next(bad, sizeof bad, walk, &start, frame, &place) == MFER_LENGTH_OCTET);
    EXPECT(start == 0 && place == 0 && frame[MFER_FRAME_CHANNELS] == 0);
    expect_walk_lacks(P2, sizeof P2, walk, 0, 0, MFER_NO_FRAME);
    EXPECT(mfer_walk_open(P2, sizeof P2, walk, &frames, &place) == MFER_OK);
    EXPECT(mfer_walk_next(P2, sizeof P2, walk, &start, frame, &place) == MFER_OK);
    for (i = 0; i < sizeof P2; i++) {
        expect_walk_lacks_samples(P2, i, walk, 0, 0, MFER_NO_FRAME);
        expect_walk_lacks_samples(P2, i, walk, 0, 2, MFER_NO_SAMPLE);
        expect_walk_lacks_frame(P2, i, walk, MFER_NO_FRAME);
    }
    expect_walk_end(NULL, 0, walk);
    /* A sample that is there, one that is declared and not there, and no such sample. */
    EXPECT(mfer_walk_open(P9, sizeof P9, walk, &frames, &place) == MFER_OK);
    EXPECT(mfer_walk_next(P9, sizeof P9, walk, &start, frame, &place) == MFER_OK);
    for (i = 0; i < sizeof P9; i++) {
        expect_walk_lacks_samples(P9, i, walk, 0, 0, MFER_NO_FRAME);
        expect_walk_lacks_samples(P9, i, walk, 0, 1, MFER_NO_FRAME);
        expect_walk_lacks_samples(P9, i, walk, 0, 2, MFER_NO_SAMPLE);
        expect_walk_lacks_frame(P9, i, walk, MFER_NO_FRAME);
    }
    EXPECT(mfer_walk_samples_there(walk, 0, &count, &place) == MFER_OK && count == 1);
}

/* Numbers that look random, the same in every run. */
static uint64_t state = 88172645463325252u;

static uint64_t random_number(void)
{
    state ^= state << 13;
    state ^= state >> 7;
    state ^= state << 17;
    return state;
}

/* Mostly small, so that it often is a place or a channel that there is; else at an end of a range, or
   any number. */
static uint64_t random_word(void)
{
    static const uint64_t ends[] = {UINT64_MAX,  UINT64_MAX - 1, (uint64_t)1 << 63, ((uint64_t)1 << 63) - 1,
                                    UINT32_MAX,  (uint64_t)1 << 32, (uint64_t)1 << 31, MFER_MAX_OCTETS,
                                    MFER_MAX_BLOCK, MFER_MAX_FRAMES, 256, 255};
    uint64_t number = random_number();
    switch (number >> 61) {
    case 0: return number;
    case 1: return ends[number % SIZE(ends)];
    case 2: return number % 1000;
    case 3: return number % 50;
    default: return number % 4;
    }
}

/* Whatever the words are: values are told, as many of them, or refused just as the samples are. The
   buffers' memory ends with them. */
static void expect_safe_values(const uint8_t *file, size_t file_len, const uint64_t *walk,
                               uint32_t channel, uint64_t first, uint32_t refusal, uint64_t samples)
{
    const size_t room = 40;
    uint8_t *kinds = (uint8_t *)malloc(room);
    int64_t *wholes = (int64_t *)malloc(room * sizeof *wholes);
    uint64_t count = UNSET, place = UNSET, i;

    memset(kinds, 0xA5, room);
    memset(wholes, 0xA5, room * sizeof *wholes);
    EXPECT(mfer_walk_values(file, file_len, walk, channel, first, kinds, room, wholes, room, &count,
                            &place) == refusal);
    EXPECT(count == samples && place == 0);
    for (i = 0; i < count; i++)
        EXPECT(kinds[i] <= MFER_NULL && (kinds[i] == MFER_WHOLE || wholes[i] == 0));
    for (i = count; i < room; i++)
        EXPECT(kinds[i] == 0xA5 && (uint64_t)wholes[i] == UNSET);
    free(wholes);
    free(kinds);
}

/*
 * Whatever the words are: the samples that are told of lie in the file. `frame` is null where the walk's
 * last step is not known.
 */
static void expect_safe(const uint8_t *file, size_t file_len, const uint64_t *walk, uint32_t channel,
                        const uint64_t *frame)
{
    const size_t room = 40;
    uint64_t *out = (uint64_t *)malloc(room * sizeof *out);
    int64_t numbers[MFER_NUMBERS];
    uint64_t bits[2], below = UNSET, place = UNSET, count = UNSET, first = random_word() % 100, i;
    uint32_t known = mfer_walk_channel(walk, channel, numbers, bits, &below, &place), refusal;

    EXPECT(known == MFER_OK || known == MFER_NO_FRAME || known == MFER_NO_CHANNEL);
    EXPECT(place == 0);
    place = UNSET;
    EXPECT(mfer_walk_samples_there(walk, channel, &count, &place) == known && place == 0);
    EXPECT(known == MFER_OK || count == 0);
    place = UNSET;
    memset(out, 0xA5, room * sizeof *out);
    refusal = mfer_walk_samples(file, file_len, walk, channel, first, out, room, &count, &place);
    EXPECT(place == 0 && count <= room);
    if (known != MFER_OK)
        EXPECT(refusal == known);
    else
        EXPECT(refusal == MFER_OK || refusal == MFER_NO_FRAME || refusal == MFER_NO_SAMPLE);
    if (refusal == MFER_OK && frame != NULL) {
        uint64_t width = (uint64_t)numbers[MFER_NUMBER_WIDTH];
        for (i = 0; i < count; i++) {
            uint64_t there = place_of(frame, numbers, below, first + i);
            EXPECT(there + width <= file_len);
            EXPECT(out[i] == bits_of(file + there, width, frame[MFER_FRAME_LITTLE] == 1));
        }
    }
    for (i = count; i < room; i++)
        EXPECT(out[i] == UNSET);
    free(out);
    expect_safe_values(file, file_len, walk, channel, first, refusal, count);
}

/*
 * All samples by the walk's questions for each channel, channel after channel: as many as fit in a buffer
 * with this room, or the refusal. Of a channel with no sample there they do not tell whether it is refused;
 * then *certain is 0.
 */
static uint32_t channel_by_channel(const uint8_t *file, size_t file_len, const uint64_t *walk,
                                   uint64_t *out, size_t room, size_t *samples, int *certain)
{
    int64_t numbers[MFER_NUMBERS];
    uint64_t bits[2], below, place, there, count;
    uint32_t channel = 0, refusal;

    *samples = 0;
    *certain = 1;
    if (mfer_walk_channel(walk, 0, numbers, bits, &below, &place) != MFER_OK ||
        numbers[MFER_NUMBER_CHANNELS] > (int64_t)MFER_MAX_CHANNELS)
        return MFER_NO_FRAME;
    while (mfer_walk_channel(walk, channel, numbers, bits, &below, &place) == MFER_OK) {
        refusal = mfer_walk_samples(file, file_len, walk, channel, 0, out + *samples, room - *samples,
                                    &count, &place);
        if (refusal == MFER_NO_FRAME)
            return MFER_NO_FRAME;
        EXPECT(mfer_walk_samples_there(walk, channel, &there, &place) == MFER_OK);
        if (there == 0)
            *certain = 0;
        *samples += (size_t)count;
        channel++;
    }
    return MFER_OK;
}

/* How often samples of a frame of any words were told. */
static int swept;

/* Whatever the words are: all samples of the frame are what the questions for each channel tell. The
   buffer's memory ends with it. */
static void expect_safe_frame(const uint8_t *file, size_t file_len, const uint64_t *walk, size_t room)
{
    uint64_t *out = (uint64_t *)malloc(room * sizeof *out);
    uint64_t *expected = (uint64_t *)malloc(room * sizeof *expected);
    uint64_t count = UNSET, place = UNSET;
    size_t samples, i;
    int certain;
    uint32_t known = channel_by_channel(file, file_len, walk, expected, room, &samples, &certain), refusal;

    for (i = 0; i < room; i++)
        out[i] = UNSET;
    refusal = mfer_walk_frame(file, file_len, walk, out, room, &count, &place);
    EXPECT(refusal == known || (refusal == MFER_NO_FRAME && !certain));
    if (refusal != MFER_OK)
        samples = 0;
    EXPECT(count == samples && place == 0);
    for (i = 0; i < room; i++)
        EXPECT(out[i] == (i < samples ? expected[i] : UNSET));
    swept += samples > 0;
    free(expected);
    free(out);
}

/* Goes on from any words for some steps. How many steps told of a frame. */
static int goes_on_safely(const uint8_t *file, size_t file_len, uint64_t *walk)
{
    uint64_t frame[MFER_FRAME_NUMBERS], place;
    int64_t start;
    int step, told = 0;
    expect_safe(file, file_len, walk, (uint32_t)random_word(), NULL);
    expect_safe_frame(file, file_len, walk, 40);
    for (step = 0; step < 3; step++) {
        uint32_t refusal = mfer_walk_next(file, file_len, walk, &start, frame, &place);
        EXPECT(refusal <= MFER_LONG_FILE || refusal == MFER_NO_FRAME);
        if (refusal != MFER_OK) {
            EXPECT(start == 0 && frame[MFER_FRAME_CHANNELS] == 0);
            expect_walk_lacks(file, file_len, walk, 0, 0, MFER_NO_FRAME);
            return told;
        }
        EXPECT(frame[MFER_FRAME_PLACE] + frame[MFER_FRAME_LENGTH] <= file_len);
        told++;
        expect_safe(file, file_len, walk, (uint32_t)random_word(), frame);
        expect_safe(file, file_len, walk, 0, frame);
        expect_safe_frame(file, file_len, walk, 40);
        expect_safe_frame(file, file_len, walk, random_number() % 8);
    }
    return told;
}

/* From words that are all random to words that are nearly all 0. The file's memory ends with it. */
static void walk_of_any_words(void)
{
    size_t length, i;
    uint8_t *file = many_frames(20, &length);
    uint64_t *walk = (uint64_t *)malloc(MFER_WALK * sizeof *walk);
    int round, told = 0;
    swept = 0;
    for (i = 0; i < MFER_WALK; i++)
        walk[i] = random_word();
    for (round = 0; round < 10000; round++) {
        for (i = 0; i < 200; i++)
            walk[i] = (random_number() >> 32) % (1u << round % 6) == 0 ? random_word() : 0;
        for (i = 0; i < 100; i++)
            walk[random_number() % MFER_WALK] = random_word();
        told += goes_on_safely(file, length, walk);
    }
    EXPECT(told > 100 && swept > 100);
    free(walk);
    free(file);
}

/* The walk begins in words that are 0: a changed one may lead to some that the walk has not set. */
static void walk_with_one_word_changed(void)
{
    size_t length;
    uint8_t *file = many_frames(20, &length);
    uint64_t *walk = (uint64_t *)calloc(MFER_WALK, sizeof *walk);
    uint64_t *changed = (uint64_t *)malloc(MFER_WALK * sizeof *changed);
    uint64_t frames, place, frame[MFER_FRAME_NUMBERS];
    int64_t start;
    int round, told = 0;
    swept = 0;
    for (round = 0; round < 10000; round++) {
        if (round % 20 == 0)
            EXPECT(mfer_walk_open(file, length, walk, &frames, &place) == MFER_OK && frames == 20);
        memcpy(changed, walk, MFER_WALK * sizeof *changed);
        changed[random_number() % (round % 10 == 0 ? MFER_WALK : 96)] = random_word();
        told += goes_on_safely(file, length, changed);
        EXPECT(mfer_walk_next(file, length, walk, &start, frame, &place) == MFER_OK);
    }
    EXPECT(told > 1000 && swept > 1000);
    free(changed);
    free(walk);
    free(file);
}

/* The length is what the writer answers, and the least room in which it does. */
static void canonical_length(void)
{
    uint8_t out[256];
    uint64_t length = UNSET, written = UNSET, place = UNSET;
    expect_canonical_length(P2, sizeof P2, MFER_OK, sizeof P2_CANONICAL, 0);
    expect_canonical_length(P2_CANONICAL, sizeof P2_CANONICAL, MFER_OK, sizeof P2_CANONICAL, 0);
    expect_canonical_length(P6, sizeof P6, MFER_CHANNEL_NUMBER, 0, 3);
    expect_canonical_length(P9, sizeof P9, MFER_OK, 67, 0);
    EXPECT(mfer_canonical_length(FLOATS, sizeof FLOATS, &length, &place) == MFER_OK);
    EXPECT(length <= sizeof out);
    EXPECT(mfer_canonical(FLOATS, sizeof FLOATS, out, (size_t)length, &written, &place) == MFER_OK);
    EXPECT(written == length);
    expect_canonical_refusal(FLOATS, sizeof FLOATS, (size_t)length - 1, MFER_NO_ROOM, 0);
}

static void canonical(void)
{
    uint8_t out[128];
    uint64_t written = UNSET, place = UNSET;
    size_t i;
    memset(out, 0xA5, sizeof out);
    EXPECT(mfer_canonical(P2, sizeof P2, out, sizeof out, &written, &place) == MFER_OK);
    EXPECT(written == 113 && place == 0);
    EXPECT(memcmp(out, P2_CANONICAL, 113) == 0);
    for (i = 113; i < sizeof out; i++)
        EXPECT(out[i] == 0xA5);
    memset(out, 0xA5, sizeof out);
    EXPECT(mfer_canonical(P2_CANONICAL, 113, out, 113, &written, &place) == MFER_OK);
    EXPECT(written == 113 && memcmp(out, P2_CANONICAL, 113) == 0 && out[113] == 0xA5);
    expect_canonical_refusal(P2, sizeof P2, 112, MFER_NO_ROOM, 0);
    expect_canonical_refusal(P2, sizeof P2, 0, MFER_NO_ROOM, 0);
    written = place = UNSET;
    EXPECT(mfer_canonical(P2, sizeof P2, NULL, 0, &written, &place) == MFER_NO_ROOM);
    EXPECT(written == 0 && place == 0);
    expect_canonical_refusal(P6, sizeof P6, 100, MFER_CHANNEL_NUMBER, 3);
}

/* What a frame is made of. */
struct making {
    int64_t start;
    uint64_t sequences, channels;
    const int64_t *numbers;
    size_t numbers_len;
    const uint64_t *bits;
    size_t bits_len;
    const uint8_t *samples;
    size_t samples_len;
};

static uint32_t make(const struct making *m, uint8_t *out, size_t room, uint64_t *written)
{
    uint64_t place = UNSET;
    uint32_t refusal;
    *written = UNSET;
    refusal = mfer_make_frame(m->start, m->sequences, m->channels, m->numbers, m->numbers_len, m->bits,
                              m->bits_len, m->samples, m->samples_len, out, room, written, &place);
    EXPECT(place == 0);
    EXPECT(refusal == MFER_OK || *written == 0);
    return refusal;
}

/* The frame is refused so, and the buffer keeps what it held. */
static void expect_make_refusal(const struct making *m, size_t room, uint32_t refusal)
{
    uint8_t *out = (uint8_t *)malloc(room + 1);
    uint64_t written;
    size_t i;
    memset(out, 0xA5, room + 1);
    EXPECT(make(m, out, room, &written) == refusal);
    for (i = 0; i < room + 1; i++)
        EXPECT(out[i] == 0xA5);
    free(out);
}

/* The frame is made of these octets, in just their room and in more, and in less it is not. */
static void expect_made(const struct making *m, const uint8_t *expected, size_t length)
{
    uint8_t *out = (uint8_t *)malloc(length + 9);
    uint64_t written;
    size_t more, i;
    EXPECT(length <= MFER_MAKE_ROOM(m->channels, m->samples_len));
    for (more = 0; more <= 9; more += 9) {
        memset(out, 0xA5, length + 9);
        EXPECT(make(m, out, length + more, &written) == MFER_OK && written == length);
        EXPECT(memcmp(out, expected, length) == 0);
        for (i = length; i < length + 9; i++)
            EXPECT(out[i] == 0xA5);
    }
    free(out);
    expect_make_refusal(m, length - 1, MFER_NO_ROOM);
    expect_make_refusal(m, 0, MFER_NO_ROOM);
    EXPECT(make(m, NULL, 0, &written) == MFER_NO_ROOM);
}

/* The canonical file has the declared sequences and the samples there; without one it has 1E 00. */
static void canonical_of_cut_files(void)
{
    static const uint8_t none[] = {0x06, 1, 2, 0x1E, 1, 9};
    static const uint8_t sequences[] = {0x06, 4, 0, 0, 0, 2}, one[] = {0x1E, 2, 0, 5}, empty[] = {0x1E, 0};
    uint8_t out[80], again[80];
    uint64_t written = UNSET, place = UNSET;

    EXPECT(mfer_canonical(P9, sizeof P9, out, sizeof out, &written, &place) == MFER_OK);
    EXPECT(written == 67 && memcmp(out + 9, sequences, sizeof sequences) == 0);
    EXPECT(memcmp(out + 63, one, sizeof one) == 0);
    EXPECT(mfer_canonical(out, 67, again, 67, &written, &place) == MFER_OK);
    EXPECT(written == 67 && memcmp(again, out, 67) == 0);
    expect_no_data(out, 67, 0, 0, 1);
    expect_canonical_refusal(P9, sizeof P9, 66, MFER_NO_ROOM, 0);

    EXPECT(mfer_canonical(none, sizeof none, out, sizeof out, &written, &place) == MFER_OK);
    EXPECT(written == 65 && memcmp(out + 9, sequences, sizeof sequences) == 0);
    EXPECT(memcmp(out + 63, empty, sizeof empty) == 0);
    expect_no_data(out, 65, 0, 0, 0);
    expect_no_data(out, 65, 0, 0, 1);
}

/* Rows of channels, which a test may change. */
#define ROWS 3

struct rows {
    int64_t numbers[ROWS * MFER_NUMBERS];
    uint64_t bits[ROWS * 2];
};

/* Signed 16 bits in blocks of one; no null. What is not looked at is far out of its range. */
static void set_rows(struct rows *rows)
{
    static const int64_t row[MFER_NUMBERS] = {INT64_MAX, 0, -1, 1, 0, 0, 0, 0, 0, 1000, 0, -6, 1, INT64_MIN, 0};
    size_t i;
    for (i = 0; i < ROWS; i++) {
        memcpy(rows->numbers + i * MFER_NUMBERS, row, sizeof row);
        rows->bits[2 * i] = 0;
        rows->bits[2 * i + 1] = UINT64_MAX;
    }
}

/* A frame of these rows without samples. */
static struct making of_rows(const struct rows *rows)
{
    struct making m = {0, 0, ROWS, NULL, ROWS * MFER_NUMBERS, NULL, ROWS * 2, NULL, 0};
    m.numbers = rows->numbers;
    m.bits = rows->bits;
    return m;
}

/* Enough for a frame of rows without samples. */
#define ROWS_ROOM MFER_MAKE_ROOM(ROWS, 0)

static void expect_rows(const struct rows *rows, uint32_t refusal)
{
    struct making m = of_rows(rows);
    uint8_t out[ROWS_ROOM];
    uint64_t written;
    if (refusal == MFER_OK)
        EXPECT(make(&m, out, sizeof out, &written) == MFER_OK);
    else
        expect_make_refusal(&m, ROWS_ROOM, refusal);
}

/* What was read of P2 is handed back: behind MFER_HEAD stands its canonical file. */
static void make_p2(void)
{
    static const uint8_t samples[] = {0, 1, 0, 2, 0xFF, 0xFF};
    int64_t numbers[2 * MFER_NUMBERS];
    uint64_t bits[4], place;
    struct making m = {0, 1, 2, NULL, 2 * MFER_NUMBERS, NULL, 4, samples, sizeof samples};
    m.numbers = numbers;
    m.bits = bits;
    EXPECT(mfer_attributes(P2, sizeof P2, 0, 0, numbers, bits, &place) == MFER_OK);
    EXPECT(mfer_attributes(P2, sizeof P2, 0, 1, numbers + MFER_NUMBERS, bits + 2, &place) == MFER_OK);
    EXPECT(sizeof MFER_HEAD == MFER_HEAD_OCTETS + 1);
    EXPECT(memcmp(P2_CANONICAL, MFER_HEAD, MFER_HEAD_OCTETS) == 0);
    expect_made(&m, P2_CANONICAL + MFER_HEAD_OCTETS, sizeof P2_CANONICAL - MFER_HEAD_OCTETS);
}

/* Each number at the ends of its range, and past them; in the first channel, one between and the last. */
static void make_numbers(void)
{
    static const struct {
        size_t number;
        int64_t low, high;
    } ranges[] = {
        {MFER_NUMBER_BLOCK, 1, MFER_MAX_BLOCK},
        {MFER_NUMBER_CLASS, 0, 65535},
        {MFER_NUMBER_LEAD, 0, 65535},
        {MFER_NUMBER_TYPE, 0, 8},
        {MFER_NUMBER_INTERVAL_UNIT, 0, 2},
        {MFER_NUMBER_INTERVAL_EXPONENT, -128, 127},
        {MFER_NUMBER_INTERVAL_MANTISSA, 1, 2147483647},
        {MFER_NUMBER_RESOLUTION_UNIT, 0, 22},
        {MFER_NUMBER_RESOLUTION_EXPONENT, -128, 127},
        {MFER_NUMBER_RESOLUTION_MANTISSA, 1, 2147483647},
    };
    struct rows rows;
    size_t i, channel, j;
    for (i = 0; i < SIZE(ranges); i++)
        for (channel = 0; channel < ROWS; channel++) {
            const int64_t good[] = {ranges[i].low, ranges[i].high};
            const int64_t bad[] = {ranges[i].low - 1, ranges[i].high + 1, ranges[i].low + ((int64_t)1 << 32),
                                   INT64_MIN, INT64_MAX};
            int64_t *number = rows.numbers + channel * MFER_NUMBERS + ranges[i].number;
            set_rows(&rows);
            for (j = 0; j < SIZE(good); j++) {
                *number = good[j];
                expect_rows(&rows, MFER_OK);
            }
            for (j = 0; j < SIZE(bad); j++) {
                *number = bad[j];
                expect_rows(&rows, MFER_SETTING_RANGE);
            }
        }
}

/* The frame's own numbers, and how many rows there are. */
static void make_frame_numbers(void)
{
    static const int64_t good[] = {0, -1, INT32_MIN, INT32_MAX};
    static const int64_t bad[] = {(int64_t)INT32_MIN - 1, (int64_t)INT32_MAX + 1, INT64_MIN, INT64_MAX};
    struct rows rows;
    struct making m, changed;
    uint8_t out[ROWS_ROOM];
    uint64_t written;
    size_t i;
    set_rows(&rows);
    m = changed = of_rows(&rows);
    for (i = 0; i < SIZE(good); i++) {
        changed.start = good[i];
        EXPECT(make(&changed, out, sizeof out, &written) == MFER_OK);
        EXPECT((int32_t)bits_of(out + 10, 4, 0) == good[i]);
        changed.start = bad[i];
        expect_make_refusal(&changed, sizeof out, MFER_SETTING_RANGE);
    }
    for (i = 0; i < 2; i++) {
        changed = m;
        changed.sequences = MFER_MAX_SEQUENCES + i;
        expect_make_refusal(&changed, sizeof out, i == 0 ? MFER_SAMPLES_LENGTH : MFER_SETTING_RANGE);
        changed = m;
        changed.numbers_len = m.numbers_len - 1 + 2 * i;
        expect_make_refusal(&changed, sizeof out, MFER_SETTING_RANGE);
        changed = m;
        changed.bits_len = m.bits_len - 1 + 2 * i;
        expect_make_refusal(&changed, sizeof out, MFER_SETTING_RANGE);
        changed = m;
        changed.channels = m.channels - 1 + 2 * i;
        expect_make_refusal(&changed, sizeof out, MFER_SETTING_RANGE);
    }
    changed = m;
    changed.channels = changed.numbers_len = changed.bits_len = 0;
    expect_make_refusal(&changed, sizeof out, MFER_SETTING_RANGE);
    changed.numbers = NULL;
    changed.bits = NULL;
    expect_make_refusal(&changed, sizeof out, MFER_SETTING_RANGE);
    changed = m;
    changed.channels = UINT64_MAX;
    expect_make_refusal(&changed, sizeof out, MFER_SETTING_RANGE);
}

/* A row for each of 256 channels is taken, for each of 257 not. */
static void make_many_channels(void)
{
    static int64_t numbers[(MFER_MAX_CHANNELS + 1) * MFER_NUMBERS];
    static uint64_t bits[(MFER_MAX_CHANNELS + 1) * 2];
    static uint8_t out[MFER_MAKE_ROOM(MFER_MAX_CHANNELS + 1, 0)];
    struct making m = {0, 0, MFER_MAX_CHANNELS, numbers, 0, bits, 0, NULL, 0};
    struct rows rows;
    uint64_t written;
    size_t i;
    set_rows(&rows);
    for (i = 0; i <= MFER_MAX_CHANNELS; i++)
        memcpy(numbers + i * MFER_NUMBERS, rows.numbers, MFER_NUMBERS * sizeof *numbers);
    m.numbers_len = MFER_MAX_CHANNELS * MFER_NUMBERS;
    m.bits_len = MFER_MAX_CHANNELS * 2;
    EXPECT(make(&m, out, sizeof out, &written) == MFER_OK);
    m.channels = MFER_MAX_CHANNELS + 1;
    m.numbers_len = SIZE(numbers);
    m.bits_len = SIZE(bits);
    expect_make_refusal(&m, sizeof out, MFER_SETTING_RANGE);
}

/* Bits as wide as a sample of each type, and wider; any null width but 0 is a null. */
static void make_bits(void)
{
    static const unsigned widths[] = {2, 2, 4, 1, 2, 1, 4, 4, 8};
    static const int64_t nulls[] = {1, 3, -1, INT64_MIN, INT64_MAX};
    struct rows rows;
    struct making m = of_rows(&rows);
    uint8_t out[ROWS_ROOM], again[ROWS_ROOM];
    uint64_t written, without, widest;
    size_t type, channel, i;
    for (type = 0; type < SIZE(widths); type++)
        for (channel = 0; channel < ROWS; channel++) {
            uint64_t *bits = rows.bits + 2 * channel;
            int64_t *row = rows.numbers + channel * MFER_NUMBERS;
            widest = UINT64_MAX >> (64 - 8 * widths[type]);
            set_rows(&rows);
            row[MFER_NUMBER_TYPE] = (int64_t)type;
            bits[0] = widest;
            EXPECT(make(&m, out, sizeof out, &without) == MFER_OK);
            bits[1] = widest;
            row[MFER_NUMBER_NULL_WIDTH] = widths[type];
            EXPECT(make(&m, out, sizeof out, &written) == MFER_OK && written == without + widths[type]);
            for (i = 0; i < SIZE(nulls); i++) {
                row[MFER_NUMBER_NULL_WIDTH] = nulls[i];
                EXPECT(make(&m, again, sizeof again, &written) == MFER_OK);
                EXPECT(memcmp(again, out, (size_t)written) == 0);
            }
            for (i = 0; i < 2 && widest < UINT64_MAX; i++) {
                bits[i] = widest + 1;
                expect_rows(&rows, MFER_SETTING_RANGE);
                bits[i] = (uint64_t)1 << 63;
                expect_rows(&rows, MFER_SETTING_RANGE);
                bits[i] = widest;
            }
        }
}

/* Sequences times the octets of a sequence, exactly: 2 and 4 and 8. Before them the settings are looked at
   in all channels, after them the room. */
static void make_samples(void)
{
    static const uint8_t samples[43] = {0};
    struct rows rows;
    struct making m = of_rows(&rows);
    uint8_t out[MFER_MAKE_ROOM(ROWS, sizeof samples)];
    uint64_t written;
    size_t length;
    set_rows(&rows);
    rows.numbers[MFER_NUMBERS + MFER_NUMBER_BLOCK] = 2;
    rows.numbers[2 * MFER_NUMBERS + MFER_NUMBER_TYPE] = MFER_TYPE_DOUBLE;
    m.samples = samples;
    for (m.sequences = 0; m.sequences <= 3; m.sequences++)
        for (length = 0; length <= sizeof samples; length++) {
            m.samples_len = length;
            if (length == 14 * m.sequences)
                EXPECT(make(&m, out, sizeof out, &written) == MFER_OK);
            else
                expect_make_refusal(&m, sizeof out, MFER_SAMPLES_LENGTH);
        }
    m.samples_len = 42;
    m.sequences = MFER_MAX_SEQUENCES;
    expect_make_refusal(&m, 0, MFER_SAMPLES_LENGTH);
    rows.numbers[2 * MFER_NUMBERS + MFER_NUMBER_RESOLUTION_MANTISSA] = 0;
    expect_make_refusal(&m, 0, MFER_SETTING_RANGE);
    for (m.sequences = 0; m.sequences <= 3; m.sequences++)
        expect_make_refusal(&m, 0, MFER_SETTING_RANGE);
    m.sequences = 3;
    rows.numbers[2 * MFER_NUMBERS + MFER_NUMBER_RESOLUTION_MANTISSA] = 1;
    expect_make_refusal(&m, 0, MFER_NO_ROOM);
}

/* Frame after frame of a file, made from what a walk over it tells and the canonical samples. */
static void make_again(const uint8_t *file, size_t file_len)
{
    static int64_t numbers[MFER_MAX_CHANNELS * MFER_NUMBERS];
    static uint64_t bits[MFER_MAX_CHANNELS * 2], walk[MFER_WALK], canonical_walk[MFER_WALK];
    uint64_t frame[MFER_FRAME_NUMBERS], written, place, below, length = 0;
    uint8_t *out;
    size_t at = MFER_HEAD_OCTETS;
    uint32_t channel;
    int64_t start;

    EXPECT(mfer_canonical_length(file, file_len, &length, &place) == MFER_OK);
    out = (uint8_t *)malloc((size_t)length);
    EXPECT(mfer_canonical(file, file_len, out, (size_t)length, &written, &place) == MFER_OK);
    EXPECT(mfer_walk_open(file, file_len, walk, &written, &place) == MFER_OK);
    EXPECT(mfer_walk_open(out, (size_t)length, canonical_walk, &written, &place) == MFER_OK);
    while (mfer_walk_next(file, file_len, walk, &start, frame, &place) == MFER_OK) {
        struct making m = {start, 0, 0, numbers, 0, bits, 0, NULL, 0};
        for (channel = 0; channel < frame[MFER_FRAME_CHANNELS]; channel++)
            EXPECT(mfer_walk_channel(walk, channel, numbers + channel * MFER_NUMBERS, bits + 2 * channel,
                                     &below, &place) == MFER_OK);
        EXPECT(mfer_walk_next(out, (size_t)length, canonical_walk, &start, frame, &place) == MFER_OK);
        m.sequences = frame[MFER_FRAME_SEQUENCES];
        m.channels = frame[MFER_FRAME_CHANNELS];
        m.numbers_len = (size_t)m.channels * MFER_NUMBERS;
        m.bits_len = (size_t)m.channels * 2;
        m.samples = out + frame[MFER_FRAME_PLACE];
        m.samples_len = (size_t)frame[MFER_FRAME_LENGTH];
        written = frame[MFER_FRAME_PLACE] + frame[MFER_FRAME_LENGTH] - at;
        expect_made(&m, out + at, (size_t)written);
        at += (size_t)written;
    }
    EXPECT(at == length);
    free(out);
}

/* What was read of a frame whose samples are not all there cannot be handed back: of fewer sequences a frame
   is made. */
static void make_what_was_cut(void)
{
    static const uint8_t samples[] = {0, 5};
    int64_t numbers[MFER_NUMBERS];
    uint64_t bits[2], place, written;
    uint8_t out[MFER_MAKE_ROOM(1, sizeof samples)];
    struct making m = {0, 0, 1, NULL, MFER_NUMBERS, NULL, 2, samples, sizeof samples};
    m.numbers = numbers;
    m.bits = bits;
    EXPECT(mfer_attributes(P9, sizeof P9, 0, 0, numbers, bits, &place) == MFER_OK);
    m.sequences = (uint64_t)numbers[MFER_NUMBER_SEQUENCES];
    expect_make_refusal(&m, sizeof out, MFER_SAMPLES_LENGTH);
    m.sequences = samples_there(P9, sizeof P9, 0, 0);
    EXPECT(make(&m, out, sizeof out, &written) == MFER_OK);
}

static void make_what_was_read(void)
{
    static const uint8_t p3[] = {0x1E, 0x00};
    static const uint8_t most[] = {0x05, 2, 1, 0, 0x0A, 1, 8, 0x12, 8, 0, 0, 0, 0, 0, 0, 0, 1, 0x1E, 0};
    size_t length;
    uint8_t *file = many_frames(100, &length);
    make_again(P2, sizeof P2);
    make_again(p3, sizeof p3);
    make_again(P4, sizeof P4);
    make_again(P2_CANONICAL, sizeof P2_CANONICAL);
    make_again(FLOATS, sizeof FLOATS);
    make_again(LASTING, sizeof LASTING);
    make_again(BLOCKS, sizeof BLOCKS);
    make_again(most, sizeof most);
    make_again(file, length);
    free(file);
}

/* A file of as many frames as there may be, and then one more. */
static void made_files(void)
{
    static const uint8_t samples[] = {0, 1, 0xFF, 0xFE, 7, 8};
    struct rows rows;
    struct making m = of_rows(&rows);
    const size_t room = MFER_HEAD_OCTETS + (MFER_MAX_FRAMES + 1) * MFER_MAKE_ROOM(ROWS, sizeof samples);
    uint8_t *file = (uint8_t *)malloc(room);
    size_t length = MFER_HEAD_OCTETS, i;
    uint64_t written;
    set_rows(&rows);
    m.sequences = 1;
    m.samples = samples;
    m.samples_len = sizeof samples;
    memcpy(file, MFER_HEAD, MFER_HEAD_OCTETS);
    for (i = 0; i < MFER_MAX_FRAMES; i++) {
        m.start = -(int64_t)i;
        rows.numbers[MFER_NUMBER_LEAD] = (int64_t)i;
        EXPECT(make(&m, file + length, room - length, &written) == MFER_OK);
        length += (size_t)written;
        if (i == 9)
            same_by_walk(file, length);
    }
    expect_check(file, length, MFER_OK, MFER_MAX_FRAMES, 0);
    expect_sample(file, length, MFER_MAX_FRAMES - 1, 1, 0, length - 4, MFER_WHOLE, -2, 0xFFFE);
    EXPECT(make(&m, file + length, room - length, &written) == MFER_OK);
    expect_check(file, length + (size_t)written, MFER_MANY_FRAMES, 0, length + (size_t)written - 8);
    free(file);
}

/* With MFER_HEAD the frame would be one octet too long for a file. Nobody writes to this memory. */
static void too_long_a_made_frame(void)
{
    struct rows rows;
    struct making m = of_rows(&rows);
    size_t length = MFER_MAX_OCTETS - MFER_HEAD_OCTETS + 1;
    uint8_t *samples = (uint8_t *)calloc(length, 1), *out = (uint8_t *)calloc(length, 1);
    uint64_t written;
    EXPECT(samples != NULL && out != NULL);
    if (samples != NULL && out != NULL) {
        set_rows(&rows);
        rows.numbers[MFER_NUMBER_TYPE] = MFER_TYPE_UNSIGNED_8;
        m.channels = 1;
        m.numbers_len = MFER_NUMBERS;
        m.bits_len = 2;
        m.samples = samples;
        m.sequences = m.samples_len = length - 65;
        EXPECT(make(&m, out, length, &written) == MFER_NO_ROOM);
        EXPECT(out[0] == 0);
    }
    free(out);
    free(samples);
}

static int same(const char *a, const char *b)
{
    return strcmp(a, b) == 0;
}

/* Each number of the header's table has the words there; any other is unknown. */
static void words_of_refusals(void)
{
#define EXPECTED(constant, number, words) expected[number] = words;
    const char *expected[1000];
    uint32_t i;
    for (i = 0; i < SIZE(expected); i++)
        expected[i] = "unknown refusal";
    expected[MFER_OK] = "no refusal";
    MFER_REFUSALS(EXPECTED)
    for (i = 0; i < SIZE(expected); i++)
        EXPECT(same(mfer_words(i), expected[i]));
    EXPECT(same(mfer_words(UINT32_MAX), "unknown refusal"));
    EXPECT(same(mfer_words(8), "channel number not below the channel count"));
    EXPECT(same(mfer_words(MFER_NO_FRAME), "no such frame"));
    EXPECT(strncmp(mfer_words(14), "retired, no longer given: ", 26) == 0);
#undef EXPECTED
}

static void names_of_kinds(void)
{
    static const char *const names[] = {"whole", "status", "single", "double", "not-a-number", "null", "no data"};
    uint32_t i;
    for (i = 0; i < 1000; i++)
        EXPECT(same(mfer_kind_name(i), i < SIZE(names) ? names[i] : "unknown kind"));
    EXPECT(same(mfer_kind_name(UINT32_MAX), "unknown kind"));
    EXPECT(same(mfer_kind_name(MFER_NULL), "null"));
    EXPECT(same(mfer_kind_name(MFER_NO_DATA), "no data"));
}

static void version(void)
{
    char parts[40];
    snprintf(parts, sizeof parts, "%d.%d.%d", MFER_VERSION_MAJOR, MFER_VERSION_MINOR, MFER_VERSION_PATCH);
    EXPECT(same(MFER_VERSION, parts));
}

static void run(const char *name, void (*test)(void))
{
    ok = 1;
    test();
    printf("test %s ... %s\n", name, ok ? "ok" : "FAILED");
    if (ok)
        passed++;
    else
        failed++;
}

/* With an argument: without the tests that need much memory. */
int main(int argc, char **argv)
{
    (void)argv;
    run("check_good_files", check_good_files);
    run("empty_and_null", empty_and_null);
    run("check_refusals", check_refusals);
    run("too_many_frames", too_many_frames);
    if (argc == 1) {
        run("too_long_a_file", too_long_a_file);
        run("too_long_a_canonical_file", too_long_a_canonical_file);
        run("too_long_a_made_frame", too_long_a_made_frame);
    }
    run("huge_indexes", huge_indexes);
    run("attributes", attributes);
    run("one_sample", one_sample);
    run("samples_in_bulk", samples_in_bulk);
    run("values_in_bulk", values_in_bulk);
    run("samples_not_there", samples_not_there);
    run("walk_tells_the_same", walk_tells_the_same);
    run("waveforms_cut_after_each_octet", waveforms_cut_after_each_octet);
    run("walk_numbers", walk_numbers);
    run("walk_values", walk_values);
    run("walk_to_samples_not_there", walk_to_samples_not_there);
    run("walk_frame", walk_frame);
    run("walk_over_the_most_frames", walk_over_the_most_frames);
    run("walk_copied", walk_copied);
    run("walk_over_another_file", walk_over_another_file);
    run("walk_of_any_words", walk_of_any_words);
    run("walk_with_one_word_changed", walk_with_one_word_changed);
    run("canonical_length", canonical_length);
    run("canonical", canonical);
    run("canonical_of_cut_files", canonical_of_cut_files);
    run("make_p2", make_p2);
    run("make_numbers", make_numbers);
    run("make_frame_numbers", make_frame_numbers);
    run("make_many_channels", make_many_channels);
    run("make_bits", make_bits);
    run("make_samples", make_samples);
    run("make_what_was_read", make_what_was_read);
    run("make_what_was_cut", make_what_was_cut);
    run("made_files", made_files);
    run("words_of_refusals", words_of_refusals);
    run("names_of_kinds", names_of_kinds);
    run("version", version);
    printf("%d passed, %d failed\n", passed, failed);
    return failed != 0;
}
