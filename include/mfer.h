/*
 * mfer.h: reads medical waveform files (MFER), writes them in canonical form, and makes new ones.
 *
 * The header is C99 and C++11. The library, libmfer.a, is for x86-64. Link it with nothing but the C
 * library:
 *
 *     cc -I include viewer.c target/staticlib/libmfer.a
 *
 * WHAT A FILE IS
 *
 * A file is octets in memory, from `file` on, `file_len` of them. Any octets will do: what is no
 * MFER file is refused. A file has frames, a frame has channels, a channel in a frame has samples;
 * all three count from 0. A sample's place is the offset of its first octet in the file.
 *
 * A frame declares how many sequences it has, and so how many samples each channel has: sequences times
 * block. Its waveform may be too short for them; a recorder whose battery runs out leaves such a file. A
 * sample is there where all its octets lie in its own frame's waveform. Those there are the first ones
 * in file order, and so the first ones of each channel: mfer_samples_there says how many. A declared
 * sample that is not there is MFER_NO_DATA; it has no bits and no place. The declared number can be near
 * 2 to the 52 in a file of a few octets, so loops go over the samples there and not over those declared.
 * A waveform that says it is longer than the rest of the file is no such one: MFER_PAST_END.
 *
 * A file is made frame by frame: MFER_HEAD, then 1 to MFER_MAX_FRAMES frames that mfer_make_frame
 * made, at most MFER_MAX_OCTETS octets in all.
 *
 * ANSWERS AND REFUSALS
 *
 * Every function returns 0 where it has an answer, else the number of a refusal (MFER_..., below);
 * mfer_words says a refusal in words. Every output is set in every case:
 *
 *   - with an answer: as each function says; `*place` is 0 but in mfer_sample;
 *   - at a refusal: `*place` is the refusal's place, every other output is 0, and the buffers `out`,
 *     `kinds` and `wholes` keep all they held.
 *
 * The refusal's place is the offset of the tag of the item that earned it (for
 * MFER_UNENDED_GROUP: of the group's tag). It is 0 for MFER_LONG_FILE and for every number from 20
 * up, which are about no item.
 *
 * The whole file is checked at every question, but in a walk: there mfer_walk_open checks it, and the
 * other functions of the walk do not do so again. Where it is refused, every function that checks it
 * answers that one refusal, whatever was asked for. Only then come MFER_NO_FRAME, MFER_NO_CHANNEL and
 * MFER_NO_SAMPLE, in that order, and MFER_NO_ROOM. mfer_make_frame is given no file; it checks the
 * settings, then the number of sample octets, then the room.
 *
 * TWO WAYS TO ASK
 *
 * A walk checks a file and then goes over it once, frame after frame, with the channels and samples of
 * each: see the example below, and "A walk" further down. It is the way to read a file, or much of it.
 * The other functions answer one question each, about a frame, a channel and a sample by their
 * numbers.
 *
 * POINTERS, OWNERSHIP, THREADS
 *
 * The caller owns all memory. The library allocates none, keeps no pointer after a call and never
 * writes to what is const in a prototype. A pointer that goes with a length may be null where the
 * length is 0, and is not followed then. Every other pointer must not be null: it points to one object
 * of its type, or to as many as the array in the prototype has. Outputs, buffers and walks overlap
 * neither each other nor anything that the call reads.
 *
 * There is no global state. Any number of threads may call any function at the same time, also on
 * the same file, as long as nobody changes the file and each thread has outputs of its own. A walk is
 * written to by mfer_walk_open and mfer_walk_next alone; while neither is called, any number of
 * threads may read the channels of its frame. Nothing is called back, no error goes through errno or
 * a signal. A call needs less than 256 KiB of stack.
 *
 * WHAT A QUESTION COSTS
 *
 * A walk over a whole file goes through its items twice, once in mfer_walk_open and once in all calls
 * of mfer_walk_next together, each of which goes from one frame to the next. It looks at each channel
 * of each frame once. mfer_walk_channel, mfer_walk_samples_there, mfer_walk_samples, mfer_walk_frame and
 * mfer_walk_values go through no items: the first two take the same short time in any file, and the
 * others the time to copy the samples that they read; mfer_walk_frame looks at each channel of the frame
 * for this.
 *
 * Every other function goes through all items of the file, whatever it asks for: the time grows with
 * the number of items and not with the length of the waveforms, which are stepped over.
 * mfer_canonical goes through them twice and copies the samples there. Samples that are declared and not
 * there cost nothing. These functions are for single questions: a loop that asks them for every channel
 * of every frame goes through the file as often as there are channels in all its frames, a million times
 * where there are 4,096 frames of 256 channels. Walk instead. To read many samples of one channel, ask
 * mfer_samples or mfer_values once, not mfer_sample many times.
 *
 * mfer_make_frame looks at each channel's settings and copies the samples.
 *
 * WHAT IS PROVED
 *
 * Of each function, for any octets, any numbers and any content of a walk: it returns, and its
 * result, its outputs, its buffers and its walk afterwards are what its contract in crates/mfer/src
 * defines. docs/SPECIFICATION.md lists the definitions, docs/TRUST.md says what that rests on.
 *
 * This and all above is about the functions of the library. mfer_words and mfer_kind_name are none of
 * them: they stand in this header, and are only tested.
 *
 * EXAMPLES
 *
 * Prints every sample there of a file, frame after frame and channel after channel, and how many are not
 * there:
 *
 *     #include <inttypes.h>
 *     #include <stdio.h>
 *     #include <string.h>
 *     #include "mfer.h"
 *
 *     static void print_channel(const uint8_t *file, size_t file_len, const uint64_t walk[MFER_WALK],
 *                               uint32_t channel)
 *     {
 *         int64_t numbers[MFER_NUMBERS], wholes[1000];
 *         uint64_t defined[2], below, declared, first = 0, count, place, i;
 *         uint8_t kinds[1000];
 *         if (mfer_walk_channel(walk, channel, numbers, defined, &below, &place) != MFER_OK)
 *             return;
 *         printf("channel %" PRIu32 ": lead %" PRId64 "\n", channel, numbers[MFER_NUMBER_LEAD]);
 *         while (mfer_walk_values(file, file_len, walk, channel, first, kinds, 1000, wholes, 1000, &count,
 *                                 &place) == MFER_OK &&
 *                count > 0) {
 *             for (i = 0; i < count; i++)
 *                 if (kinds[i] == MFER_WHOLE)
 *                     printf("%" PRId64 "\n", wholes[i]);
 *                 else
 *                     printf("%s\n", mfer_kind_name(kinds[i]));
 *             first += count;
 *         }
 *         declared = (uint64_t)(numbers[MFER_NUMBER_SEQUENCES] * numbers[MFER_NUMBER_BLOCK]);
 *         if (first < declared)
 *             printf("no data: %" PRIu64 " samples\n", declared - first);
 *     }
 *
 *     int print_file(const uint8_t *file, size_t file_len)
 *     {
 *         uint64_t walk[MFER_WALK], frame[MFER_FRAME_NUMBERS], frames, place;
 *         int64_t start;
 *         uint32_t channel, refusal = mfer_walk_open(file, file_len, walk, &frames, &place);
 *         while (refusal == MFER_OK) {
 *             refusal = mfer_walk_next(file, file_len, walk, &start, frame, &place);
 *             if (refusal != MFER_OK)
 *                 break;
 *             printf("frame at %" PRId64 "\n", start);
 *             for (channel = 0; channel < frame[MFER_FRAME_CHANNELS]; channel++)
 *                 print_channel(file, file_len, walk, channel);
 *         }
 *         if (refusal == MFER_NO_FRAME)
 *             return 0;
 *         fprintf(stderr, "refused %" PRIu32 " at %" PRIu64 ": %s\n", refusal, place,
 *                 mfer_words(refusal));
 *         return 1;
 *     }
 *
 * Behind the last frame mfer_walk_next answers MFER_NO_FRAME; a refused file has another number. Behind the
 * last sample there mfer_walk_values counts 0 or answers MFER_NO_SAMPLE.
 *
 * Makes a file of two frames with one channel: lead II, 500 Hz, steps of 5 microvolts, 8000h for no
 * value. The buffer has room for MFER_HEAD at least:
 *
 *     static int add_frame(uint8_t *file, size_t file_len, size_t *length, int64_t start,
 *                          const uint8_t *samples, size_t samples_len)
 *     {
 *         const uint64_t bits[2] = {0, 0x8000};
 *         int64_t numbers[MFER_NUMBERS] = {0};
 *         uint64_t written, place;
 *         uint32_t refusal;
 *         numbers[MFER_NUMBER_BLOCK] = 1;
 *         numbers[MFER_NUMBER_LEAD] = 2;
 *         numbers[MFER_NUMBER_TYPE] = MFER_TYPE_SIGNED_16;
 *         numbers[MFER_NUMBER_INTERVAL_MANTISSA] = 500;
 *         numbers[MFER_NUMBER_RESOLUTION_EXPONENT] = -6;
 *         numbers[MFER_NUMBER_RESOLUTION_MANTISSA] = 5;
 *         numbers[MFER_NUMBER_NULL_WIDTH] = 2;
 *         refusal = mfer_make_frame(start, samples_len / 2, 1, numbers, MFER_NUMBERS, bits, 2, samples,
 *                                   samples_len, file + *length, file_len - *length, &written, &place);
 *         if (refusal != MFER_OK) {
 *             fprintf(stderr, "refused %" PRIu32 ": %s\n", refusal, mfer_words(refusal));
 *             return 1;
 *         }
 *         *length += (size_t)written;
 *         return 0;
 *     }
 *
 *     int make_file(uint8_t *file, size_t file_len, size_t *length)
 *     {
 *         static const uint8_t samples[] = {0x00, 0x01, 0x80, 0x00, 0xFF, 0xFF};
 *         memcpy(file, MFER_HEAD, MFER_HEAD_OCTETS);
 *         *length = MFER_HEAD_OCTETS;
 *         return add_frame(file, file_len, length, 0, samples, 4) != 0 ||
 *                add_frame(file, file_len, length, 2, samples + 4, 2) != 0;
 *     }
 */
#ifndef MFER_H
#define MFER_H

#include <stddef.h>
#include <stdint.h>

#ifdef __cplusplus
extern "C" {
#endif

/* The version of the header and of the library that goes with it. */
#define MFER_VERSION_MAJOR 0
#define MFER_VERSION_MINOR 1
#define MFER_VERSION_PATCH 0
#define MFER_VERSION "0.1.0"

/*
 * Refusals: MFER_REFUSALS(X) is X(constant, number, words) for each. The words are those of documents
 * 01 and 02; document 01's table of attributes has the lengths and values of each tag. Where several
 * apply to a file, 15 comes first; then the first refused item in file order decides, and within an
 * item the order 1, 5, channel number (4 or 3 as met), 2, 3, 9, 8, 6, 7; at a waveform 11, 12, 13. Where
 * several apply to a frame that is to be made, the order is 24, 25, 23.
 *
 * 14 is retired: no function gives it any more, and no other refusal takes its number. A waveform that is
 * too short for its sequences is accepted, and lacks samples.
 */
#define MFER_REFUSALS(X) \
    X(MFER_CONTEXT_TAG, 1, "context tag other than 3Fh") \
    X(MFER_LENGTH_OCTET, 2, "length octet 85h to FFh, or 80h not on 3Fh") \
    X(MFER_PAST_END, 3, "channel number, length or value runs past the file or definite group around it") \
    X(MFER_LONG_CHANNEL, 4, "fourth channel octet has its top bit set") \
    X(MFER_BARRED_TAG, 5, "tag 01, 05, 06, 07, 0E, 1E or 3F inside a group") \
    X(MFER_UNFIT_LENGTH, 6, "length of a tag in the table of attributes that isn't among those given there") \
    X(MFER_UNFIT_VALUE, 7, "value not in the table of attributes") \
    X(MFER_CHANNEL_NUMBER, 8, "channel number not below the channel count") \
    X(MFER_COMPRESSED, 9, "0Eh of length above 0 (compressed data)") \
    X(MFER_UNENDED_GROUP, 10, "open group: file ends between two of its items") \
    X(MFER_MANY_FRAMES, 11, "a frame after 4,096 frames") \
    X(MFER_SAMPLE_WIDTH, 12, "a channel below the count whose defined offset or null hasn't its sample width") \
    X(MFER_START_RANGE, 13, "start pointer outside signed 32 bits") \
    X(MFER_SHORT_WAVEFORM, 14, "retired, no longer given: waveform shorter than sequences times G (the octets of a sequence)") \
    X(MFER_LONG_FILE, 15, "file above 2,147,483,647 octets") \
    X(MFER_NO_FRAME, 20, "no such frame") \
    X(MFER_NO_CHANNEL, 21, "no such channel") \
    X(MFER_NO_SAMPLE, 22, "no such sample") \
    X(MFER_NO_ROOM, 23, "what is written is longer than the output buffer, or the file than 15's limit (2,147,483,647 octets)") \
    X(MFER_SETTING_RANGE, 24, "a setting outside the table of attributes, or bits wider than the sample") \
    X(MFER_SAMPLES_LENGTH, 25, "sample octets not exactly sequences times G (the octets of a sequence)") \
    /* end */

/* What is made of an entry of MFER_REFUSALS or MFER_KINDS: its constant, and the case of its number. */
#define MFER_CONSTANT(name, number, words) name = number,
#define MFER_CASE(name, number, words) case name: return words;

enum { MFER_OK = 0, MFER_REFUSALS(MFER_CONSTANT) };

/* The words for a number that a function returned. They are a constant string, for any number. */
static inline const char *mfer_words(uint32_t refusal)
{
    switch (refusal) {
    case MFER_OK: return "no refusal";
    MFER_REFUSALS(MFER_CASE)
    default: return "unknown refusal";
    }
}

/* Limits. */
#define MFER_MAX_OCTETS 2147483647u    /* octets of a file */
#define MFER_MAX_FRAMES 4096u          /* frames of a file */
#define MFER_MAX_CHANNELS 256u         /* channels of a frame */
#define MFER_MAX_BLOCK 1048576u        /* samples of a channel in one sequence */
#define MFER_MAX_SEQUENCES 4294967295u /* sequences of a frame */

/*
 * Checks a file and counts its frames.
 *
 * *frames  how many frames the file has, at most MFER_MAX_FRAMES
 *
 * Refusals: 1 to 13, 15.
 */
uint32_t mfer_check(const uint8_t *file, size_t file_len, uint64_t *frames, uint64_t *place);

/* Where each attribute is in `numbers`. */
#define MFER_NUMBER_START 0               /* the frame's start pointer, signed 32 bits */
#define MFER_NUMBER_CHANNELS 1            /* channels of the frame, 1 to 256 */
#define MFER_NUMBER_SEQUENCES 2           /* declared sequences of the frame, 0 to 4,294,967,295 */
#define MFER_NUMBER_BLOCK 3               /* samples of the channel in one sequence, 1 to 1,048,576 */
#define MFER_NUMBER_CLASS 4               /* waveform class, 0 to 65,535 */
#define MFER_NUMBER_LEAD 5                /* lead code, 0 to 65,535 */
#define MFER_NUMBER_TYPE 6                /* data type, 0 to 8 (MFER_TYPE_...) */
#define MFER_NUMBER_INTERVAL_UNIT 7       /* 0 Hz, 1 s, 2 m */
#define MFER_NUMBER_INTERVAL_EXPONENT 8   /* the power of ten, -128 to 127 */
#define MFER_NUMBER_INTERVAL_MANTISSA 9   /* 1 to 2,147,483,647 */
#define MFER_NUMBER_RESOLUTION_UNIT 10    /* 0 to 22: the sampling units of ISO/TS 11073-92001 */
#define MFER_NUMBER_RESOLUTION_EXPONENT 11 /* the power of ten, -128 to 127 */
#define MFER_NUMBER_RESOLUTION_MANTISSA 12 /* 1 to 2,147,483,647 */
#define MFER_NUMBER_WIDTH 13              /* octets of a sample: 1, 2, 4 or 8 */
#define MFER_NUMBER_NULL_WIDTH 14         /* the same where there are null bits, else 0 */
#define MFER_NUMBERS 15                   /* how many there are */

/* Data types. */
#define MFER_TYPE_SIGNED_16 0
#define MFER_TYPE_UNSIGNED_16 1
#define MFER_TYPE_SIGNED_32 2
#define MFER_TYPE_UNSIGNED_8 3
#define MFER_TYPE_STATUS 4
#define MFER_TYPE_SIGNED_8 5
#define MFER_TYPE_UNSIGNED_32 6
#define MFER_TYPE_SINGLE 7
#define MFER_TYPE_DOUBLE 8

/*
 * The attributes of a channel in a frame.
 *
 * numbers  as the list above has them; sequences times block samples of the channel are declared, of which
 *          mfer_samples_there says how many are there
 * bits     the offset's bits (0 where none is defined), then the null bits (0 where there are none)
 *
 * Refusals: 1 to 13, 15, MFER_NO_FRAME, MFER_NO_CHANNEL.
 */
uint32_t mfer_attributes(const uint8_t *file, size_t file_len, uint32_t frame, uint32_t channel,
                         int64_t numbers[MFER_NUMBERS], uint64_t bits[2], uint64_t *place);

/* Kinds of values: MFER_KINDS(X) is X(constant, number, name) for each. */
#define MFER_KINDS(X) \
    X(MFER_WHOLE, 0, "whole")             /* a number of the types 0 to 3, 5 and 6 */ \
    X(MFER_STATUS, 1, "status")           /* sixteen bits, of type 4 */ \
    X(MFER_SINGLE, 2, "single")           /* IEEE 754, 32 bits, of type 7; infinities are among them */ \
    X(MFER_DOUBLE, 3, "double")           /* IEEE 754, 64 bits, of type 8; infinities are among them */ \
    X(MFER_NOT_NUMBER, 4, "not-a-number") /* a single or double that is no number */ \
    X(MFER_NULL, 5, "null")               /* the sample's bits are the null bits, whatever its type */ \
    X(MFER_NO_DATA, 6, "no data")         /* the sample is declared and not there: it has no bits */ \
    /* end */

enum { MFER_KINDS(MFER_CONSTANT) };

/* The name of a kind. It is a constant string, for any number. */
static inline const char *mfer_kind_name(uint32_t kind)
{
    switch (kind) {
    MFER_KINDS(MFER_CASE)
    default: return "unknown kind";
    }
}

#undef MFER_CONSTANT
#undef MFER_CASE

/*
 * How many samples of a channel in a frame are there: they are those below *count. All that are declared
 * are there where *count is sequences times block; it is never more.
 *
 * *count   how many, at most MFER_MAX_OCTETS
 *
 * Refusals: 1 to 13, 15, MFER_NO_FRAME, MFER_NO_CHANNEL.
 */
uint32_t mfer_samples_there(const uint8_t *file, size_t file_len, uint32_t frame, uint32_t channel,
                            uint64_t *count, uint64_t *place);

/*
 * The place and value of a sample. Values are raw: neither offset nor resolution is applied.
 *
 * *place   the sample's place (at a refusal, the refusal's)
 * *kind    one of the kinds above; MFER_NO_DATA for a declared sample that is not there, and then 0 is
 *          in all other outputs
 * *whole   the number, where *kind is MFER_WHOLE; else 0
 * *bits    the sample's bits, highest octet first: those of a file with the octets 01 02 are 0102
 *          in big-endian order and 0201 in little-endian order; zeros are above them
 *
 * Refusals: 1 to 13, 15, MFER_NO_FRAME, MFER_NO_CHANNEL, and MFER_NO_SAMPLE where `number` is not below the
 * declared number of samples, sequences times block.
 */
uint32_t mfer_sample(const uint8_t *file, size_t file_len, uint32_t frame, uint32_t channel,
                     uint64_t number, uint64_t *place, uint32_t *kind, int64_t *whole,
                     uint64_t *bits);

/*
 * The bits of consecutive samples of a channel, from sample `first` on: as many as are there or as
 * fit in the buffer of `out_len` numbers at `out`. The bits are those of mfer_sample; they carry no
 * sign up and nulls are not marked. What is past *count in the buffer keeps what it held.
 *
 * *count   how many were written; with an answer 0 only where out_len is 0, or where sample `first` is
 *          declared and not there
 *
 * Refusals: 1 to 13, 15, MFER_NO_FRAME, MFER_NO_CHANNEL, and MFER_NO_SAMPLE where no sample `first` is
 * declared.
 */
uint32_t mfer_samples(const uint8_t *file, size_t file_len, uint32_t frame, uint32_t channel,
                      uint64_t first, uint64_t *out, size_t out_len, uint64_t *count,
                      uint64_t *place);

/*
 * The values of consecutive samples of a channel, from sample `first` on, each as mfer_sample tells
 * it: its kind (MFER_WHOLE and so on) in the buffer of `kinds_len` octets at `kinds`, and its number
 * where it is whole, else 0, in the buffer of `wholes_len` numbers at `wholes`. As many as are there
 * or as fit in the shorter buffer, so MFER_NO_DATA is not among the kinds. What is past *count in a buffer
 * keeps what it held. The bits of a value that is no whole number are told by mfer_samples.
 *
 * *count   how many were written to each buffer; with an answer 0 only where kinds_len or wholes_len is 0,
 *          or where sample `first` is declared and not there
 *
 * Refusals: 1 to 13, 15, MFER_NO_FRAME, MFER_NO_CHANNEL, and MFER_NO_SAMPLE where no sample `first` is
 * declared.
 */
uint32_t mfer_values(const uint8_t *file, size_t file_len, uint32_t frame, uint32_t channel,
                     uint64_t first, uint8_t *kinds, size_t kinds_len, int64_t *wholes,
                     size_t wholes_len, uint64_t *count, uint64_t *place);

/*
 * A walk: the frames of a file one after another, each with its channels and samples.
 *
 * mfer_walk_open checks the file and begins the walk, mfer_walk_next goes to the next frame,
 * mfer_walk_channel, mfer_walk_samples_there, mfer_walk_samples and mfer_walk_values tell of a channel of
 * the frame that the walk is at, and mfer_walk_frame of all of them. The walk is kept in an array of the
 * caller's, `uint64_t walk[MFER_WALK]`, 33,280 octets: nothing has to be set in it before it is opened,
 * and nothing freed afterwards. It holds numbers and no pointers. A copy of it is a walk of its own that
 * goes on from the same frame, and it may be opened again, for the same file or another.
 *
 * What is told of an opened file is what mfer_attributes, mfer_samples_there, mfer_samples and
 * mfer_values tell of it, frame by frame. For this the file must have the same octets in every call as in
 * mfer_walk_open; it may have moved to another address.
 *
 * Whatever is in the array and whatever file is handed in, each call ends, and nothing outside the
 * file and the arrays is read or written. But where the array is no opened walk, or the file another,
 * the answers mean nothing: numbers may be out of their ranges, and mfer_walk_next may answer any of
 * the refusals 1 to 13 and 15.
 */
#define MFER_WALK 4160 /* numbers in the array of a walk */

/* Where each number of a frame is in `frame`. */
#define MFER_FRAME_CHANNELS 0  /* channels of the frame, 1 to 256 */
#define MFER_FRAME_SEQUENCES 1 /* declared sequences of the frame, 0 to 4,294,967,295 */
#define MFER_FRAME_LITTLE 2    /* 1 where its samples are little-endian, 0 where they are big-endian */
#define MFER_FRAME_PLACE 3     /* the place of its waveform: the offset of its first octet */
#define MFER_FRAME_LENGTH 4    /* octets of its waveform, which may be longer or shorter than its sequences */
#define MFER_FRAME_OCTETS 5    /* octets of a sequence, over all channels */
#define MFER_FRAME_NUMBERS 6   /* how many there are */

/*
 * Checks a file and begins a walk over it, ahead of the first frame. At a refusal the walk keeps all
 * it held.
 *
 * *frames  how many frames the file has, at most MFER_MAX_FRAMES
 *
 * Refusals: 1 to 13, 15, as mfer_check has them.
 */
uint32_t mfer_walk_open(const uint8_t *file, size_t file_len, uint64_t walk[MFER_WALK],
                        uint64_t *frames, uint64_t *place);

/*
 * Goes to the next frame. At a refusal the walk is at no frame.
 *
 * *start   the frame's start pointer, signed 32 bits
 * frame    as the list above has it
 *
 * Refusals: MFER_NO_FRAME behind the last frame, as often as it is asked there.
 */
uint32_t mfer_walk_next(const uint8_t *file, size_t file_len, uint64_t walk[MFER_WALK],
                        int64_t *start, uint64_t frame[MFER_FRAME_NUMBERS], uint64_t *place);

/*
 * The attributes of a channel in the frame that the walk is at.
 *
 * numbers  as mfer_attributes has them
 * bits     as mfer_attributes has them
 * *below   the octets of a sequence that come ahead of the channel's: those of the channels below it
 *
 * The first octet of sample n is at
 *
 *     frame[MFER_FRAME_PLACE] + n / block * frame[MFER_FRAME_OCTETS] + below + n % block * width
 *
 * in the file, where block is numbers[MFER_NUMBER_BLOCK] and width is numbers[MFER_NUMBER_WIDTH], and the
 * sample is there.
 *
 * Refusals: MFER_NO_FRAME where the walk is at no frame: ahead of the first, or behind the last;
 * MFER_NO_CHANNEL.
 */
uint32_t mfer_walk_channel(const uint64_t walk[MFER_WALK], uint32_t channel,
                           int64_t numbers[MFER_NUMBERS], uint64_t bits[2], uint64_t *below,
                           uint64_t *place);

/*
 * How many samples of a channel in the frame that the walk is at are there: *count is as in
 * mfer_samples_there.
 *
 * Refusals: as in mfer_walk_channel.
 */
uint32_t mfer_walk_samples_there(const uint64_t walk[MFER_WALK], uint32_t channel, uint64_t *count,
                                 uint64_t *place);

/*
 * The bits of consecutive samples of a channel in the frame that the walk is at, from sample `first`
 * on: `out` and *count are as in mfer_samples.
 *
 * Refusals: MFER_NO_FRAME where the walk is at no frame; MFER_NO_CHANNEL; MFER_NO_SAMPLE where no
 * sample `first` is declared; and after these MFER_NO_FRAME where the channel's samples do not lie in
 * this file, which then is not the one that was opened.
 */
uint32_t mfer_walk_samples(const uint8_t *file, size_t file_len, const uint64_t walk[MFER_WALK],
                           uint32_t channel, uint64_t first, uint64_t *out, size_t out_len,
                           uint64_t *count, uint64_t *place);

/*
 * The bits of the samples of the frame that the walk is at: those of channel 0, then those of channel
 * 1, and so on, each channel's in their order, at the front of `out`, as many as are there or as fit.
 * The rest of `out`, and at a refusal all of it, keeps what it held.
 *
 * mfer_walk_samples_there tells how many are of each channel. Over all channels they are at most
 * frame[MFER_FRAME_LENGTH], so a buffer of that many always holds them; in a shorter one that is full,
 * their sum tells whether there are more.
 *
 * This is the fastest way to read a file whole: one call a frame.
 *
 * *count   how many were written; with an answer 0 only where out_len is 0 or no sample of the frame is
 *          there
 *
 * Refusals: MFER_NO_FRAME where the walk is at no frame, and where the samples of any channel, also of
 * one that `out` has no room for, do not lie in this file, which then is not the one that was opened.
 */
uint32_t mfer_walk_frame(const uint8_t *file, size_t file_len, const uint64_t walk[MFER_WALK],
                         uint64_t *out, size_t out_len, uint64_t *count, uint64_t *place);

/*
 * The values of consecutive samples of a channel in the frame that the walk is at, from sample `first`
 * on: the buffers and *count are as in mfer_values.
 *
 * Refusals: as in mfer_walk_samples.
 */
uint32_t mfer_walk_values(const uint8_t *file, size_t file_len, const uint64_t walk[MFER_WALK],
                          uint32_t channel, uint64_t first, uint8_t *kinds, size_t kinds_len,
                          int64_t *wholes, size_t wholes_len, uint64_t *count, uint64_t *place);

/*
 * The length of the canonical file, which mfer_canonical writes: the octets that its buffer has to
 * have. With as many or more it writes the file, with fewer it answers MFER_NO_ROOM.
 *
 * *length  the canonical file's length, at most MFER_MAX_OCTETS; 0 for a file without frames
 *
 * Refusals: 1 to 13, 15, and MFER_NO_ROOM where the canonical file is longer than a file may be.
 */
uint32_t mfer_canonical_length(const uint8_t *file, size_t file_len, uint64_t *length,
                               uint64_t *place);

/*
 * Writes the canonical file, which has the same recording in one fixed form: big-endian, every
 * setting in its channel's group, every length in its shortest form. It has the samples there and the
 * declared sequences, so the same samples are there in it. It stands at the start of the buffer of
 * `out_len` octets at `out`; what is past it keeps what it held.
 *
 * *written  the canonical file's length; 0 for a file without frames
 *
 * Refusals: 1 to 13, 15, and MFER_NO_ROOM where the buffer is too short: mfer_canonical_length says how
 * long it has to be, or that none will do.
 */
uint32_t mfer_canonical(const uint8_t *file, size_t file_len, uint8_t *out, size_t out_len,
                        uint64_t *written, uint64_t *place);

/* What stands ahead of the first frame in a canonical file and in a file that is made: 01 01 00, the
   item that says big-endian. */
#define MFER_HEAD "\x01\x01\x00"
#define MFER_HEAD_OCTETS 3

/* The most octets that a canonical frame takes, and so one that is made. */
#define MFER_MAKE_ROOM(channels, samples_len) (24 + 57 * (size_t)(channels) + (size_t)(samples_len))

/*
 * Makes a frame from its settings and samples, as a canonical file has it. The frame alone, without
 * MFER_HEAD, stands at the start of the buffer of `out_len` octets at `out`; what is past it keeps what
 * it held.
 *
 * start      the start pointer
 * sequences  how many sequences; where they are 0, there are no samples
 * channels   how many channels
 * numbers    a row of MFER_NUMBERS for each channel in order, as mfer_attributes has them; numbers_len
 *            counts numbers, not rows
 * bits       a row of two for each channel in order, as mfer_attributes has them: the offset's bits,
 *            then the null bits; bits_len counts numbers, not rows
 * samples    the octets of all samples in file order: sequence after sequence, in each the block of
 *            channel 0, then that of channel 1, and so on; each sample with its highest octet first
 * *written   the frame's length, at most MFER_MAKE_ROOM(channels, samples_len)
 *
 * What mfer_attributes or mfer_walk_channel told of a channel can be handed back as it is, but a frame is
 * made of all its samples: of one whose samples are not all there, hand over fewer sequences. In a row
 * start, channels, sequences and width are not looked at: the first three are parameters here, and the
 * type says the width. A null width of 0 says that there are no null bits, and those of the row are not
 * looked at; any other number says that there are.
 *
 * Refusals, each of them looked for in all channels before the next:
 *
 *   - MFER_SETTING_RANGE where `start`, `sequences`, `channels` or a number that is looked at is out of
 *     the range that the list of MFER_NUMBER_... has for it; where numbers_len is not channels times
 *     MFER_NUMBERS, or bits_len not channels times 2; or where an offset's bits, or null bits, are more
 *     than fit in the octets of a sample;
 *   - MFER_SAMPLES_LENGTH where samples_len is not exactly sequences times the octets of a sequence,
 *     which are the sum over all channels of block times width;
 *   - MFER_NO_ROOM where the frame is longer than out_len, or with MFER_HEAD longer than
 *     MFER_MAX_OCTETS.
 *
 * A file that is made of such frames is its own canonical file, and reading it gives the settings and
 * samples again, frame by frame. That it has no more than MFER_MAX_FRAMES frames and MFER_MAX_OCTETS
 * octets is for the caller to see to; a file with more is refused by those who read it.
 */
uint32_t mfer_make_frame(int64_t start, uint64_t sequences, uint64_t channels,
                         const int64_t *numbers, size_t numbers_len, const uint64_t *bits,
                         size_t bits_len, const uint8_t *samples, size_t samples_len, uint8_t *out,
                         size_t out_len, uint64_t *written, uint64_t *place);

#ifdef __cplusplus
}
#endif

#endif
