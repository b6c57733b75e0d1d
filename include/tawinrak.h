/*
 * tawinrak.h: cuts one year of a search term into stretches of steady interest.
 *
 * Five functions on numbers and byte slices, in the archive libtawinrak.a. They
 * keep no state, ask for no memory, read and write no file, and need nothing
 * from outside but memory functions (memcpy, memmove, memset, memcmp, bcmp).
 *
 * Records
 *   A record is up to 400 observations of one term, each a day and a sample for
 *   each channel, and it is cut into up to 12 segments. A day is a number from 0
 *   to 4,294,967,295, above the day before it. It may count from anywhere: only
 *   the change dates depend on it. Counted from 1 January 1970, as in the
 *   examples, the day of a time_t is the time divided by 86,400, and 2026-01-01
 *   is 20454. Days without an observation are left out; nothing is made up for
 *   them.
 *
 * Channels
 *   A channel is one measure of the term, such as its queries, its clicks or the
 *   spelling that led the day. A record has 1 to 4 of them, and they share the
 *   cuts: each cutting is one for all channels. Every day has a sample for each
 *   channel; leave a day out where one of them was not measured. A channel has a
 *   kernel and a sample kind of its own, 2 bytes in this order. A call on a
 *   record takes them as a slice, 2 bytes a channel, and the channel count is
 *   half its length: 29 where that length is 0, odd or above 8. The samples of an
 *   observation come in the channels' order.
 *
 * Samples
 *   A sample is a whole number x from -1,000,000 to 1,000,000.
 *   Counts are given as they are. Where they are larger, count in hundreds.
 *   Shares are given as doubles v from about -15.26 to 15.26, and x is 65,536 * v,
 *   which must be whole: round a share to the nearest 1/65,536 first, as with
 *   round(65536 * v) / 65536. Divide percents by 100: most are out of range.
 *   Spellings are given as codes, one number for each spelling. Only whether two
 *   codes are equal counts, so number the spellings of a channel 1, 2, 3 and so on
 *   in any order. Do not use hashes: they are out of range, and cut to fit two
 *   spellings may share one. Whether "matinee" and "Matinee" are two spellings
 *   is for whoever numbers them to decide.
 *
 * Costs
 *   The cost of a segment of m observations is 4,096 * R / m, rounded down, in
 *   units of 1/4,096. R is the sum of the channels' R, rounded only then. That of
 *   a channel is a sum over all pairs x, y of its samples, each pair once:
 *     linear    R = sum of (x - y)^2
 *               R/m is the sum of squared distances from the segment's mean
 *     spelling  R = 2 * (number of pairs with x and y unequal)
 *               R/m is m less the sum of f^2/m, for f the days of each spelling
 *     energy    R = sum of |x - y|
 *               R/m grows with the spread as it is, not squared: one wild day
 *               weighs less than under linear
 *   The cost of a cutting is the sum over its segments. It is 0 where, within each
 *   segment, each channel's samples are all equal, and among all cuttings into D
 *   segments the one found has the least cost. Of several with that cost it is the
 *   one whose last segment starts earliest, then the one before it, and so on. For
 *   shares the cost is that of x: linear costs are 2^32 times, energy costs 2^16
 *   times those of v.
 *   Channels add up as they are. For a pair of days a change of spelling adds 2, a
 *   jump of a count by 1,000 adds 1,000 under energy and 1,000,000 under linear,
 *   and a jump of a share by 0.1 adds 6,554 or 42,954,916. So scale the samples
 *   until jumps that matter alike weigh alike: count in tens or hundreds, and give
 *   a share as the count of its percents.
 *
 * How many segments
 *   tawinrak_solve gives the best cutting for every count D from 1 to dmax; which
 *   D to take is the caller's choice. The cost never rises with D: it falls much
 *   while a further segment begins at a true jump, and little after. So ask for a
 *   dmax of 12, and take the D where cost + D * price is least, the price being
 *   what one more segment must save to be worth it. With one linear channel
 *   12 * 4,096 * s^2 is a fair price, for s the standard deviation of the samples
 *   x round their level (of shares, 65,536 times that of v); with n days and
 *   enough segments D it is about sqrt(cost / 4,096 / (n - D)). For the other
 *   kernels, and for several channels, no such rule is known here: look where the
 *   cost stops falling much.
 *
 * Change dates
 *   Each segment but the first has a change date. With p the last day before the
 *   segment and q its first day, it is (p + q) / 2 rounded down, a number of the
 *   same kind as the days: q is p + 1 where no day is missing, and then it is p.
 *
 * Files and forms
 *   A record file holds up to 64 records in at most 65,536 bytes. Its first byte is
 *   the count of records, its second the form, which says how wide an entry is:
 *     0   every record has one channel; entries of 12 bytes
 *     1   a record has 1 to 4 channels; entries of 19 bytes, which hold the
 *         channel count and room for four channels, the unused ones all 0
 *   A record of one channel may stand in either, and its cuts are the same.
 *
 * Slices
 *   A slice is a pointer and a length in bytes. Where the length is 0 the
 *   pointer may be NULL. No alignment is asked for. A slice that a call writes
 *   must not overlap another slice of the same call. Numbers in slices are
 *   little-endian.
 *
 * Threads and stack
 *   Calls may run at the same time on any number of threads, as long as no
 *   slice that one of them writes is lent to another at that time. No call takes
 *   more than 16 KiB of stack, and each works on a thread whose whole stack is
 *   16 KiB, what the system keeps on it included, but for tawinrak_solve of several
 *   channels: there lend a thread 24 KiB.
 *
 * Replies
 *   Each call returns one number, code + 256 * place + 4,294,967,296 * position.
 *   Keep it in a uint64_t, and take it apart with TAWINRAK_CODE, TAWINRAK_PLACE
 *   and TAWINRAK_POSITION: reply / 256 is not the place. Code 0 is "done". With
 *   any other code nothing lent was written. The place is 0 unless
 *   TAWINRAK_REPLIES says what it counts, and counts from 0. The position is a
 *   byte position, and 0 in every reply but those of two codes. With 22 it is
 *   where the entry's offset field begins in the file. With 28 it is the length
 *   of the file, or in tawinrak_write_file that of the run of bodies, which may
 *   be 0. Every input, however damaged, gets a reply. Where several codes apply,
 *   the one that the function's list names first is given.
 */
#ifndef TAWINRAK_H
#define TAWINRAK_H

#include <stddef.h>
#include <stdint.h>

#ifdef __cplusplus
extern "C" {
#endif

/* The version of this header, of the archive and of the programs beside it. */
#define TAWINRAK_VERSION "1.2"

/* A reply taken apart. */
#define TAWINRAK_CODE(reply) ((unsigned)((reply) & 255u))
#define TAWINRAK_PLACE(reply) ((unsigned)(((reply) >> 8) & 0xFFFFFFu))
#define TAWINRAK_POSITION(reply) ((unsigned)((uint64_t)(reply) >> 32))

/* The codes. */
#define TAWINRAK_DONE 0u
#define TAWINRAK_NO_OBSERVATIONS 1u
#define TAWINRAK_TOO_MANY_OBSERVATIONS 2u
#define TAWINRAK_OBSERVATION_CUT_SHORT 3u
#define TAWINRAK_SEGMENTS_OUT_OF_RANGE 4u
#define TAWINRAK_SEGMENTS_EXCEED_N 5u
#define TAWINRAK_UNKNOWN_KERNEL 6u
#define TAWINRAK_LENT_TOO_SHORT 7u
#define TAWINRAK_DAY_NOT_ABOVE 8u
#define TAWINRAK_SHARE_NOT_FINITE 9u
#define TAWINRAK_SAMPLE_OUT_OF_RANGE 10u
#define TAWINRAK_SHARE_NOT_WHOLE 11u
#define TAWINRAK_TOTAL_TOO_LARGE 12u /* kept free: no input gives it */
#define TAWINRAK_NO_WALK 13u
#define TAWINRAK_NO_STRETCH 14u
#define TAWINRAK_FILE_TOO_SHORT 20u
#define TAWINRAK_RECORD_COUNT 21u
#define TAWINRAK_BODY_MISPLACED 22u
#define TAWINRAK_TERM_NOT_ABOVE 23u
#define TAWINRAK_UNKNOWN_KIND 24u
#define TAWINRAK_BYTES_LEFT_OVER 25u
#define TAWINRAK_FILE_TOO_LONG 26u
#define TAWINRAK_OUTPUT_TOO_SHORT 27u
#define TAWINRAK_BODY_PAST_END 28u
#define TAWINRAK_CHANNEL_COUNT 29u

/* Each code, what its place counts ("" where the place is 0), and what it says. */
#define TAWINRAK_REPLIES(REPLY) \
    REPLY(TAWINRAK_DONE, "", "done") \
    REPLY(TAWINRAK_NO_OBSERVATIONS, "", "there is no observation") \
    REPLY(TAWINRAK_TOO_MANY_OBSERVATIONS, "", "there are more than 400 observations") \
    REPLY(TAWINRAK_OBSERVATION_CUT_SHORT, "", "the body ends inside an observation") \
    REPLY(TAWINRAK_SEGMENTS_OUT_OF_RANGE, "", "the count of segments is 0 or above 12") \
    REPLY(TAWINRAK_SEGMENTS_EXCEED_N, "", "there are fewer observations than segments") \
    REPLY(TAWINRAK_UNKNOWN_KERNEL, "", "a kernel is not 1, 2 or 3") \
    REPLY(TAWINRAK_LENT_TOO_SHORT, "", "a lent table, or the lent room for starts or summaries, is too short") \
    REPLY(TAWINRAK_DAY_NOT_ABOVE, "index", "a day is not above the day before it") \
    REPLY(TAWINRAK_SHARE_NOT_FINITE, "index", "a share is NaN or infinite") \
    REPLY(TAWINRAK_SAMPLE_OUT_OF_RANGE, "index", "a count, or 65,536 times a share, is not from -1,000,000 to 1,000,000") \
    REPLY(TAWINRAK_SHARE_NOT_WHOLE, "index", "65,536 times a share is not whole") \
    REPLY(TAWINRAK_TOTAL_TOO_LARGE, "", "a total of units is above 9,223,372,036,854,775,807") \
    REPLY(TAWINRAK_NO_WALK, "", "the start table holds no walk") \
    REPLY(TAWINRAK_NO_STRETCH, "", "the stretch is empty or passes the record's end") \
    REPLY(TAWINRAK_FILE_TOO_SHORT, "", "the count of records, or the contents, are cut short") \
    REPLY(TAWINRAK_RECORD_COUNT, "", "the count of records is 0 or above 64, or the form is unknown or has no room for several channels") \
    REPLY(TAWINRAK_BODY_MISPLACED, "entry", "the offset is not where the body is due, right after the body or the contents before it") \
    REPLY(TAWINRAK_TERM_NOT_ABOVE, "entry", "a term is not above the term before it") \
    REPLY(TAWINRAK_UNKNOWN_KIND, "entry", "a sample kind is not 0 or 1, or an unused channel is not 0") \
    REPLY(TAWINRAK_BYTES_LEFT_OVER, "", "there are bytes after the last body") \
    REPLY(TAWINRAK_FILE_TOO_LONG, "", "the file is longer than 65,536 bytes") \
    REPLY(TAWINRAK_OUTPUT_TOO_SHORT, "", "the lent output is too short for the file") \
    REPLY(TAWINRAK_BODY_PAST_END, "entry", "the body passes the end") \
    REPLY(TAWINRAK_CHANNEL_COUNT, "entry", "the channel count is 0 or above 4")

#define TAWINRAK_TEXT_CASE(code, counted, text) case code: return text;
#define TAWINRAK_COUNTED_CASE(code, counted, text) case code: return counted;

/* What a code says, in words. */
static inline const char *tawinrak_text(unsigned code)
{
    switch (code) {
        TAWINRAK_REPLIES(TAWINRAK_TEXT_CASE)
    default:
        return "no code of this version";
    }
}

/*
 * What the place of a code counts, "index" or "entry"; "" where the place is 0. That of 24 and 29 is 0 in the calls
 * on a record, which has no entries.
 */
static inline const char *tawinrak_counted(unsigned code)
{
    switch (code) {
        TAWINRAK_REPLIES(TAWINRAK_COUNTED_CASE)
    default:
        return "";
    }
}

/* The kernels and the sample kinds. */
#define TAWINRAK_LINEAR 1u   /* query counts and click shares: levels */
#define TAWINRAK_SPELLING 2u /* codes, of which only equality counts */
#define TAWINRAK_ENERGY 3u   /* levels, with absolute in place of squared differences */
#define TAWINRAK_COUNT 0u    /* a sample is a signed 64-bit number x */
#define TAWINRAK_SHARE 1u    /* a sample is the bits of a double v, and x is 65,536 times v */

/* The forms of a file. */
#define TAWINRAK_FORM_SINGLE 0u   /* every record has one channel */
#define TAWINRAK_FORM_CHANNELS 1u /* a record has 1 to 4 channels */

/* The limits. */
#define TAWINRAK_MOST_OBSERVATIONS 400u
#define TAWINRAK_MOST_CHANNELS 4u
#define TAWINRAK_MOST_SEGMENTS 12u
#define TAWINRAK_MOST_RECORDS 64u
#define TAWINRAK_MOST_FILE_BYTES 65536u

/* The widths, in bytes. */
#define TAWINRAK_CHANNEL_BYTES 2u         /* kernel 1, kind 1 */
#define TAWINRAK_ENTRY_BYTES 15u          /* term 2, channel count 1, four channels 8, Dmax 2, n 2 */
#define TAWINRAK_FILE_HEAD_BYTES 2u       /* the file's count of records 1, its form 1 */
#define TAWINRAK_FILE_OFFSET_BYTES 4u     /* the body's offset, the last of an entry's bytes */
#define TAWINRAK_STARTS_OUT_BYTES 24u     /* 12 starts of 2 bytes */
#define TAWINRAK_SUMMARY_BYTES 32u        /* first index 8, length 8, sum 8, mean 8 */
#define TAWINRAK_SUMMARIES_OUT_BYTES 128u /* 4 summaries */

/* An observation of so many channels: day 4, then 8 for each channel's sample. */
#define TAWINRAK_OBSERVATION_BYTES(channels) (4u + 8u * (unsigned)(channels))

/*
 * An entry of a file. In form 0: term 2, kernel 1, kind 1, Dmax 2, n 2, offset 4. In form 1: term 2, channel count 1,
 * four channels 8, Dmax 2, n 2, offset 4.
 */
#define TAWINRAK_FILE_ENTRY_BYTES(form) ((form) == TAWINRAK_FORM_SINGLE ? 12u : 19u)

/* How many bytes to lend as tables for n observations and up to dmax segments. */
#define TAWINRAK_COST_BYTES(n, dmax) ((size_t)8 * (size_t)(dmax) * ((size_t)(n) + 1))
#define TAWINRAK_START_BYTES(n, dmax) ((size_t)2 * (size_t)(dmax) * ((size_t)(n) + 1))

/* The entries of a table where no cutting exists: fewer observations than segments. */
#define TAWINRAK_NO_COST UINT64_C(18446744073709551615)
#define TAWINRAK_NO_START 65535u

/*
 * Finds the best cutting of a record for every count of segments up to dmax.
 *
 * Reads: body, n observations of TAWINRAK_OBSERVATION_BYTES(count of channels)
 * bytes each (day 4 bytes, then each channel's sample 8 bytes: a file body's
 * bytes); channels, 2 bytes each (kernel, kind); and dmax.
 *
 * Writes: the two tables. Lend at least TAWINRAK_COST_BYTES(n, dmax) and
 * TAWINRAK_START_BYTES(n, dmax) bytes; at most 38,496 and 9,624 are needed,
 * whatever the count of channels.
 * Row D (from 1), column t (from 0 to n) is entry (D-1)*(n+1) + t of 8 bytes in
 * costs and of 2 bytes in starts. It holds the least cost of the first t
 * observations in D segments, in units of 1/4,096, and the first index of the
 * last segment of the chosen cutting. Where t is less than D the entries are
 * TAWINRAK_NO_COST and TAWINRAK_NO_START. Only whole entries count towards a
 * table's length. Bytes after the last used entry keep their values.
 *
 * Tries, in this order: 29 (place 0), 24 (place 0; some channel's kind), 3, 1, 2,
 * 4, 5, 6 (some channel's kernel), 7, then 8 for every index, then by index, and
 * within an index by channel, each sample for 9, 10, 11.
 */
uint64_t tawinrak_solve(const uint8_t *body, size_t body_len, const uint8_t *channels, size_t channels_len,
                        uint64_t dmax, uint8_t *costs, size_t costs_len, uint8_t *starts, size_t starts_len);

/*
 * Reads the chosen cutting of n observations into d segments off a start table.
 *
 * Reads: starts, as tawinrak_solve filled it for the same n and a dmax of at
 * least d, or any bytes; at least TAWINRAK_START_BYTES(n, d) of them. The kernel
 * is that of the record's first channel; it is judged, and changes nothing else.
 *
 * Writes: the first 24 bytes of out, 12 starts of 2 bytes each: the first index
 * of every segment in order, the first being 0, then 0 in the unused places.
 * Bytes of out after the first 24 keep their values.
 *
 * Tries, in this order: 1, 2, 4, 5, 6, 7 (starts or out too short), 13. The
 * walk goes back from n. Each start met for count D is at least D-1 and below
 * the current end, and 0 for D = 1; any table content of that form is accepted.
 */
uint64_t tawinrak_read_cuts(const uint8_t *starts, size_t starts_len, uint64_t n, uint64_t d, uint64_t kernel,
                            uint8_t *out, size_t out_len);

/*
 * Judges a record file: whether its count, form, contents and bodies are in order.
 *
 * Reads: file. It holds the count of records (1 byte), the form (1 byte), an
 * entry of TAWINRAK_FILE_ENTRY_BYTES(form) bytes for each record, then the bodies
 * in the same order without gaps, the first where the contents end. An entry is
 *   in form 0 (12 bytes)   term 2, kernel 1, kind 1, Dmax 2, n 2, offset 4
 *   in form 1 (19 bytes)   term 2, channel count 1, four channels of kernel 1 and
 *                          kind 1, the unused ones 0, Dmax 2, n 2, offset 4
 * where the offset is that of the body from the file's start. Once the reply is 0,
 * the channel counts and kinds are in order, and every entry's body, n observations
 * of 4 bytes and 8 for each of its channels, lies inside the file at its offset.
 * Kernels, Dmax, n, days and samples are judged by tawinrak_solve.
 * A file has room for a year of days each of 14 terms of one channel, of 8 of two,
 * of 6 of three or of 4 of four; for 64 terms it has room for 83 observations each
 * of one channel (84 in form 0), 50 of two, 35 of three or 27 of four.
 *
 * Writes: nothing.
 *
 * Tries, in this order: 26, 20 (no room for the count and the form), 21 (the
 * count, then an unknown form), 20 (no room for the contents), then entry by entry
 * 23, 29, 24, 22, 28, then 25. So an offset that is not where its body is due is
 * 22 even where that body would also pass the end.
 */
uint64_t tawinrak_read_file(const uint8_t *file, size_t file_len);

/*
 * Writes a record file of the form asked for.
 *
 * Reads: form; entries, 15 bytes each in either form (term 2, channel count 1,
 * four channels of kernel 1 and kind 1, the unused ones 0, Dmax 2, n 2); and
 * bodies, the run of all bodies' bytes in the same order, n observations of 4
 * bytes and 8 for each channel.
 *
 * Writes: the first 2 + TAWINRAK_FILE_ENTRY_BYTES(form) * (count of entries) +
 * bodies_len bytes of out, the file, with the offsets worked out; bodies are kept
 * to the bit. 65,536 bytes are always enough. Bytes of out after the file keep
 * their values.
 *
 * Tries, in this order: 20 (a last entry cut short), 21 (the count of entries, an
 * unknown form, or form 0 and a channel count above 1 in any entry; place 0), then
 * entry by entry 23, 29, 24, 28 (the run ends inside that body), then 25 (bytes
 * left over), 26, 27. Since 26 comes later, the position of 28 may be above
 * 65,536.
 */
uint64_t tawinrak_write_file(uint64_t form, const uint8_t *entries, size_t entries_len,
                             const uint8_t *bodies, size_t bodies_len, uint8_t *out, size_t out_len);

/*
 * Summarizes a stretch of a record, such as a segment: the sum and the mean of each
 * channel's samples x.
 *
 * Reads: body and channels as tawinrak_solve does, and the stretch by its first
 * index and its length. The whole record is judged, not the stretch alone.
 *
 * Writes: the first 128 bytes of out, 4 summaries of 32 bytes each, one for each
 * channel in order: first index 8 bytes, length 8 bytes, sum 8 bytes (signed, two's
 * complement), mean 8 bytes (the bits of the double sum / length). For shares sum
 * and mean are those of x; divide by 65,536 for those of v. For a spelling channel
 * sum and mean are 0. The summaries of unused channels are 0 throughout. Every mean
 * that is 0 is positive zero. Bytes of out after the first 128 keep their values.
 *
 * Tries, in this order: 29 (place 0), 24 (place 0), 3, 1, 2, 6, 8 for every index,
 * then by index, and within an index by channel, each sample for 9, 10, 11, then 14,
 * then 7 (out too short).
 */
uint64_t tawinrak_summarize(const uint8_t *body, size_t body_len, const uint8_t *channels, size_t channels_len,
                            uint64_t first, uint64_t length, uint8_t *out, size_t out_len);

#ifdef __cplusplus
}
#endif

#endif
