/*
 * standin.c: the five C functions written plainly in C, over bench/whole.c. They
 * stand in for libtawinrak.a so that the comparison itself can be tried, sound
 * and with a fault put in.
 */
#include "tawinrak.h"
#include "whole.h"

#include <math.h>
#include <string.h>

enum { LIMIT = 1000000 };

static uint64_t reply_at(uint64_t code, uint64_t place, uint64_t position)
{
    return code + 256 * place + UINT64_C(4294967296) * position;
}

static uint64_t number_at(const uint8_t *bytes, unsigned width)
{
    uint64_t number = 0;
    while (width-- > 0)
        number = 256 * number + bytes[width];
    return number;
}

static void put_number(uint8_t *bytes, unsigned width, uint64_t number)
{
    for (unsigned i = 0; i < width; i++)
        bytes[i] = (uint8_t)(number >> (8 * i));
}

uint64_t tawinrak_solve(const uint8_t *body, size_t body_len, const uint8_t *channels, size_t channels_len,
                        uint64_t dmax, uint8_t *costs, size_t costs_len, uint8_t *starts, size_t starts_len)
{
    return whole_solve(body, body_len, channels, channels_len, dmax, costs, costs_len, starts, starts_len);
}

static uint64_t judge_walk(size_t starts_len, uint64_t n, uint64_t d, uint64_t kernel, size_t out_len)
{
    if (n == 0)
        return TAWINRAK_NO_OBSERVATIONS;
    if (n > TAWINRAK_MOST_OBSERVATIONS)
        return TAWINRAK_TOO_MANY_OBSERVATIONS;
    if (d == 0 || d > TAWINRAK_MOST_SEGMENTS)
        return TAWINRAK_SEGMENTS_OUT_OF_RANGE;
    if (d > n)
        return TAWINRAK_SEGMENTS_EXCEED_N;
    if (kernel < TAWINRAK_LINEAR || kernel > TAWINRAK_ENERGY)
        return TAWINRAK_UNKNOWN_KERNEL;
    if (starts_len / 2 < d * (n + 1) || out_len < TAWINRAK_STARTS_OUT_BYTES)
        return TAWINRAK_LENT_TOO_SHORT;
    return TAWINRAK_DONE;
}

uint64_t tawinrak_read_cuts(const uint8_t *starts, size_t starts_len, uint64_t n, uint64_t d, uint64_t kernel,
                            uint8_t *out, size_t out_len)
{
    uint8_t walk[TAWINRAK_STARTS_OUT_BYTES] = {0};
    uint64_t end = n;
    uint64_t reply = judge_walk(starts_len, n, d, kernel, out_len);
    if (reply != TAWINRAK_DONE)
        return reply;
    for (uint64_t count = d; count > 0; count--) {
        uint64_t start = number_at(starts + 2 * ((count - 1) * (n + 1) + end), 2);
        if (start < count - 1 || start >= end || (count == 1 && start != 0))
            return TAWINRAK_NO_WALK;
        put_number(walk + 2 * (count - 1), 2, start);
        end = start;
    }
    memcpy(out, walk, sizeof walk);
    return TAWINRAK_DONE;
}

/* Where an entry's parts stand: as it is lent and in form 1, or in form 0. The offset ends an entry of a file. */
enum { CHANNEL_COUNT = 2, CHANNELS = 3, CHANNELS_OF_FORM_0 = 2 };

static uint64_t channels_of(uint64_t form, const uint8_t *entry)
{
    return form == TAWINRAK_FORM_SINGLE ? 1 : entry[CHANNEL_COUNT];
}

static uint64_t body_of(uint64_t form, const uint8_t *entry, const uint8_t *n)
{
    return TAWINRAK_OBSERVATION_BYTES(channels_of(form, entry)) * number_at(n, 2);
}

/* Tries the kinds of the used channels, and the bytes of the unused ones. */
static uint64_t judge_channels(const uint8_t *channels, uint64_t count, uint64_t lent)
{
    for (uint64_t i = 0; i < count; i++)
        if (channels[TAWINRAK_CHANNEL_BYTES * i + 1] > 1)
            return TAWINRAK_UNKNOWN_KIND;
    for (uint64_t i = TAWINRAK_CHANNEL_BYTES * count; i < TAWINRAK_CHANNEL_BYTES * lent; i++)
        if (channels[i] != 0)
            return TAWINRAK_UNKNOWN_KIND;
    return TAWINRAK_DONE;
}

/* Tries an entry's term, channel count and kinds. Entries as they are lent stand as those of form 1. */
static uint64_t judge_entry(uint64_t form, const uint8_t *entry, const uint8_t *before, uint64_t place)
{
    uint64_t count = channels_of(form, entry), code;
    if (before != NULL && number_at(entry, 2) <= number_at(before, 2))
        return reply_at(TAWINRAK_TERM_NOT_ABOVE, place, 0);
    if (count == 0 || count > TAWINRAK_MOST_CHANNELS)
        return reply_at(TAWINRAK_CHANNEL_COUNT, place, 0);
    if (form == TAWINRAK_FORM_SINGLE)
        code = judge_channels(entry + CHANNELS_OF_FORM_0, 1, 1);
    else
        code = judge_channels(entry + CHANNELS, count, TAWINRAK_MOST_CHANNELS);
    return code == TAWINRAK_DONE ? code : reply_at(code, place, 0);
}

static uint64_t judge_contents(const uint8_t *file, size_t file_len)
{
    uint64_t count = file[0], form = file[1], width = TAWINRAK_FILE_ENTRY_BYTES(form);
    uint64_t end = TAWINRAK_FILE_HEAD_BYTES + width * count;
    for (uint64_t i = 0; i < count; i++) {
        const uint8_t *entry = file + TAWINRAK_FILE_HEAD_BYTES + width * i;
        const uint8_t *offset = entry + width - TAWINRAK_FILE_OFFSET_BYTES;
        uint64_t reply = judge_entry(form, entry, i == 0 ? NULL : entry - width, i);
        if (reply != TAWINRAK_DONE)
            return reply;
        uint64_t body = body_of(form, entry, offset - 2);
        if (number_at(offset, 4) != end)
            return reply_at(TAWINRAK_BODY_MISPLACED, i, (uint64_t)(offset - file));
        if (end + body > file_len)
            return reply_at(TAWINRAK_BODY_PAST_END, i, file_len);
        end += body;
    }
    return end < file_len ? TAWINRAK_BYTES_LEFT_OVER : TAWINRAK_DONE;
}

/* Tries a count of records and a form, the same in a file and for the writer. */
static uint64_t judge_head(uint64_t count, uint64_t form)
{
    if (count == 0 || count > TAWINRAK_MOST_RECORDS || form > TAWINRAK_FORM_CHANNELS)
        return TAWINRAK_RECORD_COUNT;
    return TAWINRAK_DONE;
}

uint64_t tawinrak_read_file(const uint8_t *file, size_t file_len)
{
    if (file_len > TAWINRAK_MOST_FILE_BYTES)
        return TAWINRAK_FILE_TOO_LONG;
    if (file_len < TAWINRAK_FILE_HEAD_BYTES)
        return TAWINRAK_FILE_TOO_SHORT;
    uint64_t reply = judge_head(file[0], file[1]);
    if (reply != TAWINRAK_DONE)
        return reply;
    if (file_len < TAWINRAK_FILE_HEAD_BYTES + TAWINRAK_FILE_ENTRY_BYTES(file[1]) * file[0])
        return TAWINRAK_FILE_TOO_SHORT;
    return judge_contents(file, file_len);
}

/* Tries the form for the entries lent: form 0 has no room for a second channel. */
static uint64_t judge_form(uint64_t form, const uint8_t *entries, uint64_t count)
{
    uint64_t reply = judge_head(count, form);
    for (uint64_t i = 0; reply == TAWINRAK_DONE && form == TAWINRAK_FORM_SINGLE && i < count; i++)
        if (entries[TAWINRAK_ENTRY_BYTES * i + CHANNEL_COUNT] > 1)
            reply = TAWINRAK_RECORD_COUNT;
    return reply;
}

static uint64_t judge_entries(const uint8_t *entries, uint64_t count, size_t bodies_len)
{
    uint64_t end = 0;
    for (uint64_t i = 0; i < count; i++) {
        const uint8_t *entry = entries + TAWINRAK_ENTRY_BYTES * i;
        const uint8_t *before = i == 0 ? NULL : entry - TAWINRAK_ENTRY_BYTES;
        uint64_t reply = judge_entry(TAWINRAK_FORM_CHANNELS, entry, before, i);
        if (reply != TAWINRAK_DONE)
            return reply;
        end += body_of(TAWINRAK_FORM_CHANNELS, entry, entry + TAWINRAK_ENTRY_BYTES - 2);
        if (end > bodies_len)
            return reply_at(TAWINRAK_BODY_PAST_END, i, bodies_len);
    }
    return end < bodies_len ? TAWINRAK_BYTES_LEFT_OVER : TAWINRAK_DONE;
}

/* Puts a lent entry into a file of the form, up to its offset. */
static void put_entry(uint64_t form, const uint8_t *lent, uint8_t *entry)
{
    if (form != TAWINRAK_FORM_SINGLE) {
        memcpy(entry, lent, TAWINRAK_ENTRY_BYTES);
        return;
    }
    memcpy(entry, lent, CHANNELS_OF_FORM_0);
    memcpy(entry + CHANNELS_OF_FORM_0, lent + CHANNELS, TAWINRAK_CHANNEL_BYTES);
    memcpy(entry + CHANNELS_OF_FORM_0 + TAWINRAK_CHANNEL_BYTES, lent + TAWINRAK_ENTRY_BYTES - 4, 4);
}

static void put_contents(uint64_t form, const uint8_t *entries, uint64_t count, uint8_t *out)
{
    uint64_t width = TAWINRAK_FILE_ENTRY_BYTES(form), offset = TAWINRAK_FILE_HEAD_BYTES + width * count;
    out[0] = (uint8_t)count;
    out[1] = (uint8_t)form;
    for (uint64_t i = 0; i < count; i++) {
        const uint8_t *lent = entries + TAWINRAK_ENTRY_BYTES * i;
        uint8_t *entry = out + TAWINRAK_FILE_HEAD_BYTES + width * i;
        put_entry(form, lent, entry);
        put_number(entry + width - 4, 4, offset);
        offset += body_of(TAWINRAK_FORM_CHANNELS, lent, lent + TAWINRAK_ENTRY_BYTES - 2);
    }
}

uint64_t tawinrak_write_file(uint64_t form, const uint8_t *entries, size_t entries_len,
                             const uint8_t *bodies, size_t bodies_len, uint8_t *out, size_t out_len)
{
    uint64_t count = entries_len / TAWINRAK_ENTRY_BYTES;
    if (entries_len % TAWINRAK_ENTRY_BYTES != 0)
        return TAWINRAK_FILE_TOO_SHORT;
    uint64_t reply = judge_form(form, entries, count);
    if (reply == TAWINRAK_DONE)
        reply = judge_entries(entries, count, bodies_len);
    if (reply != TAWINRAK_DONE)
        return reply;
    uint64_t contents = TAWINRAK_FILE_HEAD_BYTES + TAWINRAK_FILE_ENTRY_BYTES(form) * count;
    if (contents + bodies_len > TAWINRAK_MOST_FILE_BYTES)
        return TAWINRAK_FILE_TOO_LONG;
    if (out_len < contents + bodies_len)
        return TAWINRAK_OUTPUT_TOO_SHORT;
    put_contents(form, entries, count, out);
    if (bodies_len > 0)
        memcpy(out + contents, bodies, bodies_len);
    return TAWINRAK_DONE;
}

/* A record that is to be summarized. */
typedef struct {
    const uint8_t *body, *channels;
    uint64_t count, width, n;
} Record;

static uint64_t judge_list(const uint8_t *channels, size_t channels_len)
{
    uint64_t count = channels_len / TAWINRAK_CHANNEL_BYTES;
    if (channels_len % TAWINRAK_CHANNEL_BYTES != 0 || count == 0 || count > TAWINRAK_MOST_CHANNELS)
        return TAWINRAK_CHANNEL_COUNT;
    return judge_channels(channels, count, count);
}

static uint64_t judge_shape(const Record *record, size_t body_len)
{
    if (body_len % record->width != 0)
        return TAWINRAK_OBSERVATION_CUT_SHORT;
    if (record->n == 0)
        return TAWINRAK_NO_OBSERVATIONS;
    if (record->n > TAWINRAK_MOST_OBSERVATIONS)
        return TAWINRAK_TOO_MANY_OBSERVATIONS;
    for (uint64_t i = 0; i < record->count; i++) {
        uint8_t kernel = record->channels[TAWINRAK_CHANNEL_BYTES * i];
        if (kernel < TAWINRAK_LINEAR || kernel > TAWINRAK_ENERGY)
            return TAWINRAK_UNKNOWN_KERNEL;
    }
    return TAWINRAK_DONE;
}

/* A sample's code and, where it is 0, its x. */
static uint64_t judge_sample(const Record *record, uint64_t index, uint64_t channel, int64_t *x)
{
    const uint8_t *bytes = record->body + record->width * index + 4 + 8 * channel;
    double share;
    memcpy(x, bytes, 8);
    memcpy(&share, bytes, 8);
    if (record->channels[TAWINRAK_CHANNEL_BYTES * channel + 1] == TAWINRAK_COUNT)
        return *x < -LIMIT || *x > LIMIT ? TAWINRAK_SAMPLE_OUT_OF_RANGE : TAWINRAK_DONE;
    if (!isfinite(share))
        return TAWINRAK_SHARE_NOT_FINITE;
    if (!(share * 65536 >= -LIMIT && share * 65536 <= LIMIT))
        return TAWINRAK_SAMPLE_OUT_OF_RANGE;
    *x = (int64_t)(share * 65536);
    return (double)*x == share * 65536 ? TAWINRAK_DONE : TAWINRAK_SHARE_NOT_WHOLE;
}

static uint64_t judge_observations(const Record *record)
{
    int64_t x;
    for (uint64_t i = 1; i < record->n; i++) {
        const uint8_t *day = record->body + record->width * i;
        if (number_at(day, 4) <= number_at(day - record->width, 4))
            return reply_at(TAWINRAK_DAY_NOT_ABOVE, i, 0);
    }
    for (uint64_t i = 0; i < record->n; i++)
        for (uint64_t channel = 0; channel < record->count; channel++) {
            uint64_t code = judge_sample(record, i, channel, &x);
            if (code != TAWINRAK_DONE)
                return reply_at(code, i, 0);
        }
    return TAWINRAK_DONE;
}

static void put_summary(const Record *record, uint64_t channel, uint64_t first, uint64_t length, uint8_t *out)
{
    int64_t sum = 0, x = 0;
    if (record->channels[TAWINRAK_CHANNEL_BYTES * channel] != TAWINRAK_SPELLING)
        for (uint64_t i = first; i < first + length; i++) {
            judge_sample(record, i, channel, &x);
            sum += x;
        }
    double mean = (double)sum / (double)length;
    put_number(out, 8, first);
    put_number(out + 8, 8, length);
    put_number(out + 16, 8, (uint64_t)sum);
    memcpy(out + 24, &mean, sizeof mean);
}

static uint64_t judge_record(Record *record, size_t body_len, size_t channels_len)
{
    uint64_t reply = judge_list(record->channels, channels_len);
    if (reply != TAWINRAK_DONE)
        return reply;
    record->count = channels_len / TAWINRAK_CHANNEL_BYTES;
    record->width = TAWINRAK_OBSERVATION_BYTES(record->count);
    record->n = body_len / record->width;
    reply = judge_shape(record, body_len);
    return reply == TAWINRAK_DONE ? judge_observations(record) : reply;
}

uint64_t tawinrak_summarize(const uint8_t *body, size_t body_len, const uint8_t *channels, size_t channels_len,
                            uint64_t first, uint64_t length, uint8_t *out, size_t out_len)
{
    Record record = {body, channels, 0, 0, 0};
    uint64_t reply = judge_record(&record, body_len, channels_len);
    if (reply != TAWINRAK_DONE)
        return reply;
    if (length == 0 || length > record.n || first > record.n - length)
        return TAWINRAK_NO_STRETCH;
    if (out_len < TAWINRAK_SUMMARIES_OUT_BYTES)
        return TAWINRAK_LENT_TOO_SHORT;
    for (uint64_t i = 0; i < record.count; i++)
        put_summary(&record, i, first, length, out + TAWINRAK_SUMMARY_BYTES * i);
    memset(out + TAWINRAK_SUMMARY_BYTES * record.count, 0,
           TAWINRAK_SUMMARY_BYTES * (TAWINRAK_MOST_CHANNELS - record.count));
    return TAWINRAK_DONE;
}
