/*
 * make_record.c: makes a record file of a text, through the C functions; `./pack --help`
 * says what stands in the text.
 *
 *   make_record [FILE] >RECORD     without FILE, or for -, it reads standard input
 *
 * What the text says is judged by the library itself, so whatever is packed is solved. Every
 * fault is told with its line, and then nothing is written.
 */
#include "make_record/faults.h"
#include "make_record/lines.h"
#include "make_record/values.h"
#include "tawinrak.h"

#include <errno.h>
#include <signal.h>
#include <stdbool.h>
#include <stdio.h>
#include <string.h>
#include <unistd.h>

/* What the program ends with. */
enum { PACKED = 0, FAULTY = 1, NOT_ANSWERED = 3 };

/* The line at hand. */
static Line line;
static unsigned line_number;

/* Notes a fault of the line at hand; answers false. */
static bool fault(const char *words, const char *field)
{
    note_fault(line_number, words, field);
    return false;
}

/* Notes what a reply of the library says, if it is a refusal, behind words that say of what it is. */
static void note_reply(unsigned of_line, const char *of, uint64_t reply)
{
    char words[160];
    unsigned code = TAWINRAK_CODE(reply);
    if (code == TAWINRAK_DONE)
        return;
    snprintf(words, sizeof words, "%s%s (code %u)", of, tawinrak_text(code), code);
    note_fault(of_line, words, NULL);
}

/* ---- the file that is made */

/* The widest observation. */
enum { WIDEST = TAWINRAK_OBSERVATION_BYTES(TAWINRAK_MOST_CHANNELS) };

/* One entry and one observation more than a file may have, so that the writer tells it. */
static uint8_t entries[TAWINRAK_ENTRY_BYTES * (TAWINRAK_MOST_RECORDS + 1)];
static uint8_t bodies[TAWINRAK_MOST_FILE_BYTES + WIDEST];
static uint8_t file[TAWINRAK_MOST_FILE_BYTES];
static size_t entry_count, bodies_len;

/* The form that the terms up to here need. */
static unsigned form = TAWINRAK_FORM_SINGLE;

/* The line of the last entry or observation kept. */
static unsigned kept_line;

static void put_number(uint8_t *bytes, unsigned width, uint64_t number)
{
    for (unsigned i = 0; i < width; i++)
        bytes[i] = (uint8_t)(number >> (8 * i));
}

static size_t file_length(void)
{
    return TAWINRAK_FILE_HEAD_BYTES + TAWINRAK_FILE_ENTRY_BYTES(form) * entry_count + bodies_len;
}

/* Whether there is more to keep: what passes a file's end is kept, what comes after it is not. */
static bool more_to_keep(void)
{
    bool more = entry_count <= TAWINRAK_MOST_RECORDS && file_length() <= TAWINRAK_MOST_FILE_BYTES;
    if (more)
        kept_line = line_number;
    return more;
}

/* ---- the term at hand */

typedef enum { COUNTS, SHARES, ROUNDED_SHARES, WORDS } Samples;

typedef struct {
    unsigned kernel;
    Samples samples;
} Channel;

/* One channel more than there may be, so that the library tells it. */
enum { MOST_TOLD_CHANNELS = TAWINRAK_MOST_CHANNELS + 1 };

typedef struct {
    bool begun; /* there is one */
    bool sound; /* and its term line is understood */
    unsigned line, number, dmax;
    Channel channels[MOST_TOLD_CHANNELS];
    unsigned channel_count;
    bool samples_first; /* samples are said before any kernel */
    unsigned n;         /* how many observations stand below it up to here */
    bool has_day;       /* whether one of them has a day, .. */
    uint32_t day;       /* .. and the last such day */
} Term;

static Term term;

/* The spellings of each channel of the term at hand, each with its index and 1 for its code. */
static struct {
    char words[TAWINRAK_MOST_OBSERVATIONS][LINE_BYTES + 1];
    unsigned count;
} spellings[TAWINRAK_MOST_CHANNELS];

/* The samples of an observation without any. */
static const uint64_t zeros[TAWINRAK_MOST_CHANNELS];

static uint8_t kind_of(const Channel *channel)
{
    return channel->samples == SHARES || channel->samples == ROUNDED_SHARES ? TAWINRAK_SHARE : TAWINRAK_COUNT;
}

static void put_channels(uint8_t *bytes)
{
    for (unsigned i = 0; i < term.channel_count; i++) {
        put_number(bytes + TAWINRAK_CHANNEL_BYTES * i, 1, term.channels[i].kernel);
        put_number(bytes + TAWINRAK_CHANNEL_BYTES * i + 1, 1, kind_of(&term.channels[i]));
    }
}

/* Puts an observation of so many channels, and answers where it ends. */
static uint8_t *put_observation(uint8_t *bytes, uint32_t day, const uint64_t *samples, unsigned channel_count)
{
    put_number(bytes, 4, day);
    for (unsigned i = 0; i < channel_count; i++)
        put_number(bytes + TAWINRAK_OBSERVATION_BYTES(i), 8, samples[i]);
    return bytes + TAWINRAK_OBSERVATION_BYTES(channel_count);
}

/* What solve says of a body of so many channels, cut into up to dmax segments. */
static uint64_t solved(const uint8_t *body, size_t body_len, const uint8_t *channels, unsigned channel_count,
                       unsigned dmax)
{
    static uint8_t costs[TAWINRAK_COST_BYTES(TAWINRAK_MOST_OBSERVATIONS, TAWINRAK_MOST_SEGMENTS)];
    static uint8_t starts[TAWINRAK_START_BYTES(TAWINRAK_MOST_OBSERVATIONS, TAWINRAK_MOST_SEGMENTS)];
    return tawinrak_solve(body, body_len, channels, TAWINRAK_CHANNEL_BYTES * channel_count, dmax, costs, sizeof costs,
                          starts, sizeof starts);
}

/* Judges how many observations the term has, its kernels and its Dmax, on a body with no other fault. */
static void end_term(void)
{
    static uint8_t body[WIDEST * (TAWINRAK_MOST_OBSERVATIONS + 1)];
    uint8_t channels[TAWINRAK_CHANNEL_BYTES * MOST_TOLD_CHANNELS], *end = body;
    if (!term.sound)
        return;
    for (unsigned i = 0; i < term.n && i <= TAWINRAK_MOST_OBSERVATIONS; i++)
        end = put_observation(end, i, zeros, term.channel_count);
    put_channels(channels);
    note_reply(term.line, "", solved(body, (size_t)(end - body), channels, term.channel_count, term.dmax));
}

/* ---- term lines: pairs of a key and its value, in any order after the first but for the samples of several kernels */

static const char *set_term(const char *value)
{
    uint64_t number;
    if (!read_number(value, UINT16_MAX + 1u, &number) || number > UINT16_MAX)
        return "is not a term number from 0 to 65,535";
    term.number = (unsigned)number;
    return NULL;
}

/* Opens a channel, the last one anew where there is no place for a further one. */
static const char *set_kernel(const char *value)
{
    static const char *const names[] = {"linear", "spelling", "energy"};
    uint64_t number = 0;
    while (number < 3 && strcmp(value, names[number]) != 0)
        number++;
    if (number < 3)
        number += TAWINRAK_LINEAR;
    else if (!read_number(value, UINT8_MAX, &number))
        return "is not linear, spelling or energy";
    if (term.channel_count < MOST_TOLD_CHANNELS)
        term.channel_count++;
    term.channels[term.channel_count - 1].kernel = (unsigned)number;
    return NULL;
}

/* Says the samples of the last kernel; before any kernel, those of the first. */
static const char *set_samples(const char *value)
{
    static const char *const names[] = {"counts", "shares", "rounded-shares", "words"};
    unsigned named = 0;
    while (named < 4 && strcmp(value, names[named]) != 0)
        named++;
    if (named == 4)
        return "is not counts, shares, rounded-shares or words";
    term.samples_first = term.samples_first || term.channel_count == 0;
    term.channels[term.channel_count > 0 ? term.channel_count - 1 : 0].samples = (Samples)named;
    return NULL;
}

static const char *set_dmax(const char *value)
{
    uint64_t number;
    if (!read_number(value, UINT16_MAX, &number))
        return "is not a count of segments";
    term.dmax = (unsigned)number;
    return NULL;
}

/* What a term line may say. Each answers what is wrong with a value, or NULL. */
static const struct {
    const char *word;
    const char *(*set)(const char *value);
    const char *missing; /* NULL where it may be left out */
} keys[] = {
    {"term", set_term, "the term line names no term"},
    {"kernel", set_kernel, "the term line names no kernel"},
    {"samples", set_samples, NULL},
    {"dmax", set_dmax, "the term line has no dmax"},
};
enum { TERM, KERNEL, SAMPLES, DMAX, KEYS };

/* Reads one pair of a term line; given holds which keys are given before it, as to samples for the last kernel. */
static bool read_pair(const char *word, const char *value, bool *given)
{
    size_t key = 0;
    while (key < KEYS && strcmp(keys[key].word, word) != 0)
        key++;
    if (key == KEYS)
        return fault("is not term, kernel, samples or dmax", word);
    if (value == NULL)
        return fault("has no value", word);
    if (key == KERNEL && given[KERNEL])
        given[SAMPLES] = false;
    else if (given[key])
        return fault("is said twice", word);
    given[key] = true;
    const char *wrong = keys[key].set(value);
    return wrong == NULL || fault(wrong, value);
}

/* Judges how many channels there are, and what is said of their samples. */
static bool judge_channels(void)
{
    uint8_t channels[TAWINRAK_CHANNEL_BYTES * MOST_TOLD_CHANNELS];
    put_channels(channels);
    uint64_t reply = solved(NULL, 0, channels, term.channel_count, term.dmax);
    if (TAWINRAK_CODE(reply) == TAWINRAK_CHANNEL_COUNT) {
        note_reply(line_number, "", reply);
        return false;
    }
    if (term.samples_first && term.channel_count > 1)
        return fault("samples stand before any kernel, and each of several has its own behind it", NULL);
    for (unsigned i = 0; i < term.channel_count; i++)
        if (term.channels[i].samples == WORDS && term.channels[i].kernel != TAWINRAK_SPELLING)
            return fault("words are samples for the spelling kernel alone", NULL);
    return true;
}

static bool read_pairs(void)
{
    bool given[KEYS] = {false}, sound = true;
    for (unsigned i = 0; i < line.field_count; i += 2)
        sound = read_pair(line.fields[i], i + 1 < line.field_count ? line.fields[i + 1] : NULL, given) && sound;
    for (size_t key = 0; sound && key < KEYS; key++)
        if (!given[key] && keys[key].missing != NULL)
            sound = fault(keys[key].missing, NULL);
    return sound && judge_channels();
}

static void put_entry(uint8_t *entry, unsigned number, unsigned channel_count)
{
    put_number(entry, 2, number);
    put_number(entry + 2, 1, channel_count);
}

/* Judges a term's number beside that of the term before it, on a file of two empty records of one channel. */
static void judge_order(unsigned before)
{
    uint8_t two[2 * TAWINRAK_ENTRY_BYTES] = {0};
    put_entry(two, before, 1);
    put_entry(two + TAWINRAK_ENTRY_BYTES, term.number, 1);
    note_reply(line_number, "",
               tawinrak_write_file(TAWINRAK_FORM_SINGLE, two, sizeof two, NULL, 0, file, sizeof file));
}

static void keep_entry(void)
{
    if (!more_to_keep())
        return;
    uint8_t *entry = entries + TAWINRAK_ENTRY_BYTES * entry_count++;
    put_entry(entry, term.number, term.channel_count);
    put_channels(entry + 3);
    put_number(entry + 11, 2, term.dmax);
    if (term.channel_count > 1)
        form = TAWINRAK_FORM_CHANNELS;
}

static void read_term(void)
{
    static int before = -1;
    end_term();
    term = (Term){.begun = true, .line = line_number};
    for (unsigned i = 0; i < TAWINRAK_MOST_CHANNELS; i++)
        spellings[i].count = 0;
    term.sound = read_pairs();
    if (!term.sound)
        return;
    if (before >= 0)
        judge_order((unsigned)before);
    before = (int)term.number;
    keep_entry();
}

/* ---- observations */

static bool read_day(const char *text, uint32_t *day)
{
    uint64_t number;
    if (read_date(text, day))
        return true;
    if (strchr(text, '-') != NULL)
        return fault("is not a date from 1970-01-01 to 9999-12-31", text);
    if (!read_number(text, (uint64_t)UINT32_MAX + 1, &number) || number > UINT32_MAX)
        return fault("is neither a date such as 2026-01-31 nor a day number up to 4,294,967,295", text);
    *day = (uint32_t)number;
    return true;
}

/* A count too large for 64 bits becomes the largest there is: it is out of range all the same. */
static bool read_count(const char *text, uint64_t *sample)
{
    bool negative = text[0] == '-';
    uint64_t magnitude;
    if (!read_number(text + negative, INT64_MAX, &magnitude))
        return fault("is not a whole number, as counts are", text);
    *sample = negative ? 0 - magnitude : magnitude;
    return true;
}

static bool read_real(const char *text, bool rounded, uint64_t *sample)
{
    double share;
    if (!read_share(text, &share))
        return fault("is not a number", text);
    if (rounded)
        share = rounded_share(share);
    memcpy(sample, &share, sizeof share);
    return true;
}

/* The code of a spelling: a new one gets the next. There is room for as many as a record may have. */
static uint64_t spelling_code(unsigned channel, const char *text)
{
    unsigned index = 0, count = spellings[channel].count;
    while (index < count && strcmp(spellings[channel].words[index], text) != 0)
        index++;
    if (index == count && count < TAWINRAK_MOST_OBSERVATIONS)
        strcpy(spellings[channel].words[spellings[channel].count++], text);
    return index + 1;
}

static bool read_sample(unsigned channel, const char *text, uint64_t *sample)
{
    switch (term.channels[channel].samples) {
    case COUNTS:
        return read_count(text, sample);
    case WORDS:
        *sample = spelling_code(channel, text);
        return true;
    default:
        return read_real(text, term.channels[channel].samples == ROUNDED_SHARES, sample);
    }
}

static void keep_observation(uint32_t day, const uint64_t *samples)
{
    if (!more_to_keep())
        return;
    uint8_t *n = entries + TAWINRAK_ENTRY_BYTES * entry_count - 2;
    put_number(n, 2, n[0] + 256u * n[1] + 1);
    bodies_len = (size_t)(put_observation(bodies + bodies_len, day, samples, term.channel_count) - bodies);
}

/* Judges a day behind the day before it, if there is one, on a record of the two. */
static void judge_day(uint32_t day)
{
    static const uint8_t channel[TAWINRAK_CHANNEL_BYTES] = {TAWINRAK_LINEAR, TAWINRAK_COUNT};
    uint8_t body[2 * TAWINRAK_OBSERVATION_BYTES(1)], *end = body;
    if (term.has_day)
        end = put_observation(end, term.day, zeros, 1);
    end = put_observation(end, day, zeros, 1);
    note_reply(line_number, "", solved(body, (size_t)(end - body), channel, 1, 1));
    term.has_day = true;
    term.day = day;
}

/* Judges a sample on a record of its own; one of several is told by its number. */
static void judge_sample(unsigned channel, uint64_t sample)
{
    uint8_t one[TAWINRAK_CHANNEL_BYTES] = {TAWINRAK_LINEAR, kind_of(&term.channels[channel])};
    uint8_t body[TAWINRAK_OBSERVATION_BYTES(1)];
    char of[32] = "";
    if (term.channel_count > 1)
        snprintf(of, sizeof of, "sample %u: ", channel + 1);
    put_observation(body, 0, &sample, 1);
    note_reply(line_number, of, solved(body, sizeof body, one, 1, 1));
}

/* Notes that the line at hand has fewer or more fields than an observation of the term at hand. */
static void note_fields(void)
{
    char words[80] = "an observation is two fields, a day and a sample";
    if (term.channel_count > 1)
        snprintf(words, sizeof words, "an observation of this term is %u fields, a day and %u samples",
                 1 + term.channel_count, term.channel_count);
    fault(words, NULL);
}

static void read_observation(void)
{
    uint32_t day;
    uint64_t samples[TAWINRAK_MOST_CHANNELS];
    if (line.field_count != 1 + term.channel_count) {
        note_fields();
        return;
    }
    bool sound = read_day(line.fields[0], &day);
    if (sound)
        judge_day(day);
    for (unsigned i = 0; i < term.channel_count; i++) {
        if (read_sample(i, line.fields[1 + i], &samples[i]))
            judge_sample(i, samples[i]);
        else
            sound = false;
    }
    if (sound)
        keep_observation(day, samples);
}

/* ---- the text */

/* Reads a line. What stands below a term line that is not understood, or below none, has no meaning. */
static void read_line(void)
{
    const char *wrong = split_line(&line);
    if (wrong == NULL && line.field_count == 0)
        return;
    if (wrong == NULL && strcmp(line.fields[0], "term") == 0) {
        read_term();
        return;
    }
    if (!term.begun && wrong == NULL)
        wrong = "no line that begins with term stands before this one";
    term.begun = true;
    term.n++;
    if (wrong != NULL)
        fault(wrong, NULL);
    else if (term.sound)
        read_observation();
}

/* Reads the whole text; answers false where it cannot be read. */
static bool read_text(FILE *text)
{
    size_t length = 0;
    while (length < TEXT_BYTES && take_line(text, &line)) {
        line_number++;
        length += line.length + 1;
        if (length < TEXT_BYTES)
            read_line();
        else
            fault("the text is longer than 16,777,216 bytes", NULL);
    }
    end_term();
    return !ferror(text);
}

/* Makes the file, unless a line has a fault. */
static void make_file(void)
{
    if (any_fault())
        return;
    if (entry_count == 0)
        note_fault(line_number > 0 ? line_number : 1, "the text has no line that begins with term", NULL);
    else
        note_reply(kept_line, "",
                   tawinrak_write_file(form, entries, TAWINRAK_ENTRY_BYTES * entry_count, bodies, bodies_len, file,
                                       sizeof file));
}

/* Says why there is no answer, unless its reader has gone. */
static int not_answered(const char *what)
{
    if (errno != EPIPE)
        fprintf(stderr, "'%s': %s\n", what, strerror(errno));
    return NOT_ANSWERED;
}

int main(int argc, char **argv)
{
    if (argc > 2 || isatty(STDOUT_FILENO)) {
        fprintf(stderr, "usage: make_record [FILE] >RECORD\n");
        return NOT_ANSWERED;
    }
    signal(SIGPIPE, SIG_IGN);
    const char *name = argc > 1 ? argv[1] : "-";
    FILE *input = strcmp(name, "-") == 0 ? stdin : fopen(name, "rb");
    if (input == NULL || !read_text(input))
        return not_answered(name);
    make_file();
    if (any_fault()) {
        tell_faults();
        fprintf(stderr, "nothing is written\n");
        return FAULTY;
    }
    bool written = fwrite(file, 1, file_length(), stdout) == file_length() && fflush(stdout) == 0;
    return written ? PACKED : not_answered("standard output");
}
