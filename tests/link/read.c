/*
 * Prints the views of a script file (read FILE) or of a day (read --day FILE) as the proved programs do, by the C calls
 * and the header's constants. It must not be one that is refused. Ends with 1 where an answer or a byte is not what the
 * header says.
 */
#include "nechwalu.h"

#include <stdio.h>
#include <stdlib.h>
#include <string.h>

enum { GUARD = 64, FILL = 0xA5, JOBS = 8, JOBS_OFFSET = 10, DAY_STEPS = 16, JOB_ZERO = 3, MOST_JOBS = 16 };

/* The shortest and the longest view, and the longest day, with six principals. */
enum { OLD_SHORTEST_VIEW = 62, OLD_LONGEST_VIEW = 9278, OLD_LONGEST_DAY = 148448 };

/* What a script file and a day differ in. */
struct kind {
    size_t (*read)(const uint8_t *, size_t, size_t, uint8_t *, size_t);
    size_t header, longest, last_refusal;
};

static const struct kind SCRIPT = {nechwalu_read, 16, NECHWALU_LONGEST_VIEW, NECHWALU_REFUSED_BUFFER};
static const struct kind DAY = {nechwalu_read_day, 20, NECHWALU_LONGEST_DAY, NECHWALU_REFUSED_JOBS};

/* A file, or what is tried as one. */
struct input {
    const struct kind *kind;
    const uint8_t *bytes;
    size_t length;
};

/* The printed fields, where the header says they are. */
struct field {
    size_t at, width;
};

#define NUMBER(at) {at, NECHWALU_NUMBER_SIZE}
#define WORD(at) {at, NECHWALU_TABLE_SIZE}
#define LABEL(at) WORD((at) + NECHWALU_LABEL_AT_SECRECY), WORD((at) + NECHWALU_LABEL_AT_INTEGRITY)
#define VALUE(at) \
    NUMBER((at) + NECHWALU_VALUE_AT_KIND), WORD((at) + NECHWALU_VALUE_AT_FIRST), WORD((at) + NECHWALU_VALUE_AT_SECOND)

static const struct field FRONT[] = {
    NUMBER(NECHWALU_AT_ENDING),
    NUMBER(NECHWALU_AT_STEPS),
    NUMBER(NECHWALU_AT_NEXT_PLACE),
    NUMBER(NECHWALU_AT_RECORDS_SHOWN),
    NUMBER(NECHWALU_AT_RECORDS_START),
    NUMBER(NECHWALU_AT_LENGTH),
    VALUE(NECHWALU_AT_RESULT),
    LABEL(NECHWALU_AT_LABEL),
    LABEL(NECHWALU_AT_CLEARANCE),
};

static const struct field RECORD[] = {
    {NECHWALU_RECORD_AT_PLACE, 1},
    {NECHWALU_RECORD_AT_KIND, 1},
    LABEL(NECHWALU_RECORD_AT_LABEL),
    VALUE(NECHWALU_RECORD_AT_VALUE),
};

/* A buffer for the longest views, and guard bytes around it. */
static uint8_t memory[GUARD + NECHWALU_LONGEST_DAY + GUARD];
static uint8_t *const buffer = memory + GUARD;

static void fail(const char *what)
{
    fprintf(stderr, "read: %s\n", what);
    exit(1);
}

static void expect(size_t answer, size_t wanted, const char *what)
{
    if (answer != wanted) {
        fprintf(stderr, "read: %s: the answer is %zu and not %zu\n", what, answer, wanted);
        exit(1);
    }
}

static size_t number(const uint8_t *bytes)
{
    return bytes[0] + 256u * bytes[1];
}

/* Reads into a buffer of `room` bytes. Nothing but views may be written, neither behind them nor around the buffer. */
static size_t read_with(struct input input, size_t reader, size_t room)
{
    memset(memory, FILL, sizeof memory);
    size_t answer = input.kind->read(input.bytes, input.length, reader, buffer, room);
    size_t written = answer < NECHWALU_SHORTEST_VIEW ? 0 : answer;
    if (answer < NECHWALU_REFUSED_SIZE || (written == 0 && answer > input.kind->last_refusal) || written > room)
        fail("an answer is neither a refusal's number nor a length that fits");
    for (size_t i = 0; i < sizeof memory; i++)
        if ((i < GUARD || i >= GUARD + written) && memory[i] != FILL)
            fail("a byte outside the views is written");
    return answer;
}

static size_t read_without_buffer(struct input input, size_t reader)
{
    return input.kind->read(input.bytes, input.length, reader, NULL, 0);
}

/* Its first `length` bytes, or it and what stands behind it. */
static struct input cut(struct input input, size_t length)
{
    input.length = length;
    return input;
}

/* The length of the view that starts here, of which `left` bytes are there. */
static size_t view_length(const uint8_t *view, size_t left)
{
    if (left < NECHWALU_SHORTEST_VIEW)
        fail("a view is cut");
    size_t length = number(view + NECHWALU_AT_LENGTH);
    size_t records = number(view + NECHWALU_AT_RECORDS_SHOWN);
    expect(number(view + NECHWALU_AT_RECORDS_START), NECHWALU_AT_RECORDS, "where a view's records start");
    expect(length, NECHWALU_SHORTEST_VIEW + records * NECHWALU_RECORD_SIZE, "a view's own length");
    if (length > left)
        fail("a view is longer than what is written");
    return length;
}

static void print_fields(const uint8_t *bytes, const struct field *fields, size_t count, const char *before)
{
    for (size_t i = 0; i < count; i++, before = " ") {
        printf("%s", before);
        for (size_t j = 0; j < fields[i].width; j++)
            printf("%02x", bytes[fields[i].at + j]);
    }
}

static void print_view(const uint8_t *view)
{
    const uint8_t *record = view + NECHWALU_AT_RECORDS;
    print_fields(view, FRONT, sizeof FRONT / sizeof *FRONT, "");
    for (size_t left = number(view + NECHWALU_AT_RECORDS_SHOWN); left > 0; left--, record += NECHWALU_RECORD_SIZE)
        print_fields(record, RECORD, sizeof RECORD / sizeof *RECORD, " ");
    printf("\n");
}

/* How many views a file has: a day has one for each job. */
static size_t views_of(struct input input)
{
    return input.kind == &DAY ? number(input.bytes + JOBS) : 1;
}

/* Prints the views in the buffer, `length` bytes, going by their own lengths; gives the length of the last. */
static size_t print_views(struct input input, size_t length)
{
    size_t count = 0, last = 0;
    for (size_t at = 0; at < length; at += last, count++) {
        last = view_length(buffer + at, length - at);
        print_view(buffer + at);
    }
    expect(count, views_of(input), "the number of views");
    return last;
}

/* The views for one label, into a long buffer, which they are in, one that just fits and some that are too short. */
static void try_reader(struct input input, size_t reader, size_t answer)
{
    static uint8_t views[NECHWALU_LONGEST_DAY];
    memcpy(views, buffer, answer);
    expect(read_with(input, reader, answer), answer, "a buffer that just fits");
    if (memcmp(views, buffer, answer) != 0)
        fail("a second read gives another view");
    size_t last = print_views(input, answer);
    expect(read_with(input, reader, answer - 1), NECHWALU_REFUSED_BUFFER, "a buffer that is a byte too short");
    expect(read_with(input, reader, answer - last), NECHWALU_REFUSED_BUFFER, "a buffer without room for the last view");
    expect(read_with(input, reader, OLD_SHORTEST_VIEW), NECHWALU_REFUSED_BUFFER, "a buffer of the old shortest view");
    expect(read_with(input, reader, 0), NECHWALU_REFUSED_BUFFER, "an empty buffer");
    expect(read_without_buffer(input, reader), NECHWALU_REFUSED_BUFFER, "no buffer");
}

static void try_readers(struct input input)
{
    const size_t room = input.kind->longest;
    size_t reader = 0, answer;
    for (; (answer = read_with(input, reader, room)) >= NECHWALU_SHORTEST_VIEW; reader++)
        try_reader(input, reader, answer);
    expect(answer, NECHWALU_REFUSED_READER, "the index behind the last label");
    expect(reader, number(input.bytes), "the number of labels");

    expect(read_with(input, 99, room), NECHWALU_REFUSED_READER, "index 99");
    for (size_t high = 32; high != 0; high *= 2)
        expect(read_with(input, high, room), NECHWALU_REFUSED_READER, "an index that is too high");
    expect(read_with(input, SIZE_MAX, room), NECHWALU_REFUSED_READER, "the highest index");
    expect(read_without_buffer(input, 99), NECHWALU_REFUSED_READER, "index 99 and no buffer");
}

/* Files that are too short or too long, and a file of the other kind. */
static void try_files(struct input input)
{
    const size_t room = input.kind->longest;
    const struct input none = {input.kind, NULL, 0};
    const struct input other = {input.kind == &DAY ? &SCRIPT : &DAY, input.bytes, input.length};
    expect(read_with(none, 0, room), NECHWALU_REFUSED_SIZE, "no file");
    expect(read_without_buffer(none, 0), NECHWALU_REFUSED_SIZE, "neither file nor buffer");
    expect(read_with(cut(input, input.kind->header - 1), 0, room), NECHWALU_REFUSED_SIZE, "a file cut in its header");
    expect(read_with(cut(input, input.kind->header), 0, room), NECHWALU_REFUSED_OFFSET, "a file cut to its header");
    expect(read_with(cut(input, input.length - 1), 0, room), NECHWALU_REFUSED_OFFSET, "a file that is a byte too short");
    expect(read_with(cut(input, NECHWALU_LARGEST_FILE), 0, room), NECHWALU_REFUSED_OFFSET, "a file with more behind it");
    expect(read_with(cut(input, NECHWALU_LARGEST_FILE + 1), 0, room), NECHWALU_REFUSED_SIZE, "a file that is too long");
    expect(read_with(other, 0, other.kind->longest), NECHWALU_REFUSED_OFFSET, "the call for the other kind");
}

/* The day with a byte of its first job wrong, and without steps, so that every job is skipped. */
static void try_jobs(struct input input)
{
    static uint8_t changed[NECHWALU_LARGEST_FILE];
    const struct input day = {input.kind, changed, input.length};
    size_t zero = number(input.bytes + JOBS_OFFSET) + JOB_ZERO, jobs = views_of(input);
    memcpy(changed, input.bytes, input.length);
    changed[zero] = 1;
    expect(read_with(day, 0, day.kind->longest), NECHWALU_REFUSED_JOBS, "a job whose zero byte is 1");
    expect(read_with(day, 99, 0), NECHWALU_REFUSED_JOBS, "that job, index 99 and an empty buffer");
    changed[zero] = 0;
    memset(changed + DAY_STEPS, 0, 4);
    for (size_t reader = 0; reader < number(changed); reader++) {
        expect(read_with(day, reader, day.kind->longest), jobs * NECHWALU_SHORTEST_VIEW, "a day without steps");
        for (size_t job = 0; job < jobs; job++)
            expect(number(buffer + job * NECHWALU_SHORTEST_VIEW + NECHWALU_AT_ENDING), NECHWALU_ENDING_SKIPPED,
                   "the ending of a job in a day without steps");
    }
}

static size_t put(uint8_t *bytes, size_t at, size_t first, size_t second)
{
    bytes[at] = first & 255;
    bytes[at + 1] = first >> 8;
    bytes[at + 2] = second & 255;
    bytes[at + 3] = second >> 8;
    return at + 4;
}

/* A file whose scripts, of a day 16 of different callers, seal label 1 under label 0 until no place is left. */
static struct input longest_file(const struct kind *kind)
{
    enum { STEPS = 2000, PLACES = 256, JOB = 12 };
    static const uint8_t labels[] = {0, 0, 1, 0, 0}; /* public; False and True */
    static const uint8_t code[] = {
        0x02, 1, 0x02, 0, 0x13, /* LAB 1, LAB 0, SEAL: 26 with no place left */
        0x05, 0x0A, 0, 0,       /* POP, JUMP 0 */
    };
    static uint8_t bytes[NECHWALU_LARGEST_FILE];
    const size_t jobs = kind == &DAY ? MOST_JOBS : 0, records_at = kind->header + sizeof labels;
    const size_t code_at = records_at + jobs * JOB;

    size_t at = put(bytes, 0, 2, kind->header);
    at = put(bytes, at, 0, records_at);
    if (kind == &DAY)
        at = put(bytes, at, jobs, records_at);
    at = put(bytes, at, sizeof code, code_at);
    at = put(bytes, at, STEPS, kind == &DAY ? 0 : PLACES); /* a day's steps have 32 bits */
    memcpy(bytes + at, labels, sizeof labels);
    at = records_at;
    for (size_t job = 0; job < jobs; job++) {
        at = put(bytes, at, job, 1); /* the caller, label 0; clearance label 1, the zero byte */
        at = put(bytes, at, STEPS, PLACES);
        at = put(bytes, at, 0, sizeof code);
    }
    memcpy(bytes + code_at, code, sizeof code);
    return (struct input){kind, bytes, code_at + sizeof code};
}

/* The table of True, where all bits are 1, or of False. */
static void expect_table(const uint8_t *table, int holds, const char *what)
{
    for (size_t i = 0; i < NECHWALU_TABLE_SIZE; i++)
        expect(table[i], holds ? 255 : 0, what);
}

/* A view of 256 records, each public and with label 1 in it. */
static void expect_longest(const uint8_t *view, size_t left)
{
    const uint8_t *record = view + NECHWALU_AT_RECORDS;
    expect(view_length(view, left), NECHWALU_LONGEST_VIEW, "the length of the longest view");
    expect(number(view + NECHWALU_AT_ENDING), NECHWALU_ENDING_FAULT, "the ending of the longest view");
    for (size_t place = 0; place < 256; place++, record += NECHWALU_RECORD_SIZE) {
        const uint8_t *label = record + NECHWALU_RECORD_AT_LABEL, *value = record + NECHWALU_RECORD_AT_VALUE;
        expect(record[NECHWALU_RECORD_AT_PLACE], place, "the place of a record");
        expect(record[NECHWALU_RECORD_AT_KIND], NECHWALU_RECORD_SEALED, "the kind of a record");
        expect_table(label + NECHWALU_LABEL_AT_SECRECY, 1, "a byte of a public label's secrecy");
        expect_table(label + NECHWALU_LABEL_AT_INTEGRITY, 1, "a byte of a public label's integrity");
        expect(value[NECHWALU_VALUE_AT_KIND], NECHWALU_VALUE_LABEL, "the kind of a label");
        expect_table(value + NECHWALU_VALUE_AT_FIRST, 0, "a byte of label 1's secrecy");
        expect_table(value + NECHWALU_VALUE_AT_SECOND, 1, "a byte of label 1's integrity");
    }
}

/* The longest views. A buffer that held any views with six principals is refused and stays untouched. */
static void try_longest(const struct kind *kind)
{
    const struct input input = longest_file(kind);
    const size_t length = kind->longest, old = kind == &DAY ? OLD_LONGEST_DAY : OLD_LONGEST_VIEW;
    for (size_t reader = 0; reader < number(input.bytes); reader++) {
        expect(read_with(input, reader, length), length, "the longest views");
        for (size_t at = 0; at < length; at += NECHWALU_LONGEST_VIEW)
            expect_longest(buffer + at, length - at);
        expect(read_with(input, reader, length - 1), NECHWALU_REFUSED_BUFFER, "a buffer a byte too short for them");
        expect(read_with(input, reader, old), NECHWALU_REFUSED_BUFFER, "a buffer of the old longest length");
        expect(read_with(input, reader, OLD_LONGEST_VIEW), NECHWALU_REFUSED_BUFFER, "one of the old longest view");
        expect(read_with(input, reader, OLD_SHORTEST_VIEW), NECHWALU_REFUSED_BUFFER, "one of the old shortest view");
    }
}

/* A whole file, with zeros behind it up to one byte more than the largest has. */
static struct input load(const struct kind *kind, const char *name)
{
    static uint8_t bytes[NECHWALU_LARGEST_FILE + 1];
    FILE *file = fopen(name, "rb");
    if (file == NULL)
        fail("the file can't be opened");
    size_t length = fread(bytes, 1, sizeof bytes, file);
    if (ferror(file) || fclose(file) != 0)
        fail("the file can't be read");
    return (struct input){kind, bytes, length};
}

int main(int count, char **words)
{
    static uint8_t copy[NECHWALU_LARGEST_FILE + 1];
    const struct kind *kind = count == 3 && strcmp(words[1], "--day") == 0 ? &DAY : &SCRIPT;
    if (count != (kind == &DAY ? 3 : 2))
        fail("usage: read [--day] FILE");
    struct input input = load(kind, words[count - 1]);
    memcpy(copy, input.bytes, sizeof copy);

    try_readers(input);
    try_files(input);
    if (kind == &DAY)
        try_jobs(input);
    try_longest(kind);
    if (memcmp(input.bytes, copy, sizeof copy) != 0)
        fail("the file is written");
    return fflush(stdout) == 0 ? 0 : 1;
}
