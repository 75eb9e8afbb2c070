/* probes NAME first|second: writes a probe's file that is too large to store; `probes` alone lists the names.
 * probes merge FIRST SECOND: what `join FIRST SECOND` must print and tell, by document 02, T-02. It holds both files whole,
 * sorts the records of both, and walks through them. `probes deal WAY TRACE CORE NET`: gives each event of a trace a time
 * and puts it into one of two probes' files, whose join is the trace. */
#include <stdint.h>
#include <stdio.h>
#include <stdlib.h>
#include <string.h>

/* ---- files: one record after the other, at each place what a case says */

static uint32_t drawn; /* the same numbers in each run */

static uint32_t draw(uint32_t below)
{
    drawn = drawn * UINT32_C(1664525) + UINT32_C(1013904223);
    return (drawn >> 8) % below;
}

static void record(uint32_t time, const char *event, uint32_t word)
{
    printf("%u\t%s\t%u\n", (unsigned)time, event, (unsigned)word);
}

static void bytes(size_t count, char byte)
{
    while (count-- > 0)
        putchar(byte);
}

static const char write_of[] = "1\t0\t0\t0\t0\t0\t0";

enum { FEW = 5000, MANY = 20000 };

static void alternating(int second)
{
    for (uint32_t i = 0; i < MANY; i++)
        record(2 * i + (uint32_t)second, write_of, i);
}

/* 3,000 records of one file, 3,000 of the other */
static void blocks(int second)
{
    for (uint32_t i = 0; i < MANY; i++)
        record(i / 3000 * 2 + (uint32_t)second, write_of, i);
}

static void first_before_second(int second)
{
    for (uint32_t i = 0; i < (second ? MANY : FEW); i++)
        record(second ? FEW + i : i, write_of, i);
}

static void second_before_first(int second)
{
    for (uint32_t i = 0; i < (second ? FEW : MANY); i++)
        record(second ? i : FEW + i, write_of, i);
}

static void all_times_equal(int second)
{
    for (uint32_t i = 0; i < (second ? MANY : FEW); i++)
        record(7, write_of, i);
}

/* lines of 18 to 98 bytes, and times that are often those of the other file */
static void random_times(int second, uint32_t count)
{
    uint32_t time = 0, n[7];
    char event[80];

    drawn = 1 + (uint32_t)second;
    for (uint32_t i = 0; i < count; i++) {
        time += draw(3);
        for (int k = 0; k < 7; k++)
            n[k] = (draw(1 << 16) << 16 | draw(1 << 16)) >> draw(33) % 32;
        sprintf(event, "%u\t%u\t%u\t%u\t%u\t%u\t%u", (unsigned)n[0], (unsigned)n[1], (unsigned)n[2], (unsigned)n[3],
                (unsigned)n[4], (unsigned)n[5], (unsigned)n[6]);
        record(time, event, draw(1 << 16) << 16 | i);
    }
}

static void equal_times_at_random(int second) { random_times(second, second ? MANY : FEW); }

/* so few that they can be handed on byte by byte, and yet more than a part */
static void equal_times_at_random_few(int second) { random_times(second, second ? 400 : 1300); }

/* 98 bytes each, which come to no multiple of a buffer */
static void largest_numbers(int second)
{
    for (uint32_t i = 0; i < (second ? MANY : FEW); i++)
        record(UINT32_MAX - (uint32_t)second,
               "4294967295\t4294967295\t4294967295\t4294967295\t4294967295\t4294967295\t4294967295", UINT32_MAX - i);
}

/* 18 bytes each: a buffer has more of them than the list that they are read into */
static void smallest_lines(int second)
{
    for (uint32_t i = 0; i < (second ? MANY : FEW); i++)
        record(i * 10 / MANY, "0\t0\t0\t0\t0\t0\t0", (uint32_t)second);
}

static void no_last_line_feed(int second)
{
    for (uint32_t i = 1; i < (second ? MANY : FEW); i++)
        record(i, write_of, i);
    printf("%u\t%s\t%u", (unsigned)MANY, write_of, (unsigned)second);
}

/* Lines of 32 bytes, of which 1,024 fill a buffer of 32,768, so that a part begins with the records 1,025, 2,049 and 3,073.
 * The line `at` is refused; at line 1 no time falls. The times of both files are alike. */
static void parts_of_1024(uint32_t at, int number, int second)
{
    for (uint32_t i = 1; i <= FEW; i++) {
        uint32_t time = 1000000 + i / 2;
        if (i == at && number == 24)
            time = 1000000 + (i - 1) / 2 - 1;
        printf("%u\t%s\t%d%08u\n", (unsigned)time, write_of, !(i == at && number == 22), (unsigned)i + FEW * (unsigned)second);
    }
}

/* 18 bytes each, so that the record 1,025 begins a part in the middle of a buffer; there the first file's time falls. */
static void fall_in_a_buffer(int second)
{
    for (uint32_t i = 1; i <= FEW; i++)
        record(second ? 2 * i / FEW * 3 : i == 1025 ? 4 : 5, "0\t0\t0\t0\t0\t0\t0", (uint32_t)second);
}

/* Lines of 32 bytes, and after so many of them one of the given length, of digits; with no line feed it is the last. */
static void long_line(uint32_t after, size_t length, int fed, int there)
{
    for (uint32_t i = 0; i < after; i++)
        record(1000000 + i, write_of, 100000000 + i);
    if (!there)
        return;
    bytes(length, '1');
    for (uint32_t i = 0; fed && i < FEW; i++) {
        if (i == 0)
            putchar('\n');
        record(2000000 + i, write_of, 100000000 + i);
    }
}

static void long_line_in_first(int second) { long_line(3000, 40000, 0, !second); }

static void long_line_in_second(int second) { long_line(3000, 40000, 0, second); }

static void long_line_and_more(int second) { long_line(3000, 40000, 1, !second); }

/* in the buffer from its first byte on */
static void long_line_at_a_part(int second) { long_line(2048, 40000, 1, second); }

static void long_line_of_a_buffer(int second) { long_line(2048, 32768, 1, !second); }

static void long_line_of_a_buffer_less_1(int second) { long_line(2048, 32767, 1, second); }

static void long_line_alone(int second)
{
    if (second)
        bytes(40000, '1');
    else
        random_times(0, FEW);
}

/* what stands behind the first 32,768 bytes would be a record */
static void long_line_with_a_readable_tail(int second)
{
    if (!second)
        bytes(32768, '0');
    random_times(second, FEW);
}

static const struct {
    const char *name;
    void (*make)(int second);
} files[] = {
    {"alternating", alternating},
    {"blocks", blocks},
    {"first-before-second", first_before_second},
    {"second-before-first", second_before_first},
    {"all-times-equal", all_times_equal},
    {"equal-times-at-random", equal_times_at_random},
    {"equal-times-at-random-few", equal_times_at_random_few},
    {"largest-numbers", largest_numbers},
    {"smallest-lines", smallest_lines},
    {"no-last-line-feed", no_last_line_feed},
    {"fall-in-a-buffer", fall_in_a_buffer},
    {"long-line-in-first", long_line_in_first},
    {"long-line-in-second", long_line_in_second},
    {"long-line-and-more", long_line_and_more},
    {"long-line-at-a-part", long_line_at_a_part},
    {"long-line-of-a-buffer", long_line_of_a_buffer},
    {"long-line-of-a-buffer-less-1", long_line_of_a_buffer_less_1},
    {"long-line-alone", long_line_alone},
    {"long-line-with-a-readable-tail", long_line_with_a_readable_tail},
};

/* refused lines at the sides of parts, by name: parts-FIRST-SECOND, each a number and a line, 0 for none */
static const char *const parts[] = {
    "parts-0@0-0@0",
    "parts-24@1024-0@0", "parts-24@1025-0@0", "parts-24@1026-0@0", "parts-24@2049-0@0", "parts-24@5000-0@0",
    "parts-0@0-24@1024", "parts-0@0-24@1025", "parts-0@0-24@1026", "parts-0@0-24@2049", "parts-0@0-24@5000",
    "parts-22@1024-0@0", "parts-22@1025-0@0", "parts-22@1026-0@0", "parts-22@2049-0@0", "parts-22@5000-0@0",
    "parts-0@0-22@1024", "parts-0@0-22@1025", "parts-0@0-22@1026", "parts-0@0-22@2049", "parts-0@0-22@5000",
    "parts-24@1025-22@1025", "parts-22@2049-24@1025", "parts-24@1-22@1", "parts-24@2050-24@2049",
};

static int write_file(const char *name, int second)
{
    size_t count = sizeof files / sizeof *files;
    unsigned number[2], at[2];

    for (size_t i = 0; i < count; i++)
        if (!strcmp(name, files[i].name)) {
            files[i].make(second);
            return fflush(stdout) != 0;
        }
    if (sscanf(name, "parts-%u@%u-%u@%u", &number[0], &at[0], &number[1], &at[1]) != 4)
        return 2;
    parts_of_1024(at[second], (int)number[second], second);
    return fflush(stdout) != 0;
}

/* ---- what a join must print and tell */

struct line {
    const char *text;
    size_t length;
    uint32_t time;
    int second;
    size_t place; /* in its file, from 1 */
};

struct file {
    const char *name;
    struct line *records;
    size_t count; /* of records before the line that is refused, or the end */
    int number;   /* of that line, or 0 */
};

/* A field that is a number: digits, no zero before others, no more than 4294967295. */
static int field(const char *text, size_t length, uint32_t *value)
{
    char digits[11] = "";

    if (length < 1 || length > 10 || (text[0] == '0' && length > 1))
        return 0;
    for (size_t i = 0; i < length; i++)
        if (text[i] < '0' || text[i] > '9')
            return 0;
    memcpy(digits, text, length);
    *value = (uint32_t)strtoull(digits, NULL, 10);
    return strtoull(digits, NULL, 10) <= UINT32_MAX;
}

/* A line with eight tabs that part nine such fields. */
static int readable(struct line *l)
{
    const char *at = l->text, *end = l->text + l->length, *tab;
    uint32_t value;

    for (int k = 0; k < 9; k++) {
        tab = k < 8 ? memchr(at, '\t', (size_t)(end - at)) : end;
        if (!tab || !field(at, (size_t)(tab - at), &value))
            return 0;
        if (k == 0)
            l->time = value;
        at = tab + 1;
    }
    return 1;
}

static char *whole_file(const char *name, size_t *size)
{
    FILE *f = fopen(name, "rb");
    char *text = malloc(1 << 26);

    if (!f || !text)
        exit(2);
    *size = fread(text, 1, 1 << 26, f);
    fclose(f);
    return text;
}

static void read_file(struct file *f, const char *name, int second)
{
    size_t size;
    const char *text = whole_file(name, &size), *end = text + size;
    uint32_t last = 0;

    *f = (struct file){.name = name, .records = malloc((size / 2 + 1) * sizeof(struct line))};
    if (!f->records)
        exit(2);
    while (text < end) {
        const char *feed = memchr(text, '\n', (size_t)(end - text));
        struct line l = {.text = text, .second = second, .place = f->count + 1};
        l.length = (size_t)((feed ? feed : end) - text);
        if (!readable(&l))
            f->number = 22;
        else if (l.time < last)
            f->number = 24;
        if (f->number)
            return;
        last = l.time;
        f->records[f->count++] = l;
        text += l.length + 1;
    }
}

static int by_time(const void *a, const void *b)
{
    const struct line *x = a, *y = b;

    if (x->time != y->time)
        return x->time < y->time ? -1 : 1;
    if (x->second != y->second)
        return x->second - y->second;
    return x->place < y->place ? -1 : x->place > y->place;
}

/* Of a file that is used up, the line that is refused ends the join. */
static int refused(const struct file *f, size_t printed)
{
    if (printed < f->count || !f->number)
        return 0;
    fprintf(stderr, "%s: line %zu: %d: %s\n", f->name, f->count + 1, f->number,
            f->number == 22 ? "line not readable" : "a time that falls");
    return 1;
}

static int merge(const char *first, const char *second)
{
    struct file f[2];
    size_t printed[2] = {0, 0};

    read_file(&f[0], first, 0);
    read_file(&f[1], second, 1);
    size_t count = f[0].count + f[1].count;
    struct line *all = malloc((count + 1) * sizeof *all);
    if (!all)
        return 2;
    memcpy(all, f[0].records, f[0].count * sizeof *all);
    memcpy(all + f[0].count, f[1].records, f[1].count * sizeof *all);
    qsort(all, count, sizeof *all, by_time);
    for (size_t i = 0; i <= count; i++) {
        if (refused(&f[0], printed[0]) || refused(&f[1], printed[1]))
            break;
        if (i < count) {
            fwrite(all[i].text, 1, all[i].length, stdout);
            putchar('\n');
            printed[all[i].second]++;
        }
    }
    return fflush(stdout) != 0;
}

/* ---- a trace as two probes' files */

static int deal(const char *way, const char *trace, const char *core, const char *net)
{
    static char line[1 << 16];
    FILE *in = fopen(trace, "r"), *out[2] = {fopen(core, "w"), fopen(net, "w")};

    if (!in || !out[0] || !out[1] || !fgets(line, sizeof line, in)) /* the start line is no event */
        return 2;
    for (unsigned i = 0; fgets(line, sizeof line, in); i++) {
        if (!strcmp(way, "alternating"))
            fprintf(out[i % 2], "%u\t%s", 10 * i, line);
        else if (!strcmp(way, "runs")) /* of 1, 2, 3, 4 and 5 events */
            fprintf(out[i % 15 == 0 || (i % 15 >= 3 && i % 15 < 6) || i % 15 >= 10], "%u\t%s", 10 * i, line);
        else if (!strcmp(way, "equal")) /* at one time three events of the core, and then two of the net */
            fprintf(out[i % 5 >= 3], "%u\t%s", i / 5, line);
        else
            return 2;
    }
    return fclose(out[0]) != 0 || fclose(out[1]) != 0;
}

int main(int argc, char **argv)
{
    if (argc == 1) {
        for (size_t i = 0; i < sizeof files / sizeof *files; i++)
            puts(files[i].name);
        for (size_t i = 0; i < sizeof parts / sizeof *parts; i++)
            puts(parts[i]);
        return 0;
    }
    if (argc == 4 && !strcmp(argv[1], "merge"))
        return merge(argv[2], argv[3]);
    if (argc == 6 && !strcmp(argv[1], "deal"))
        return deal(argv[2], argv[3], argv[4], argv[5]);
    if (argc == 3 && (!strcmp(argv[2], "first") || !strcmp(argv[2], "second")))
        return write_file(argv[1], !strcmp(argv[2], "second"));
    return 2;
}
