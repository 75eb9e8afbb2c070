/* large NAME in|out: writes a trace too large to store, or the answers that document 01 gives to it. `large` alone lists
 * the names. No model stands behind the answers: each trace hands a line to cache 0 and then only writes to it, reads it
 * and has lines that are not readable, so a read answers the word last written. */
#include <stdint.h>
#include <stdio.h>
#include <string.h>

static int answers; /* write the answers, not the trace */
static uint32_t word;

static void line(const char *text, uint32_t number, uint32_t value, uint32_t slot)
{
    if (answers)
        printf("%u\t%u\t%u\n", (unsigned)number, (unsigned)value, (unsigned)slot);
    else
        printf("%s\n", text);
}

/* Cache 0 has all three tokens of line 0 and has written 100. */
static void begin(void)
{
    line("2\t1\t3", 0, 0, 64);
    line("2\t0\t2\t0\t3\t1\t1\t0", 0, 0, 0);
    line("3\t0\t0\t0\t0\t0\t0\t0", 0, 1, 0);
    line("1\t0\t0\t0\t0\t0\t0\t100", 0, 0, 64);
    word = 100;
}

static void write_word(uint32_t next)
{
    char text[64];
    word = next;
    snprintf(text, sizeof text, "1\t0\t0\t0\t0\t0\t0\t%u", (unsigned)next);
    line(text, 0, 0, 64);
}

static void read_word(void)
{
    line("0\t0\t0\t0\t0\t0\t0\t0", 0, word, 64);
}

/* One line that is not readable: so many bytes, the given one and then the tail. */
static void unreadable(size_t bytes, char byte, const char *tail)
{
    if (!answers)
        while (bytes-- > 0)
            putchar(byte);
    line(tail, 22, 0, 64);
}

static const char tail[] = "1\t0\t0\t0\t0\t0\t0\t999"; /* readable if what stands before it is forgotten */

static void line_of_200000_bytes(void)
{
    begin();
    unreadable(200000, '0', "");
    read_word();
    unreadable(200000, '\t', "");
    unreadable(200000, ' ', "");
    unreadable(200000, '\0', "");
    write_word(7);
    unreadable(200000 - sizeof tail + 1, '0', tail);
    read_word();
    if (answers)
        line("", 22, 0, 64);
    else
        for (int i = 0; i < 200000; i++) /* the last line, with no line feed */
            putchar('1');
}

static void start_of_200000_bytes(void)
{
    unreadable(200000 - 6, ' ', "\t1\t2\t3");
    line("0\t0\t0\t0\t0\t0\t0\t0", 1, 0, 64);
    unreadable(200000, '0', "");
    line("2\t1\t3", 22, 0, 64);
    line("9\t0\t0\t0\t0\t0\t0\t0", 1, 0, 64);
}

static void long_line_with_a_readable_tail(void)
{
    begin();
    for (size_t n = 60; n <= 300; n++) {
        unreadable(n, 'x', tail);
        read_word();
    }
    for (size_t n = 512; n <= (size_t)1 << 18; n *= 2)
        for (int near = -2; near <= 2; near++) {
            unreadable(n + (size_t)near, 'x', tail);
            read_word();
        }
}

static void lines_cut_at_every_place(void)
{
    begin();
    for (uint32_t i = 0; i < 20000; i++) {
        write_word(i * UINT32_C(2654435761) >> i % 32);
        unreadable(i % 120, 'x', "");
        read_word();
    }
}

static void only_line_feeds(void)
{
    for (int i = 0; i < 200000; i++)
        line("", 22, 0, 64);
}

static const struct {
    const char *name;
    void (*make)(void);
} traces[] = {
    {"line-of-200000-bytes", line_of_200000_bytes},
    {"start-of-200000-bytes", start_of_200000_bytes},
    {"long-line-with-a-readable-tail", long_line_with_a_readable_tail},
    {"lines-cut-at-every-place", lines_cut_at_every_place},
    {"only-line-feeds", only_line_feeds},
};

int main(int argc, char **argv)
{
    size_t count = sizeof traces / sizeof *traces;

    if (argc == 1)
        for (size_t i = 0; i < count; i++)
            puts(traces[i].name);
    if (argc != 3)
        return argc == 1 ? 0 : 2;
    answers = !strcmp(argv[2], "out");
    for (size_t i = 0; i < count; i++)
        if (!strcmp(argv[1], traces[i].name)) {
            traces[i].make();
            return fflush(stdout) != 0;
        }
    return 2;
}
