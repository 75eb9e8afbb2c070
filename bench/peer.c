/* The program `tokens` of document 01 in C, the peer that the benchmark counts against.
 * cc -O2 -o peer peer.c; peer < trace > answers
 *
 * Input is read in chunks. All whole lines of a chunk are worked through where they lie, each up to its line feed;
 * what is left of an unfinished line moves to the front. A readable line has at most 8 * 10 + 7 bytes, so once more
 * than LONGEST bytes of a line are there it is not readable whatever comes, and the rest of it is passed over. */
#include <unistd.h>

#include "model.h"

enum { LONGEST = 96, CHUNK = 1 << 16, ANSWER = 32, OUTPUT = 1 << 16 };

static unsigned char input[LONGEST + CHUNK + 1]; /* kept bytes, a chunk, and a line feed after the last line */
static char output[OUTPUT];
static size_t written; /* bytes that wait in output */
static struct state state;
static bool started; /* the first line has been answered */

static void flush(void)
{
    for (size_t at = 0; at < written;) {
        ssize_t n = write(STDOUT_FILENO, output + at, written - at);
        if (n <= 0)
            _exit(1);
        at += (size_t)n;
    }
    written = 0;
}

static inline char *put_number(char *p, uint32_t v)
{
    char digits[10];
    int n = 0;

    if (v < 10) {
        *p++ = (char)('0' + v);
        return p;
    }
    do
        digits[n++] = (char)('0' + v % 10);
    while (v /= 10);
    while (n > 0)
        *p++ = digits[--n];
    return p;
}

static inline void put_answer(struct answer a)
{
    if (written > OUTPUT - ANSWER)
        flush();
    char *p = output + written;
    p = put_number(p, a.number);
    *p++ = '\t';
    p = put_number(p, a.word);
    *p++ = '\t';
    p = put_number(p, a.slot);
    *p++ = '\n';
    written = (size_t)(p - output);
}

/* Reads one number and the byte `stop` after it; gives the place after that, or NULL. It stops at the first byte that
 * is no digit, so at the line feed at the latest. With no leading zero, more than ten digits are too large anyway. */
static inline const unsigned char *number(const unsigned char *p, unsigned char stop, uint32_t *out)
{
    uint64_t v = (uint32_t)*p - '0';
    uint32_t digit;

    if ((uint32_t)v > 9)
        return NULL;
    p++;
    if (v != 0) {
        while ((digit = (uint32_t)*p - '0') <= 9) {
            v = v * 10 + digit;
            if (v > UINT32_MAX)
                return NULL;
            p++;
        }
    }
    if (*p != stop)
        return NULL;
    *out = (uint32_t)v;
    return p + 1;
}

/* Reads `count` numbers parted by tabs and ended by a line feed; gives the place after it, or NULL. */
static inline const unsigned char *numbers(const unsigned char *p, int count, uint32_t *words)
{
    for (int i = 0; i < count - 1; i++)
        if (!(p = number(p, '\t', &words[i])))
            return NULL;
    return number(p, '\n', &words[count - 1]);
}

/* Answers the lines from p to end; the last byte before end is a line feed. */
static void lines(const unsigned char *p, const unsigned char *end)
{
    uint32_t words[EVENT_WORDS];

    while (p < end) {
        const unsigned char *next = numbers(p, started ? EVENT_WORDS : 3, words);
        if (!next) {
            put_answer(refused(NOT_READABLE));
            while (*p++ != '\n')
                ;
        } else {
            put_answer(started ? step(&state, words) : start(&state, words[0], words[1], words[2]));
            p = next;
        }
        started = true;
    }
}

int main(void)
{
    size_t kept = 0;       /* bytes of an unfinished line at the front of input */
    bool too_long = false; /* the unfinished line has more than LONGEST bytes, and they are gone */
    ssize_t n;

    while ((n = read(STDIN_FILENO, input + kept, CHUNK)) > 0) {
        unsigned char *p = input, *end = input + kept + n, *last = end;
        while (last > p && last[-1] != '\n')
            last--;
        if (too_long && last > p) {
            put_answer(refused(NOT_READABLE));
            started = true;
            too_long = false;
            while (*p++ != '\n')
                ;
        }
        lines(p, last);
        kept = (size_t)(end - last);
        if (too_long || kept > LONGEST) {
            too_long = true;
            kept = 0;
        }
        memmove(input, last, kept);
    }
    if (too_long) {
        put_answer(refused(NOT_READABLE));
    } else if (kept > 0) {
        input[kept] = '\n';
        lines(input, input + kept + 1);
    }
    flush();
    return n < 0;
}
