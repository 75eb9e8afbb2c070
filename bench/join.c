/* The join of two lists of records (document 02, T-02) in C: the peer that the program `pairs` is counted against.
 * cc -O2 -o join join.c; join < input
 *
 * The first byte of the input says how the times of the two lists lie to each other, the second how many records each has,
 * and each further byte is one join. Prints the number, the count, the length of the rest and a sum over the third list, of the last
 * join and of one with the lists the other way round. */
#include <stddef.h>
#include <stdint.h>
#include <stdio.h>
#include <string.h>
#include <unistd.h>

enum { WORDS = 9, MOST = 255 };

static int time_falls(const uint32_t *list, size_t n)
{
    uint32_t last = 0;

    for (size_t i = 0; i < n; i += WORDS) {
        if (list[i] < last)
            return 1;
        last = list[i];
    }
    return 0;
}

static uint32_t refusal(const uint32_t *first, size_t n, const uint32_t *second, size_t m, size_t room)
{
    if (n % WORDS != 0 || m % WORDS != 0)
        return 20;
    if (room < n || room - n < m)
        return 21;
    return time_falls(first, n) || time_falls(second, m) ? 24 : 0;
}

/* Answers the rest, and its length in `left`. After a record is taken only the list that it is of may be used up. */
__attribute__((noinline, noipa)) static const uint32_t *join(const uint32_t *first, size_t n, const uint32_t *second,
                                                             size_t m, uint32_t *third, size_t room, uint32_t *number,
                                                             size_t *count, size_t *left)
{
    const uint32_t *a = first, *a_end = first + n, *b = second, *b_end = second + m;
    uint32_t *out = third;

    *count = 0;
    *left = n;
    *number = refusal(first, n, second, m, room);
    if (*number != 0)
        return first;
    if (a != a_end && b != b_end)
        for (;;) {
            if (*a <= *b) {
                memcpy(out, a, WORDS * sizeof *a);
                out += WORDS;
                a += WORDS;
                if (a == a_end)
                    break;
            } else {
                memcpy(out, b, WORDS * sizeof *b);
                out += WORDS;
                b += WORDS;
                if (b == b_end)
                    break;
            }
        }
    *count = (size_t)(out - third);
    if (a == a_end) {
        *left = (size_t)(b_end - b);
        return b;
    }
    *left = (size_t)(a_end - a);
    return a;
}

static uint32_t next(uint32_t x)
{
    return (uint32_t)((x * (uint64_t)1103515245 + 12345) % 2147483648);
}

/* from one time to the next: runs of random lengths, or two */
static uint32_t gap(unsigned char way, uint32_t x)
{
    if (way != 'r')
        return 2;
    return x / 65536 % 8 == 0 ? 20 : x / 65536 % 3;
}

static void fill(uint32_t *list, size_t n, unsigned char way, uint32_t start, uint32_t seed)
{
    uint32_t time = start, x = seed;

    for (size_t i = 0; i < n; i++) {
        x = next(x);
        if (i % WORDS == 0) {
            list[i] = time;
            time += gap(way, x);
        } else {
            list[i] = x;
        }
    }
}

static uint32_t sum(const uint32_t *list, size_t n)
{
    uint32_t one = 0, all = 0;

    for (size_t i = 0; i < n; i++) {
        one += list[i];
        all += one;
    }
    return all;
}

static unsigned char input[4096];
static uint32_t first[MOST * WORDS], second[MOST * WORDS], third[2 * MOST * WORDS];

static void run(size_t joins, const uint32_t *one, const uint32_t *other, size_t n)
{
    size_t room = sizeof third / sizeof *third, count = 0, left = 0;
    uint32_t number = 0;

    for (size_t i = 0; i < joins; i++)
        join(one, n, other, n, third, room, &number, &count, &left);
    printf("%u %zu %zu %u\n", number, count, left, sum(third, room));
}

int main(void)
{
    ssize_t got = read(STDIN_FILENO, input, sizeof input);
    size_t n = (size_t)input[1] * WORDS;

    fill(first, n, input[0], input[0] == 's' ? 10000 : 0, 1);
    fill(second, n, input[0], input[0] == 'f' ? 10000 : 1, 2);
    run(got < 2 ? 0 : (size_t)got - 2, first, second, n);
    run(1, second, first, n);
    return 0;
}
