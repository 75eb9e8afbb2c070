/* Writes a trace for `tokens`, the same for the same arguments.
 * generate LINES SEED CACHES CACHE-LINES TOKENS MIX: LINES lines in all, the start line among them.
 * It follows the model's state: an event is drawn again until the model accepts it or refuses it with 23 (a cache times
 * out while another node has the only backup: the line waits for its holder). Other refusals come only where the mix
 * asks for them or where nothing of the kind drawn is possible.
 * MIX batch: sends, deliveries and writes. MIX mixed: all ten kinds, some refused events, a few unreadable lines. */
#include <stdio.h>
#include <stdlib.h>

#include "model.h"

static struct state state;
static uint64_t seed;

static uint32_t draw(uint32_t below)
{
    seed ^= seed << 13;
    seed ^= seed >> 7;
    seed ^= seed << 17;
    return (uint32_t)((seed >> 32) % below);
}

static void print_event(const uint32_t *e)
{
    for (int i = 0; i < EVENT_WORDS; i++)
        printf("%u%c", (unsigned)e[i], i + 1 < EVENT_WORDS ? '\t' : '\n');
}

static uint32_t owner_of(uint32_t line)
{
    for (uint32_t n = 0; n <= state.caches; n++)
        if (state.cells[line][n].owner)
            return n;
    return state.caches + 1;
}

/* A slot in use, if there is one. */
static uint32_t some_slot(void)
{
    uint32_t slot = draw(SLOTS);
    for (int i = 0; i < SLOTS && (state.unused >> slot & 1); i++)
        slot = (slot + 1) % SLOTS;
    return slot;
}

/* A send that tends to end with one node holding all tokens: scattered ones go to the owner, which may hand over all. */
static void draw_send(uint32_t *e)
{
    uint32_t owner = owner_of(e[LINE]);
    struct cell *cells = state.cells[e[LINE]];

    e[NODE] = draw(2) && owner <= state.caches ? owner : draw(state.caches + 1);
    e[OTHER] = draw(2) && owner <= state.caches ? owner : draw(state.caches + 1);
    uint32_t have = cells[e[NODE]].tokens;
    e[AMOUNT] = have == 0 || draw(4) ? have : 1 + draw(have);
    e[OWNER] = cells[e[NODE]].owner && draw(8);
    e[DATA] = e[OWNER] || (cells[e[NODE]].valid && draw(2));
    if (cells[e[NODE]].owner && !e[OWNER] && have > 1)
        e[AMOUNT] = 1 + draw(have - 1);
}

static void draw_event(uint32_t kind, uint32_t *e)
{
    memset(e, 0, EVENT_WORDS * sizeof *e);
    e[KIND] = kind;
    if (kind == DELIVER || kind == DROP) {
        e[SLOT] = some_slot();
        return;
    }
    e[LINE] = draw(state.lines);
    e[NODE] = draw(kind >= LOST_DATA ? state.caches + 1 : state.caches);
    if (kind == SEND)
        draw_send(e);
    if (kind == WRITE)
        e[WORD] = draw(3) ? draw(1000) : draw(UINT32_MAX);
}

/* Draws until an event is accepted or refused with 23, and steps the state by it; false after fifty that are neither. */
static bool drawn_event(uint32_t kind, uint32_t *e)
{
    for (int i = 0; i < 50; i++) {
        draw_event(kind, e);
        struct state trial = state;
        uint32_t number = step(&trial, e).number;
        if (number == DONE || number == BACKUP_ELSEWHERE) {
            state = trial;
            return true;
        }
    }
    return false;
}

/* Any words near the edges of their ranges: most often refused. */
static void wild_event(uint32_t *e)
{
    const uint32_t edges[EVENT_WORDS] = {11, state.lines + 1, state.caches + 2, state.caches + 2, 66, 3, 3, 1000};
    for (int i = 0; i < EVENT_WORDS; i++)
        e[i] = draw(40) ? draw(edges[i]) : UINT32_MAX - draw(3);
    step(&state, e);
}

static void print_unreadable(void)
{
    static const char *const bad[] = {
        "0,0,0,0,0,0,0,0", "0\t0\t0\t0\t0\t0\t0\t0\r", "", "0\t0\t0\t0\t0\t0\t0", "0\t0\t0\t0\t0\t0\t0\t0\t0",
        "1\t0\t0\t0\t0\t0\t0\t01", "1\t0\t0\t0\t0\t0\t0\t4294967296", "3\t0\t0\t0\t 1\t0\t0\t0", "# 7",
    };
    puts(bad[draw(sizeof bad / sizeof *bad)]);
}

static uint32_t draw_kind(bool mixed)
{
    /* how often each kind comes, in a hundred */
    static const uint32_t some[] = {0, 25, 35, 40, 0, 0, 0, 0, 0, 0}, all[] = {18, 15, 25, 26, 2, 3, 5, 3, 1, 2};
    const uint32_t *parts = mixed ? all : some;
    uint32_t at = draw(100), kind = 0;

    while (at >= parts[kind])
        at -= parts[kind++];
    return kind;
}

int main(int argc, char **argv)
{
    if (argc != 7 || (strcmp(argv[6], "batch") && strcmp(argv[6], "mixed"))) {
        fputs("usage: generate LINES SEED CACHES CACHE-LINES TOKENS batch|mixed\n", stderr);
        return 2;
    }
    unsigned long count = strtoul(argv[1], NULL, 10);
    uint32_t sizes[3], e[EVENT_WORDS];
    bool mixed = !strcmp(argv[6], "mixed");

    seed = strtoull(argv[2], NULL, 10) * UINT64_C(0x9E3779B97F4A7C15) + 1;
    for (int i = 0; i < 20; i++)
        draw(2);
    for (int i = 0; i < 3; i++)
        sizes[i] = (uint32_t)strtoul(argv[3 + i], NULL, 10);
    if (start(&state, sizes[0], sizes[1], sizes[2]).number != DONE) {
        fputs("generate: a size is out of range\n", stderr);
        return 2;
    }
    if (count > 0)
        printf("%u\t%u\t%u\n", (unsigned)sizes[0], (unsigned)sizes[1], (unsigned)sizes[2]);
    for (unsigned long i = 1; i < count; i++) {
        uint32_t chance = draw(200);
        if (mixed && chance < 1) {
            print_unreadable();
            continue;
        }
        if (mixed && chance < 6) {
            wild_event(e);
        } else {
            /* with every slot free nothing can be delivered, with many in use deliveries come first */
            uint32_t kind = __builtin_popcountll(~state.unused) > 40 ? DELIVER : draw_kind(mixed);
            if (!drawn_event(kind, e) && !drawn_event(DELIVER, e) && !drawn_event(SEND, e))
                step(&state, e);
        }
        print_event(e);
    }
    return fflush(stdout) != 0;
}
