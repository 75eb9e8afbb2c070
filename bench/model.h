/* The model of document 01, with T-01 of document 02, in C: its state, a fresh start, and one step in place. */
#ifndef MODEL_H
#define MODEL_H

#include <stdbool.h>
#include <stdint.h>
#include <string.h>

enum { MAX_CACHES = 8, MAX_LINES = 16, MAX_TOKENS = 64, NODES = MAX_CACHES + 1, SLOTS = 64, NO_SLOT = 64 };

enum { READ, WRITE, SEND, DELIVER, DROP, WANT_READ, WANT_WRITE, LOST_TOKEN, LOST_DATA, LOST_DELETION };
enum { KIND, LINE, NODE, OTHER, AMOUNT, OWNER, DATA, WORD, EVENT_WORDS }; /* where an event's words stand */
enum { SLOT = AMOUNT };
enum message_kind { TOKENS, OWNERSHIP_ACK, DELETION_ACK };
enum { WANT_NONE, WANTS_READ, WANTS_WRITE };

enum {
    DONE = 0, NOT_WELL_FORMED = 1, BAD_KIND = 2, BAD_LINE = 3, BAD_NODE = 4, MEMORY_NAMED = 5, BAD_SLOT = 6,
    SAME_NODE = 7, BAD_AMOUNT = 8, NOT_OWNER = 9, BLOCKED = 10, NOT_VALID = 11, POOL_FULL = 12, NOT_ABLE = 13,
    WANTED_ALREADY = 14, ABLE_ALREADY = 15, NO_CAUSE = 16, NEXT_SERIAL_IN_POOL = 17, NOTHING_LEFT = 18, BAD_SIZE = 19,
    NOT_READABLE = 22, BACKUP_ELSEWHERE = 23
};

struct cell {
    uint32_t word, saved; /* the data word, the backup word */
    uint8_t tokens, want;
    bool valid, owner, blocked, backup;
};

struct message {
    uint32_t word;
    uint8_t kind, line, source, destination, serial, tokens;
    bool owner, data;
};

/* The state of a start that was accepted; all zero (no cache) before that and after a start that was refused. */
struct state {
    uint32_t caches, lines, tokens;
    uint64_t unused; /* one bit for each free slot of the pool */
    uint8_t serial[MAX_LINES];
    struct cell cells[MAX_LINES][NODES];
    struct message pool[SLOTS];
};

struct answer {
    uint32_t number, word, slot;
};

static inline struct answer answered(uint32_t number, uint32_t word, uint32_t slot)
{
    return (struct answer){number, word, slot};
}

static inline struct answer refused(uint32_t number)
{
    return answered(number, 0, NO_SLOT);
}

static inline struct answer done(void)
{
    return answered(DONE, 0, NO_SLOT);
}

static inline struct answer start(struct state *s, uint32_t caches, uint32_t lines, uint32_t tokens)
{
    memset(s, 0, sizeof *s);
    if (caches < 1 || caches > MAX_CACHES || lines < 1 || lines > MAX_LINES || tokens < 1 || tokens > MAX_TOKENS)
        return refused(BAD_SIZE);
    s->caches = caches;
    s->lines = lines;
    s->tokens = tokens;
    s->unused = ~UINT64_C(0);
    for (uint32_t line = 0; line < lines; line++) {
        struct cell *memory = &s->cells[line][caches];
        memory->tokens = (uint8_t)tokens;
        memory->valid = memory->owner = true;
    }
    return done();
}

static inline bool able_to_read(const struct cell *c)
{
    return c->tokens > 0 && c->valid;
}

static inline bool able_to_write(const struct state *s, const struct cell *c)
{
    return c->tokens == s->tokens && c->valid;
}

static inline void end_want(const struct state *s, struct cell *c)
{
    if ((c->want == WANTS_READ && able_to_read(c)) || (c->want == WANTS_WRITE && able_to_write(s, c)))
        c->want = WANT_NONE;
}

static inline struct answer send_tokens(struct state *s, const uint32_t *e)
{
    struct cell *c = &s->cells[e[LINE]][e[NODE]];
    uint32_t amount = e[AMOUNT];
    bool owner = e[OWNER] != 0, data = e[DATA] != 0;

    if (e[NODE] == e[OTHER])
        return refused(SAME_NODE);
    if (amount == 0 || amount > c->tokens || (!owner && c->owner && amount == c->tokens))
        return refused(BAD_AMOUNT);
    if (owner && (!c->owner || !data))
        return refused(NOT_OWNER);
    if (owner && c->blocked)
        return refused(BLOCKED);
    if (data && !c->valid)
        return refused(NOT_VALID);
    if (s->unused == 0)
        return refused(POOL_FULL);

    uint32_t slot = (uint32_t)__builtin_ctzll(s->unused);
    s->unused &= s->unused - 1;
    s->pool[slot] = (struct message){
        .word = data ? c->word : 0,
        .kind = TOKENS,
        .line = (uint8_t)e[LINE],
        .source = (uint8_t)e[NODE],
        .destination = (uint8_t)e[OTHER],
        .serial = s->serial[e[LINE]],
        .tokens = (uint8_t)amount,
        .owner = owner,
        .data = data,
    };
    if (owner) {
        c->owner = false;
        c->backup = true;
        c->saved = c->word;
    }
    c->tokens = (uint8_t)(c->tokens - amount);
    if (c->tokens == 0) {
        c->valid = false;
        c->word = 0;
    }
    return answered(DONE, 0, slot);
}

/* An acknowledgment goes back to where the message of this slot came from, in the same slot. */
static inline struct answer reply(struct state *s, uint32_t slot, enum message_kind kind)
{
    struct message *m = &s->pool[slot];
    *m = (struct message){
        .kind = (uint8_t)kind,
        .line = m->line,
        .source = m->destination,
        .destination = m->source,
        .serial = m->serial, /* it was just found to be the line's */
    };
    return answered(DONE, 1, slot);
}

static inline struct answer deliver(struct state *s, uint32_t slot)
{
    const struct message *m = &s->pool[slot];
    struct cell *c = &s->cells[m->line][m->destination];
    uint64_t bit = UINT64_C(1) << slot;

    if (m->serial == s->serial[m->line]) {
        switch (m->kind) {
        case TOKENS:
            c->tokens = (uint8_t)(c->tokens + m->tokens);
            if (m->data) {
                c->valid = true;
                c->word = m->word;
            }
            if (c->want != WANT_NONE)
                end_want(s, c);
            if (m->owner) {
                c->owner = c->blocked = true;
                return reply(s, slot, OWNERSHIP_ACK);
            }
            s->unused |= bit;
            return answered(DONE, 1, NO_SLOT);
        case OWNERSHIP_ACK:
            if (c->backup) {
                c->backup = false;
                c->saved = 0;
                return reply(s, slot, DELETION_ACK);
            }
            break;
        case DELETION_ACK:
            if (c->blocked) {
                c->blocked = false;
                s->unused |= bit;
                return answered(DONE, 1, NO_SLOT);
            }
            break;
        }
    }
    s->unused |= bit; /* discarded */
    return done();
}

static inline struct answer recreate(struct state *s, uint32_t line, uint32_t node)
{
    struct cell *cells = s->cells[line];
    uint8_t next = (s->serial[line] + 1) & 3;

    for (uint64_t used = ~s->unused; used != 0; used &= used - 1) {
        const struct message *m = &s->pool[__builtin_ctzll(used)];
        if (m->line == line && m->serial == next)
            return refused(NEXT_SERIAL_IN_POOL);
    }
    const struct cell *owner = NULL, *valid = NULL;
    bool backup = false;
    for (uint32_t n = s->caches + 1; n-- > 0;) { /* downwards, so that the lowest-numbered stays */
        if (cells[n].owner)
            owner = &cells[n];
        if (cells[n].valid)
            valid = &cells[n];
        backup |= cells[n].backup;
    }
    if (!owner && !valid && !cells[node].backup) /* only the holder may use a backup */
        return refused(backup ? BACKUP_ELSEWHERE : NOTHING_LEFT);
    uint32_t word = owner ? owner->word : valid ? valid->word : cells[node].saved;
    for (uint32_t n = 0; n <= s->caches; n++)
        cells[n] = (struct cell){.want = cells[n].want};
    cells[node].tokens = (uint8_t)s->tokens;
    cells[node].valid = cells[node].owner = true;
    cells[node].word = word;
    cells[node].want = WANT_NONE; /* with all tokens it can read and write */
    s->serial[line] = next;
    return done();
}

/* One event, eight words. The smallest number that applies is the one given, so tests stand in that order. */
static inline struct answer step(struct state *s, const uint32_t *e)
{
    uint32_t kind = e[KIND], line = e[LINE], node = e[NODE];

    if (s->caches == 0)
        return refused(NOT_WELL_FORMED);
    if (kind > LOST_DELETION || (kind == SEND && (e[OWNER] > 1 || e[DATA] > 1)))
        return refused(BAD_KIND);
    if (kind == DELIVER || kind == DROP) {
        uint32_t slot = e[SLOT];
        if (slot >= SLOTS || (s->unused >> slot & 1))
            return refused(BAD_SLOT);
        if (kind == DELIVER)
            return deliver(s, slot);
        s->unused |= UINT64_C(1) << slot;
        return done();
    }
    if (line >= s->lines)
        return refused(BAD_LINE);
    if (node > s->caches || (kind == SEND && e[OTHER] > s->caches))
        return refused(BAD_NODE);
    if (kind == SEND)
        return send_tokens(s, e);
    if (node == s->caches && kind < LOST_DATA)
        return refused(MEMORY_NAMED);

    struct cell *c = &s->cells[line][node];
    switch (kind) {
    case READ:
        return able_to_read(c) ? answered(DONE, c->word, NO_SLOT) : refused(NOT_ABLE);
    case WRITE:
        if (!able_to_write(s, c))
            return refused(NOT_ABLE);
        c->word = e[WORD];
        return done();
    case WANT_READ:
    case WANT_WRITE:
        if (c->want != WANT_NONE)
            return refused(WANTED_ALREADY);
        if (kind == WANT_READ ? able_to_read(c) : able_to_write(s, c))
            return refused(ABLE_ALREADY);
        c->want = kind == WANT_READ ? WANTS_READ : WANTS_WRITE;
        return done();
    case LOST_TOKEN:
        return c->want != WANT_NONE ? recreate(s, line, node) : refused(NO_CAUSE);
    case LOST_DATA:
        return c->backup ? recreate(s, line, node) : refused(NO_CAUSE);
    default: /* LOST_DELETION */
        return c->blocked ? recreate(s, line, node) : refused(NO_CAUSE);
    }
}

#endif
