/* Random calls, and the nodes that they are made on. */
#include "call.h"

#include <string.h>

bool same_answer(const struct answer *a, const struct answer *b)
{
    return a->left == b->left && a->output == b->output && a->reply == b->reply && a->written == b->written && a->id == b->id &&
           a->numbers == b->numbers && a->told == b->told && a->dropped == b->dropped && a->delivered == b->delivered;
}

uint64_t random_step(uint64_t *state)
{
    uint64_t z = (*state += UINT64_C(0x9E3779B97F4A7C15));
    z = (z ^ (z >> 30)) * UINT64_C(0xBF58476D1CE4E5B9);
    z = (z ^ (z >> 27)) * UINT64_C(0x94D049BB133111EB);
    return z ^ (z >> 31);
}

static uint32_t below(uint64_t *state, uint32_t bound) { return (uint32_t)(random_step(state) % bound); }
static uint32_t any(uint64_t *state) { return (uint32_t)random_step(state); }

/* The seeds from here on are payloads of the same bytes, but for one of the first eight. */
#define ALIKE UINT32_C(1000000)

#define PICK(state, list) (list)[below(state, sizeof(list) / sizeof *(list))]

static uint32_t stream(uint64_t *state)
{
    static const uint32_t edges[] = {0,     1,      254,    255,       256,       65535,     65536,     16777215, 16777216,
                                     33554, 134217726, 134217727, 134217728, 536870911, 536870912, UINT32_MAX};
    switch (below(state, 20)) {
    case 0: return PICK(state, edges);
    case 1: return any(state);
    default: return below(state, 40);
    }
}

static uint32_t edge(uint64_t *state)
{
    static const uint32_t edges[] = {0,    1,    2,     3999,  4000,  4001,  7999,  8000,  8001,
                                     15999, 16000, 16001, 32767, 32768, 65535, 65536, 65537, UINT32_MAX};
    return below(state, 2) ? PICK(state, edges) : below(state, 2) ? any(state) : any(state) % 65536;
}

static void settings(struct call *call, uint64_t *state)
{
    call->role = below(state, 2);
    call->class_ = below(state, 3);
    if (call->class_ == 1) {
        call->s[0] = 1 + below(state, 10);
        call->s[3] = call->s[0] + below(state, 20);
    } else if (call->class_ == 2) {
        call->s[0] = 1 + below(state, 10);
        call->s[1] = call->s[0] + below(state, 10);
        call->s[2] = 1 + below(state, 5);
        call->s[3] = call->s[1] + call->s[2] + 1 + below(state, 20);
    }
    if (below(state, 8) == 0) { /* at the limits */
        call->s[0] = call->class_ ? 7999 + below(state, 3) : 0;
        call->s[1] = call->class_ == 2 ? 7999 + below(state, 3) : 0;
        call->s[2] = call->class_ == 2 ? 3999 + below(state, 3) : 0;
        call->s[3] = call->class_ ? 15999 + below(state, 3) : 0;
        if (call->class_ == 2 && below(state, 2)) {
            call->s[0] = 1 + below(state, 4) * 2000;
            call->s[3] = call->s[1] + call->s[2] + below(state, 3);
        }
    }
    if (below(state, 6) == 0) { /* past them */
        switch (below(state, 4)) {
        case 0: call->s[below(state, 4)] = edge(state); break;
        case 1:
            for (int i = 0; i < 4; i++) call->s[i] = edge(state);
            break;
        case 2: call->role = below(state, 2) ? below(state, 4) : edge(state); break;
        default: call->class_ = below(state, 2) ? below(state, 5) : edge(state); break;
        }
    }
    if (below(state, 8) == 0) { /* legal but for one, or only if they were cut */
        switch (below(state, 4)) {
        case 0: call->role += 256; break;
        case 1: call->class_ += 256; break;
        case 2: call->s[below(state, 4)] = 0; break;
        default:
            if (below(state, 2)) {
                call->class_ = 0;
                memset(call->s, 0, sizeof call->s);
            }
            call->s[below(state, 4)] += 65536;
            break;
        }
    }
}

static uint16_t room(uint64_t *state, uint16_t least)
{
    static const uint16_t edges[] = {0, 1, 7, 8, 9, 15, 16, 17, 511, 512, 513, ROOM};
    uint32_t r = below(state, 10);
    return r < 7 ? (uint16_t)(least + below(state, 8)) : r == 7 ? (uint16_t)below(state, 700) : PICK(state, edges);
}

/* A slot of the node, with some tries one of this role; where it is to hold a message, one that does if there is one. */
static const struct kosmydore_slot *some_slot(uint64_t *state, const struct kosmydore_node *node, uint8_t role, bool holds)
{
    const uint32_t from = below(state, KOSMYDORE_SLOTS);
    const struct kosmydore_slot *slot = node->slots;
    for (uint32_t i = 0; holds && i < KOSMYDORE_SLOTS; i++) {
        slot = &node->slots[(from + i) % KOSMYDORE_SLOTS];
        if (slot->used && slot->settings.role == role && slot->message.held) return slot;
    }
    for (int tries = 0; tries < 6 && !(tries && slot->used && slot->settings.role == role); tries++) {
        slot = &node->slots[below(state, KOSMYDORE_SLOTS)];
    }
    return slot;
}

/* Of the node that lent bytes are, what the choice of a call needs; crates/node_bytes/src/lib.rt lists the places. */
static uint16_t two(const uint8_t *at) { return (uint16_t)(at[0] | at[1] << 8); }

static void node_of(const uint8_t *lent, struct kosmydore_node *node)
{
    for (int i = 0; i < KOSMYDORE_SLOTS; i++) {
        struct kosmydore_slot *s = &node->slots[i];
        const uint8_t *at = lent + 32 * i;
        s->stream = two(at) | (uint32_t)two(at + 2) << 16;
        s->used = at[4] != 0;
        s->message.held = at[5] != 0;
        s->message.length = at[12];
        s->settings.role = at[13];
        s->settings.class_ = at[14];
    }
}

static uint16_t lent_length(uint64_t *state)
{
    static const uint16_t edges[] = {0, 1, 2, 32, 1023, 1024, 1025, 1027, 1028, KOSMYDORE_NODE_BYTES + GUARD};
    return below(state, 50) ? KOSMYDORE_NODE_BYTES : below(state, 2) ? PICK(state, edges) : (uint16_t)below(state, 1090);
}

void random_call(struct call *call, uint64_t *state, const struct bench *bench)
{
    static const uint8_t mix[] = {HEAR, HEAR, HEAR, HEAR, HEAR, TICK, TICK, TICK, TICK, REQUEST, REQUEST,
                                  NEXT_FRAME, NEXT_FRAME, NEXT_FRAME, SET_UP, SET_UP};
    uint32_t r = below(state, 2000);
    memset(call, 0, sizeof *call);
    call->kind = r == 0 || r >= 1990 ? FRESH : r < 8 ? WILD : r < 16 ? DUE : r < 100 ? NUMBERS : r < 160 ? COUNT : PICK(state, mix);
    call->form = r >= 1990 || below(state, 3) ? LENT : BY_VALUE;
    call->node = (uint8_t)below(state, below(state, 2) ? NODES : NODES / 8); /* some have longer histories */
    call->node_length = lent_length(state);
    if (r >= 1990) call->node_length = (uint16_t)(KOSMYDORE_NODE_BYTES + (r % 2 ? 1 : -1)); /* is refused */
    call->tally_length = (uint8_t)(below(state, 20) ? KOSMYDORE_TALLY_SIZE : below(state, TALLY_ROOM + 1));
    settings(call, state);
    call->number = call->kind == WILD || call->kind == DUE ? any(state) : stream(state);
    struct kosmydore_node lent;
    if (call->form == LENT) node_of(bench->lent[call->node], &lent);
    const struct kosmydore_node *node = call->form == LENT ? &lent : &bench->nodes[call->node];
    const struct kosmydore_slot *slot = some_slot(state, node, call->kind == REQUEST, call->kind == HEAR && below(state, 2));
    bool own = below(state, 4) != 0;
    if (own && (call->kind == HEAR || call->kind == REQUEST || (call->kind == SET_UP && below(state, 3) == 0))) {
        call->number = slot->stream; /* mostly one that the node has */
    }
    call->code = below(state, 3) ? below(state, 11) : any(state);
    call->payload_seed = any(state);
    call->output_seed = any(state);
    call->payload_length = (uint16_t)(below(state, 12) ? below(state, 10) : below(state, 600));
    if (below(state, 2)) { /* the same bytes again, or one of them another, or one more of them */
        call->payload_seed = ALIKE + (below(state, 3) ? 0 : below(state, 9));
        call->payload_length = (uint16_t)(7 + below(state, 2));
        if (slot->message.held && slot->message.length <= 8 && below(state, 2)) call->payload_length = slot->message.length;
    }
    call->output_length = room(state, call->kind == HEAR ? 16 : call->kind == TICK ? 512 : 8);
    if (call->kind == HEAR) {
        call->code = below(state, 4);
        if (own && below(state, 4)) call->code = slot->settings.class_ == 2 ? below(state, 3) : slot->settings.class_ ? 0 : 3;
        call->number = below(state, 30) ? call->number * 4 + call->code
                       : below(state, 2) ? UINT32_C(536870909) + below(state, 6)
                                         : any(state);
        if ((call->code == 1 || call->code == 2) && below(state, 8)) call->payload_length = 0;
        call->dlc = below(state, 20) ? call->payload_length : below(state, 2) ? below(state, 17) : any(state);
        if (call->payload_length == 8 && below(state, 4) == 0) call->dlc = 8 + below(state, 9);
        if (below(state, 40) == 0) call->dlc += UINT32_C(1) << (8 * (1 + below(state, 3))); /* is not cut */
    }
    if (call->kind == NUMBERS && call->output_seed % 4 == 0) { /* a stream at its limit, and a code that is mostly one */
        call->number = UINT32_C(134217726) + call->output_seed / 4 % 3;
        call->code = call->output_seed / 12 % 5;
    }
}

static void put(uint8_t **to, uint32_t number, int bytes)
{
    for (; bytes; bytes--, number >>= 8) *(*to)++ = (uint8_t)number;
}

static void put_bool(uint8_t **to, const bool *is) { memcpy((*to)++, is, 1); } /* the byte: a bool of 2 is seen */

void left(const struct bench *bench, unsigned number, uint8_t to[LEFT])
{
    const struct kosmydore_node *node = &bench->nodes[number];
    uint8_t *at = to;
    for (int i = 0; i < KOSMYDORE_SLOTS; i++) {
        const struct kosmydore_slot *s = &node->slots[i];
        put(&at, s->stream, 4);
        put(&at, s->settings.role, 1);
        put(&at, s->settings.class_, 1);
        put(&at, s->settings.data_reach, 2);
        put(&at, s->settings.confirm_delay, 2);
        put(&at, s->settings.abort_reach, 2);
        put(&at, s->settings.deliver_delay, 2);
        put(&at, s->message.stamp, 2);
        put(&at, s->message.length, 1);
        put_bool(&at, &s->message.held);
        put_bool(&at, &s->message.confirmed);
        memcpy(at, s->message.bytes, sizeof s->message.bytes);
        at += sizeof s->message.bytes;
        put_bool(&at, &s->pending.payload);
        put_bool(&at, &s->pending.confirmation);
        put_bool(&at, &s->pending.abort);
        put_bool(&at, &s->used);
    }
    put(&at, node->counter, 2);
    memcpy(at, bench->lent[number], NODE_ROOM);
    at += NODE_ROOM;
    for (int i = 0; i < TALLY_ROOM; i++) put(&at, bench->tally[number][i], 4);
}

static void lent_of(const struct kosmydore_node *node, uint8_t *lent)
{
    uint8_t *at = lent;
    for (int i = 0; i < KOSMYDORE_SLOTS; i++) {
        const struct kosmydore_slot *s = &node->slots[i];
        put(&at, s->stream, 4);
        put(&at, s->used, 1);
        put(&at, s->message.held, 1);
        put(&at, s->message.stamp, 2);
        put(&at, s->pending.payload, 1);
        put(&at, s->pending.confirmation, 1);
        put(&at, s->pending.abort, 1);
        put(&at, s->message.confirmed, 1);
        put(&at, s->message.length, 1);
        put(&at, s->settings.role, 1);
        put(&at, s->settings.class_, 1);
        put(&at, 0, 1);
        put(&at, s->settings.data_reach, 2);
        put(&at, s->settings.confirm_delay, 2);
        put(&at, s->settings.abort_reach, 2);
        put(&at, s->settings.deliver_delay, 2);
        memcpy(at, s->message.bytes, sizeof s->message.bytes);
        at += sizeof s->message.bytes;
    }
    put(&at, node->counter, 2);
}

uint64_t sum_of(const uint8_t *bytes, size_t count)
{
    uint64_t sum = UINT64_C(14695981039346656037);
    for (size_t i = 0; i < count; i++) {
        sum = (sum ^ bytes[i]) * UINT64_C(0x9E3779B97F4A7C15);
        sum ^= sum >> 29;
    }
    return sum;
}

static void fill(uint8_t *to, size_t count, uint32_t seed)
{
    uint32_t x = seed * UINT32_C(2654435761) + 12345;
    for (size_t i = 0; i < count; i++) {
        x = x * UINT32_C(1664525) + UINT32_C(1013904223);
        to[i] = (uint8_t)(x >> 24);
    }
}

void lend(struct bench *bench, const struct call *call)
{
    fill(bench->output, sizeof bench->output, call->output_seed);
    uint8_t *payload = bench->payload + ROOM - call->payload_length; /* where it ends, the room ends too */
    uint32_t other = call->payload_seed - ALIKE;
    fill(payload, call->payload_length, other < 9 ? ALIKE : call->payload_seed);
    if (0 < other && other < 9 && other <= call->payload_length) payload[other - 1] ^= 16;
}

void paint(void)
{
    volatile uint64_t room[2048];
    for (size_t i = 0; i < sizeof room / sizeof *room; i++) room[i] = UINT64_C(0xA5C3A5C3A5C3A5C3);
}

static void any_node(struct kosmydore_node *node, uint32_t seed)
{
    uint64_t x = seed;
    bool all = seed % 4 == 0;
    memset(node, 0, sizeof *node);
    for (int i = 0; i < KOSMYDORE_SLOTS; i++) {
        struct kosmydore_slot *s = &node->slots[i];
        uint64_t r = random_step(&x), q = random_step(&x);
        bool far = all || (r & 7) == 0;
        r >>= 3;
        s->stream = far ? (uint32_t)q : (uint32_t)(q % 40);
        if (q >> 60 == 0) s->stream = UINT32_C(134217726) + (uint32_t)(q % 4);
        s->settings.data_reach = (uint16_t)(far ? r : r % 30);
        s->settings.confirm_delay = (uint16_t)(far ? r >> 5 : (r >> 5) % 30);
        s->settings.abort_reach = (uint16_t)(far ? r >> 10 : (r >> 10) % 30);
        s->settings.deliver_delay = (uint16_t)(far ? r >> 15 : (r >> 15) % 30);
        s->settings.role = (uint8_t)(far ? (r >> 41) % 2 ? r >> 20 : (r >> 20) % 4 : (r >> 20) & 1);
        s->settings.class_ = (uint8_t)(far ? (r >> 40) % 2 ? r >> 30 : (r >> 30) % 6 : (r >> 44) % 8 ? (r >> 30) % 3 : 3);
        q = random_step(&x);
        s->message.stamp = (uint16_t)(far ? q : q % 40);
        s->message.length = (uint8_t)(far && q >> 60 == 0 ? q >> 16 : (q >> 16) % 11);
        s->message.held = (q >> 24) & 1;
        s->message.confirmed = (q >> 25) & 1;
        s->pending.payload = (q >> 26) & 1;
        s->pending.confirmation = (q >> 27) & 1;
        s->pending.abort = (q >> 28) & 1;
        s->used = ((q >> 29) & 3) != 0;
        q = random_step(&x);
        memcpy(s->message.bytes, &q, sizeof s->message.bytes);
    }
    x = random_step(&x);
    node->counter = (uint16_t)(x & 1 ? x >> 8 : x & 2 ? (x >> 8) % 50 : 65535 - (x >> 8) % 3);
}

static void due(struct kosmydore_node *node, uint32_t seed)
{
    uint64_t x = seed;
    any_node(node, seed | 1);
    for (int i = 0; i < KOSMYDORE_SLOTS; i++) {
        struct kosmydore_slot *s = &node->slots[i];
        uint64_t r = random_step(&x);
        int limit;
        bool early;
        uint32_t high = (uint32_t)(seed % 3 == 0 ? UINT32_C(134217727) - UINT32_C(65535) : 0);
        s->stream = high + ((uint32_t)i * 37 + (uint32_t)(r % 3) * 1000) % 60000;
        if (high && i == 31) s->stream = UINT32_C(134217727);
        s->settings.role = (r >> 8) % 16 == 0;
        s->settings.class_ = (uint8_t)((r >> 12) % 16 ? 1 + (seed >> 4) % 2 : 0);
        s->settings.data_reach = 3;
        s->settings.confirm_delay = s->settings.class_ == 2 ? 4 : 0;
        s->settings.abort_reach = s->settings.class_ == 2 ? 2 : 0;
        s->settings.deliver_delay = (uint16_t)(9 + (r >> 16) % 3);
        s->message.length = (uint8_t)((r >> 24) % 11);
        s->message.held = (r >> 32) % 16 != 0;
        s->message.confirmed = (seed >> 5) % 4 != 0 && (r >> 36) % 16 != 0;
        s->used = (r >> 40) % 32 != 0;
        /* no set up makes these: they are to deliver before they are confirmed, and only the confirm delay keeps them */
        early = (r >> 48) % 4 == 0 && s->settings.class_ == 2 && !s->message.confirmed;
        if (early) s->settings.deliver_delay = (uint16_t)((r >> 16) % 4);
        /* when the counter has moved, the age is past its limit, or at it */
        limit = s->settings.role ? s->settings.data_reach + s->settings.deliver_delay
                : s->settings.class_ == 2 && !s->message.confirmed ? s->settings.confirm_delay
                                                                   : s->settings.deliver_delay;
        s->message.stamp = (uint16_t)(node->counter + 1 - limit - (!early && (r >> 20) % 8 != 0));
        if (seed % 5 == 0) { /* one frame is pending, with the highest identifier of all */
            s->pending.payload = i == 31;
            s->pending.confirmation = s->pending.abort = false;
            if (i == 31) {
                s->stream = UINT32_C(134217727);
                s->settings.class_ = 0;
                s->used = true;
            }
        }
    }
}

void wild(struct bench *bench, const struct call *call)
{
    uint64_t x = call->number;
    uint8_t *lent = bench->lent[call->node];
    struct kosmydore_node node;
    (call->kind == DUE ? due : any_node)(&node, call->number);
    if (call->form == BY_VALUE) {
        bench->nodes[call->node] = node;
        return;
    }
    lent_of(&node, lent);
    uint64_t how = random_step(&x) % 8;
    for (int i = 0; how < 4 && i < KOSMYDORE_SLOTS; i++) { /* a bool is any byte, and one byte of a slot is no field's */
        static const uint8_t places[] = {4, 5, 8, 9, 10, 11, 15};
        for (size_t k = 0; k < sizeof places; k++) {
            uint64_t r = random_step(&x);
            uint8_t *at = lent + 32 * i + places[k];
            if (*at || (places[k] == 15 && r % 2)) *at = (uint8_t)(1 + (r >> 8) % 255);
        }
    }
    for (size_t i = 0; how == 7 && call->kind == WILD && i < KOSMYDORE_NODE_BYTES; i++) lent[i] = (uint8_t)random_step(&x);
    for (size_t i = KOSMYDORE_NODE_BYTES; i < NODE_ROOM; i++) lent[i] = (uint8_t)random_step(&x);
    for (size_t i = 0; i < TALLY_ROOM; i++) {
        uint64_t r = random_step(&x);
        bench->tally[call->node][i] = r % 4 ? (uint32_t)(r >> 8) : UINT32_MAX - (uint32_t)((r >> 8) % 3);
    }
}
