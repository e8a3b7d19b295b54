/* Makes one call. Compiled once over the library and once over the C file, whose names then begin otherwise: MAKE_CALL is
 * the name of this function. */
#include "call.h"

#include <string.h>

make_call MAKE_CALL;

/* Of the address sanitizer, and not there without it: what is not lent may be neither read nor written. */
void __asan_poison_memory_region(const volatile void *from, size_t count) __attribute__((weak));
void __asan_unpoison_memory_region(const volatile void *from, size_t count) __attribute__((weak));

static void not_lent(struct bench *bench, const struct call *c)
{
    if (!__asan_poison_memory_region) return;
    uint32_t *tally = bench->tally[c->node];
    __asan_poison_memory_region(bench->output + ROOM, GUARD);
    __asan_poison_memory_region(bench->output, (size_t)(ROOM - c->output_length));
    __asan_poison_memory_region(bench->payload, (size_t)(ROOM - c->payload_length));
    __asan_poison_memory_region(tally + c->tally_length, (size_t)(TALLY_ROOM - c->tally_length) * sizeof *tally);
    __asan_poison_memory_region(bench->lent[c->node] + c->node_length, (size_t)(NODE_ROOM - c->node_length));
}

static void all_again(struct bench *bench)
{
    if (__asan_unpoison_memory_region) __asan_unpoison_memory_region(bench, sizeof *bench);
}

static void mix(struct answer *answer, uint32_t number)
{
    answer->numbers = (answer->numbers ^ number) * UINT32_C(2654435761); /* one to one in each of the two */
    answer->numbers ^= answer->numbers >> 15;
}

static void numbers(const struct call *c, struct answer *a)
{
    mix(a, kosmydore_join_reply(c->number, c->code));
    mix(a, kosmydore_join(c->number, c->code));
    mix(a, kosmydore_split_reply(c->payload_seed));
    mix(a, kosmydore_split_stream(c->payload_seed));
    mix(a, kosmydore_split_code(c->payload_seed));
    mix(a, kosmydore_split_reply(c->number));
    mix(a, kosmydore_split_stream(c->number));
    mix(a, kosmydore_split_code(c->number));
    mix(a, kosmydore_settings_reply(c->number, c->role, c->class_, c->s[0], c->s[1], c->s[2], c->s[3]));
    mix(a, kosmydore_record_length_reply(c->payload_length));
    mix(a, kosmydore_record_length(c->payload_length));
    mix(a, kosmydore_record_length_reply(c->code));
    mix(a, kosmydore_record_length(c->code));
}

static struct kosmydore_settings settings_of(const struct call *c)
{
    struct kosmydore_settings s;
    s.role = c->role;
    s.class_ = c->class_;
    s.data_reach = c->s[0];
    s.confirm_delay = c->s[1];
    s.abort_reach = c->s[2];
    s.deliver_delay = c->s[3];
    return s;
}

static void by_value(struct bench *bench, const struct call *c, struct answer *a)
{
    struct kosmydore_node *node = &bench->nodes[c->node];
    const uint8_t *payload = bench->payload + ROOM - c->payload_length;
    uint8_t *output = bench->output + ROOM - c->output_length;
    switch (c->kind) {
    case SET_UP: {
        struct kosmydore_answered r = kosmydore_set_up(*node, c->number, settings_of(c));
        *node = r.node;
        a->reply = r.reply;
        break;
    }
    case HEAR: {
        struct kosmydore_heard r = kosmydore_hear(*node, c->number, c->dlc, payload, c->payload_length, output, c->output_length);
        *node = r.node;
        a->reply = r.reply;
        a->told = r.told;
        a->written = (uint32_t)r.written;
        break;
    }
    case TICK: {
        struct kosmydore_ticked r = kosmydore_tick(*node, output, c->output_length);
        *node = r.node;
        a->reply = r.reply;
        a->dropped = r.dropped;
        a->delivered = r.delivered;
        a->written = (uint32_t)r.written;
        break;
    }
    case REQUEST: {
        struct kosmydore_answered r = kosmydore_request(*node, c->number, payload, c->payload_length);
        *node = r.node;
        a->reply = r.reply;
        break;
    }
    case NEXT_FRAME: {
        struct kosmydore_given r = kosmydore_next_frame(*node, output, c->output_length);
        *node = r.node;
        a->reply = r.reply;
        a->id = r.id;
        a->written = (uint32_t)r.length;
        break;
    }
    default: *node = kosmydore_fresh(); break;
    }
}

static void lent(struct bench *bench, const struct call *c, struct answer *a)
{
    uint8_t *node = bench->lent[c->node];
    uint32_t *tally = bench->tally[c->node];
    const uint8_t *payload = bench->payload + ROOM - c->payload_length;
    uint8_t *output = bench->output + ROOM - c->output_length;
    switch (c->kind) {
    case SET_UP: a->reply = kosmydore_module_set_up(node, c->node_length, c->number, settings_of(c), tally, c->tally_length); break;
    case HEAR: {
        struct kosmydore_module_heard r = kosmydore_module_hear(node, c->node_length, c->number, c->dlc, payload, c->payload_length,
                                                                output, c->output_length, tally, c->tally_length);
        a->reply = r.reply;
        a->told = r.told;
        a->written = (uint32_t)r.written;
        break;
    }
    case TICK: {
        struct kosmydore_module_ticked r =
            kosmydore_module_tick(node, c->node_length, output, c->output_length, tally, c->tally_length);
        a->reply = r.reply;
        a->dropped = r.dropped;
        a->delivered = r.delivered;
        a->written = (uint32_t)r.written;
        break;
    }
    case REQUEST:
        a->reply = kosmydore_module_request(node, c->node_length, c->number, payload, c->payload_length, tally, c->tally_length);
        break;
    case NEXT_FRAME: {
        struct kosmydore_given_out r =
            kosmydore_module_next_frame(node, c->node_length, output, c->output_length, tally, c->tally_length);
        a->reply = r.reply;
        a->id = r.id;
        a->written = (uint32_t)r.length;
        break;
    }
    default: a->reply = kosmydore_module_fresh(node, c->node_length); break;
    }
}

void MAKE_CALL(struct bench *bench, const struct call *c, struct answer *a)
{
    memset(a, 0, sizeof *a);
    paint();
    switch (c->kind) {
    case NUMBERS: numbers(c, a); break;
    case COUNT: {
        uint32_t reply = c->code ? c->number % 26 : c->number;
        a->reply = kosmydore_count(bench->tally[c->node], c->tally_length, reply);
        break;
    }
    case WILD:
    case DUE: wild(bench, c); break;
    default:
        not_lent(bench, c);
        (c->form == LENT ? lent : by_value)(bench, c, a);
        all_again(bench);
        break;
    }
}
