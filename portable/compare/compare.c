/* The C file against the kit's library in one process:
 *   compare CALLS SEED [VECTORS]
 * makes random calls on both, and compares every answer, every field of the node, every byte of the lent node, of the
 * tally, of the output's room and of the payload's; at every thousandth call and the last also all other nodes. The first
 * calls and the library's answers go to the file VECTORS, for a replay on another chip. */
#include "call.h"

#include <stdio.h>
#include <stdlib.h>
#include <string.h>

make_call library_call, portable_call;

enum { REPLAYED = 200000, ALL_NODES = 1000, MANY = 50000 };

static struct bench library, portable;
static const char *const titles[KINDS] = {"set_up", "hear", "tick", "request", "next_frame", "fresh", "count", "numbers", "wild", "due"};
static const char *const forms[FORMS] = {"by value", "lent"};
static unsigned long made[FORMS][KINDS], replies[FORMS][KINDS][32], told[FORMS][16], full_ticks[FORMS], drops[FORMS];

/* Whether every reply that a call can give was given, so that the calls show something. */
static bool all_given(void)
{
    static const char *const can[FORMS][NUMBERS] = {{"0123", "0567;BCDE", "0;", "089:", "0;<", "0", "01"}, /* 10 to 12: : ; < */
                                                    {"0123:", "0567:;BCDE", "0:;", "089:", "0:;<", "0:", "01"}}; /* 18 to 21: B C D E */
    for (int form = 0; form < FORMS; form++)
        for (int kind = SET_UP; kind < NUMBERS; kind++)
            for (const char *reply = can[form][kind]; *reply; reply++)
                if (!replies[form][kind][*reply - '0']) {
                    printf("%s, %s, never answers %d\n", titles[kind], forms[form], *reply - '0');
                    return false;
                }
    return true;
}

/* Whether everything was told that a frame can do, and ticks dropped; a few thousand calls need not come to all of it. */
static bool all_told(void)
{
    for (int form = 0; form < FORMS; form++) {
        if (!drops[form]) {
            printf("no tick, %s, drops a message\n", forms[form]);
            return false;
        }
        for (unsigned did = KOSMYDORE_TOLD_NOTHING; did <= KOSMYDORE_TOLD_DELIVERED; did++)
            if (!told[form][did]) {
                printf("hear, %s, never tells %u\n", forms[form], did);
                return false;
            }
    }
    return true;
}

static bool same_left(unsigned number)
{
    uint8_t x[LEFT], y[LEFT];
    left(&library, number, x);
    left(&portable, number, y);
    return memcmp(x, y, LEFT) == 0;
}

/* Of a call on lent bytes, those and the tally: its node by value is looked at with all the others. */
static bool same_node(const struct call *call)
{
    if (call->form != LENT) return same_left(call->node);
    return memcmp(library.lent[call->node], portable.lent[call->node], NODE_ROOM) == 0 &&
           memcmp(library.tally[call->node], portable.tally[call->node], sizeof library.tally[0]) == 0;
}

static bool same_nodes(void)
{
    for (unsigned number = 0; number < NODES; number++)
        if (!same_left(number)) return false;
    return true;
}

static bool same(const struct call *call, const struct answer *a, const struct answer *b)
{
    return same_answer(a, b) && same_node(call) && memcmp(library.output, portable.output, sizeof library.output) == 0 &&
           memcmp(library.payload, portable.payload, sizeof library.payload) == 0;
}

static void say(const char *whose, const struct answer *a)
{
    printf("%s %lu %lu %lu, told %lu, dropped %lu, delivered %lu", whose, (unsigned long)a->reply, (unsigned long)a->written,
           (unsigned long)a->id, (unsigned long)a->told, (unsigned long)a->dropped, (unsigned long)a->delivered);
}

int main(int argc, char **argv)
{
    unsigned long count = argc > 1 ? strtoul(argv[1], 0, 10) : 0, wrong = 0;
    uint64_t state = argc > 2 ? strtoull(argv[2], 0, 10) : 0;
    FILE *vectors = argc > 3 ? fopen(argv[3], "wb") : 0;
    struct call call;
    struct answer a, b;
    if (argc < 3 || count == 0 || (argc > 3 && !vectors)) {
        fprintf(stderr, "usage: compare CALLS SEED [VECTORS]\n");
        return 2;
    }
    const unsigned long last = count + FORMS * NODES;
    for (unsigned long i = 0; i < last && wrong < 5; i++) {
        random_call(&call, &state, &library);
        if (i < FORMS * NODES) {
            call.kind = FRESH;
            call.form = (uint8_t)(i / NODES);
            call.node = (uint8_t)(i % NODES);
            call.node_length = KOSMYDORE_NODE_BYTES;
        }
        lend(&library, &call);
        memcpy(portable.output, library.output, sizeof library.output);
        memcpy(portable.payload, library.payload, sizeof library.payload);
        library_call(&library, &call, &a);
        portable_call(&portable, &call, &b);
        made[call.form][call.kind]++;
        replies[call.form][call.kind][a.reply & 31]++;
        told[call.form][a.told & 15] += call.kind == HEAR;
        full_ticks[call.form] += call.kind == TICK && a.written >= 16 * 8;
        drops[call.form] += a.dropped != 0;
        if (!same(&call, &a, &b) || ((i % ALL_NODES == 0 || i + 1 == last) && !same_nodes())) {
            wrong++;
            printf("call %lu, %s, %s:", i, titles[call.kind], forms[call.form]);
            say(" the library answers", &a);
            say("; and the C file", &b);
            printf("\n");
        }
        if (vectors && i < REPLAYED) {
            uint8_t x[LEFT];
            left(&library, call.node, x);
            a.left = sum_of(x, LEFT);
            a.output = sum_of(library.output, sizeof library.output);
            fwrite(&call, sizeof call, 1, vectors);
            fwrite(&a, sizeof a, 1, vectors);
        }
    }
    if (vectors && fclose(vectors) != 0) return 2;
    for (int form = 0; form < FORMS; form++) {
        printf("%s", forms[form]);
        for (int kind = 0; kind < KINDS; kind++) {
            printf("; %s %lu", titles[kind], made[form][kind]);
            for (int reply = 0; kind < NUMBERS && reply < 32; reply++)
                if (replies[form][kind][reply]) printf(" %d:%lu", reply, replies[form][kind][reply]);
        }
        printf("; told");
        for (int did = 0; did < 16; did++)
            if (told[form][did]) printf(" %d:%lu", did, told[form][did]);
        printf("; ticks that dropped %lu\n", drops[form]);
    }
    printf("%lu calls, %lu and %lu ticks of 16 records or more, %lu differ\n", count, full_ticks[BY_VALUE], full_ticks[LENT], wrong);
    return wrong != 0 || full_ticks[BY_VALUE] == 0 || full_ticks[LENT] == 0 || !all_given() || (count >= MANY && !all_told());
}
