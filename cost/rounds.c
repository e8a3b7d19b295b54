/* Counts the rounds of the response-time sheet: for each line `solve ..` of standard input, the rounds of the plain
 * recurrence, the rounds that crates/response/src/recurrence.rt takes, and the sheet's answer, by the same steps. A line
 * is a legal one with output enough; of more than 2,000,000 plain rounds no more are counted. */
#include <stdint.h>
#include <stdio.h>
#include <stdlib.h>
#include <string.h>

enum { STREAMS = 64, STEPS = 8, ALL = 4000000, PLAIN = 2000000 };
static const uint64_t WHOLE = 4294967296;

struct claims {
    int n;
    uint64_t cost[STREAMS + 1], period[STREAMS + 1], lead[STREAMS + 1];
    uint64_t blocking, room;
};

static uint64_t times(const struct claims *c, int k, uint64_t w) {
    return (w + c->lead[k] + c->period[k] - 1) / c->period[k];
}

static uint64_t right_side(const struct claims *c, uint64_t w) {
    uint64_t sum = c->blocking;
    for (int k = 0; k < c->n; k++) sum += times(c, k, w) * c->cost[k];
    return sum;
}

static uint64_t reach(const struct claims *c, uint64_t w, uint64_t ahead) {
    uint64_t fixed = c->blocking, share = 0;
    for (int k = 0; k < c->n; k++) {
        if (ahead + c->lead[k] <= times(c, k, w) * c->period[k])
            fixed += times(c, k, w) * c->cost[k];
        else
            share += WHOLE * c->cost[k] / c->period[k];
    }
    if (c->room <= fixed) return fixed;
    if (WHOLE <= share) return c->room;
    return (WHOLE * fixed + share) / (WHOLE - share);
}

/* The least solution below room, or room; counts the rounds. */
static uint64_t least(const struct claims *c, int long_steps, uint64_t *rounds) {
    uint64_t w = long_steps ? reach(c, 0, ALL) : 0;
    while (w < c->room) {
        uint64_t next = right_side(c, w), far;
        *rounds += 1;
        if (next <= w) return w;
        if (!long_steps && *rounds >= PLAIN) return c->room;
        far = long_steps ? reach(c, w, w + STEPS * (next - w)) : 0;
        w = next < far ? far : next;
    }
    return c->room;
}

int main(void) {
    static char line[1 << 16];
    while (fgets(line, sizeof line, stdin)) {
        uint64_t v[4 + 4 * STREAMS], plain = 0, rounds = 0, answer[2 * STREAMS];
        int count = 0, streams, late = -1;
        if (strncmp(line, "solve ", 6) != 0) continue;
        for (char *at = strtok(line + 6, " \n"); at && count < 4 + 4 * STREAMS; at = strtok(NULL, " \n"))
            v[count++] = strtoull(at, NULL, 10);
        streams = (count - 4) / 4;
        for (int i = 0; i < streams && late < 0; i++) {
            const uint64_t *s = v + 4 + 4 * i;
            struct claims c;
            c.n = streams + 1;
            c.blocking = 0;
            for (int j = 0; j < streams; j++) {
                const uint64_t *o = v + 4 + 4 * j;
                if (o[0] > s[0] && o[1] > c.blocking) c.blocking = o[1];
                c.cost[j] = o[0] < s[0] ? o[1] : 0;
                c.period[j] = o[2];
                c.lead[j] = 1;
            }
            c.cost[streams] = v[1] * v[3];
            c.period[streams] = v[2];
            c.lead[streams] = s[1];
            c.room = s[1] <= s[3] + 1 ? s[3] + 1 - s[1] : 0;
            least(&c, 0, &plain);
            answer[2 * i] = least(&c, 1, &rounds);
            answer[2 * i + 1] = answer[2 * i] + s[1];
            if (answer[2 * i] >= c.room) late = i;
        }
        printf("%llu %llu|%d %d", (unsigned long long)plain, (unsigned long long)rounds, late < 0 ? 0 : 14, late < 0 ? 0 : late);
        for (uint64_t i = 0; i < v[0]; i++)
            printf(" %llu", late < 0 && i < 2 * (uint64_t)streams ? (unsigned long long)answer[i] : 4294967295ULL);
        printf("\n");
    }
    return 0;
}
