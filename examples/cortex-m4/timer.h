/* The period of a tick. */
#ifndef TIMER_H
#define TIMER_H

#include <stdbool.h>

/* From now on periods are counted. */
void timer_start(void);

/* Whether a period is over for which no tick was made yet: each is answered once, also where the loop comes late. */
bool timer_elapsed(void);

#endif
