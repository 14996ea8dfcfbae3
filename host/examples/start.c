/* The shortest way through the pool: join, put, get, tick. After the tick the object is gone, and a get is refused. */
#include <stdio.h>
#include <stdlib.h>
#include "ramsummer_site.h"
#include "ramsummer_text.h"

static ramsummer_site site;

static void check(uint8_t answer) {
    if (answer != RAMSUMMER_DONE) {
        printf("refused with %d: %s\n", answer, ramsummer_text(answer));
        exit(1);
    }
}

int main(void) {
    const char reading[8] = "12.50 m";
    char found[8];
    uint8_t advanced;
    uint8_t answer;
    uint32_t handle;

    ramsummer_site_fresh(&site);
    check(ramsummer_join(&site.pool, 0, RAMSUMMER_OPEN));
    /* 8 bytes, until the next tick of task 0, and none of them for a viewer */
    check(ramsummer_site_put(&site, 0, RAMSUMMER_LOCAL, 0, reading, sizeof reading, 0, &handle));
    check(ramsummer_site_get(&site, 0, handle, found, sizeof found));
    printf("%s\n", found);
    /* the block comes back by itself */
    check(ramsummer_tick(&site.pool, 0, &advanced));
    answer = ramsummer_site_get(&site, 0, handle, found, sizeof found);
    printf("refused with %d: %s\n", answer, ramsummer_text(answer));
    return 0;
}
