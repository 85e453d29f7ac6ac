/* The first yardstick of bench/serial: the same texts over flat memory, as a plain C program would run them.
 *
 * It runs the loads and stores of a workload text on one array for each region, and has no pages, buffer or stripes. A flush
 * has nothing to write, and an unmap frees the array.
 *
 * usage: flat < TEXT
 * build: gcc -O2 -o flat flat.c
 */
#include "workload.h"

static uint8_t *regions[MOST_REGIONS];

int main(void)
{
    static struct text text;
    static struct replies replies;
    struct line line = {0};
    text = read_text();
    while (next_line(&text, &line)) {
        if (wants_region(&line) && !regions[line.region]) {
            reply_unmapped(&replies);
            continue;
        }
        switch (line.kind) {
        case MAP:
            if (line.path.length > 0)
                fail("a region isn't in memory");
            regions[line.region] = zeros(line.length, 1);
            break;
        case SCRIPT:
            reply_script(&replies, &line);
            break;
        case LOAD:
            reply_load(&replies, regions[line.region] + line.off, line.length);
            break;
        case STORE:
            put_stored(regions[line.region] + line.off, &line);
            reply_ok(&replies);
            break;
        case FLUSH:
            reply_ok(&replies);
            break;
        case UNMAP:
            free(regions[line.region]);
            regions[line.region] = NULL;
            reply_ok(&replies);
            break;
        }
    }
    write_replies(&replies);
    return 0;
}
