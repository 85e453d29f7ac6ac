/* What paging.c and uffd.c share: frames, and the order in which they were filled, of all pages and of each region's.
 *
 * A page comes in, or leaves, by a fixed number of links, whatever is resident. Frames are numbers here; the programs know
 * where their bytes lie.
 */
#ifndef ORDER_H
#define ORDER_H

#include "workload.h"

enum { PAGE_SIZE = 4096 };

/* The watermarks, in percent of the frames. */
enum { HIGH = 90, LOW = 70 };

struct key {
    uint32_t region, page;
};

/* The frames that were filled before one and behind it. */
struct links {
    uint32_t older, newer;
};

/* A frame's page, and its links among all frames and among those of its region. */
struct frame {
    struct key key;
    struct links all, own;
};

struct order {
    uint32_t quota;       /* how many frames there are */
    struct frame *frames; /* behind them one more for each region: its links close the rings, of all by the first of them */
    uint32_t *free;       /* the numbers of the free frames */
    uint32_t free_count;
};

static struct order new_order(uint32_t quota)
{
    struct order order = {.quota = quota};
    order.frames = zeros((size_t)quota + MOST_REGIONS, sizeof *order.frames);
    order.free = zeros(quota, sizeof *order.free);
    for (uint32_t end = quota; end < quota + MOST_REGIONS; end++)
        order.frames[end].all = order.frames[end].own = (struct links){end, end};
    for (uint32_t frame = quota; frame-- > 0;)
        order.free[order.free_count++] = frame;
    return order;
}

static uint32_t resident(const struct order *order)
{
    return order->quota - order->free_count;
}

/* Takes a free frame for a page, which is the newest from then on. */
static uint32_t take_frame(struct order *order, struct key key)
{
    struct frame *frames = order->frames;
    uint32_t frame = order->free[--order->free_count];
    uint32_t end = order->quota, end_of_region = end + key.region;
    uint32_t newest = frames[end].all.older, newest_of_region = frames[end_of_region].own.older;
    frames[frame] = (struct frame){key, .all = {newest, end}, .own = {newest_of_region, end_of_region}};
    frames[newest].all.newer = frames[end].all.older = frame;
    frames[newest_of_region].own.newer = frames[end_of_region].own.older = frame;
    return frame;
}

static void release_frame(struct order *order, uint32_t frame)
{
    struct frame *frames = order->frames;
    struct links all = frames[frame].all, own = frames[frame].own;
    frames[all.older].all.newer = all.newer;
    frames[all.newer].all.older = all.older;
    frames[own.older].own.newer = own.newer;
    frames[own.newer].own.older = own.older;
    order->free[order->free_count++] = frame;
}

/* The page that came in first. There is one. */
static struct key oldest_page(const struct order *order)
{
    return order->frames[order->frames[order->quota].all.newer].key;
}

/* Finds the page of a region that came in first. False where none of its pages is in. */
static bool oldest_of(const struct order *order, uint32_t region, struct key *key)
{
    uint32_t end = order->quota + region, oldest = order->frames[end].own.newer;
    if (oldest == end)
        return false;
    *key = order->frames[oldest].key;
    return true;
}

#endif
