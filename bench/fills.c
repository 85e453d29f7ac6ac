/* A yardstick of bench/core: fills of a full buffer and last writes, by the protocol of core_bench's stripe, in plain C.
 *
 * It is the protocol of paging.c over one region of small pages: an access that misses raises a fault and has services done,
 * each of which reads the page in, or writes the oldest page back, or evicts it. As in the core, a queue is looked at before
 * each service, and each page goes through the scratch page.
 *
 * usage: fills fills FRAMES FILLS     writes the nanoseconds of fills behind clean evictions, and behind dirty ones
 *        fills last PAGES             writes those of the last writes of pages filled in order, and of scattered ones
 */
#include <stdbool.h>
#include <stdint.h>
#include <stdio.h>
#include <stdlib.h>
#include <string.h>
#include <time.h>

enum { PAGE_SIZE = 64, PLACE = 5, MOST_PAGES = 1048576, STRIDE = 1048583 };

/* A page's frame, and its bits. */
struct entry {
    uint32_t frame;
    bool present, protected, dirty;
};

/* A frame's page, and the frames that were filled before it and behind it. */
struct frame {
    uint32_t page, older, newer;
};

struct fault {
    uint32_t page;
    bool stores;
};

static struct entry *table;
static struct frame *frames; /* a ring, closed by one more */
static uint32_t *free_frames;
static uint8_t *bytes, *store, scratch[PAGE_SIZE];
static uint32_t pages, quota, free_count, fault_count;
static struct fault faults[1];

static void *zeros(size_t count, size_t size)
{
    void *block = calloc(count, size);
    if (!block)
        exit(1);
    return block;
}

static void open_buffer(uint32_t page_count, uint32_t frame_count)
{
    pages = page_count;
    quota = frame_count;
    table = zeros(pages, sizeof *table);
    store = zeros(pages, PAGE_SIZE);
    bytes = zeros(quota, PAGE_SIZE);
    frames = zeros((size_t)quota + 1, sizeof *frames);
    frames[quota] = (struct frame){.older = quota, .newer = quota};
    free_frames = zeros(quota, sizeof *free_frames);
    for (free_count = 0; free_count < quota; free_count++)
        free_frames[free_count] = quota - 1 - free_count;
}

static void close_buffer(void)
{
    free(table);
    free(store);
    free(bytes);
    free(frames);
    free(free_frames);
}

static void raise_fault(uint32_t page, bool stores)
{
    for (uint32_t i = 0; i < fault_count; i++)
        if (faults[i].page == page)
            return;
    if (fault_count < 1)
        faults[fault_count++] = (struct fault){page, stores};
}

static void read_in(struct fault fault)
{
    memcpy(scratch, store + (size_t)fault.page * PAGE_SIZE, PAGE_SIZE);
    uint32_t frame = free_frames[--free_count], newest = frames[quota].older;
    memcpy(bytes + (size_t)frame * PAGE_SIZE, scratch, PAGE_SIZE);
    frames[frame] = (struct frame){fault.page, .older = newest, .newer = quota};
    frames[newest].newer = frame;
    frames[quota].older = frame;
    table[fault.page] = (struct entry){frame, true, !fault.stores, fault.stores};
}

static void write_back(uint32_t page)
{
    struct entry *entry = &table[page];
    entry->protected = true;
    memcpy(scratch, bytes + (size_t)entry->frame * PAGE_SIZE, PAGE_SIZE);
    memcpy(store + (size_t)page * PAGE_SIZE, scratch, PAGE_SIZE);
    if (entry->protected)
        entry->dirty = false;
}

static void evict(uint32_t page)
{
    uint32_t frame = table[page].frame, older = frames[frame].older, newer = frames[frame].newer;
    frames[older].newer = newer;
    frames[newer].older = older;
    free_frames[free_count++] = frame;
    table[page].present = false;
}

/* Does one service, and tells whether it served the fault: it opened the page to stores, or read it in. */
static bool serve(void)
{
    struct entry *waiting = &table[faults[fault_count - 1].page];
    if (waiting->present) {
        waiting->protected = false;
        waiting->dirty = true;
        fault_count--;
        return true;
    }
    if (free_count == 0) {
        uint32_t oldest = frames[frames[quota].newer].page;
        if (table[oldest].dirty)
            write_back(oldest);
        else
            evict(oldest);
        return false;
    }
    read_in(faults[--fault_count]);
    return true;
}

static bool try_access(uint32_t page, bool stores, uint8_t *byte)
{
    struct entry entry = table[page];
    if (!entry.present || (stores && entry.protected))
        return false;
    uint8_t *there = bytes + (size_t)entry.frame * PAGE_SIZE + PLACE;
    if (stores)
        *there = *byte;
    else
        *byte = *there;
    return true;
}

static void access_page(uint32_t page, bool stores)
{
    uint8_t byte = (uint8_t)(page % 251 + 1);
    while (!try_access(page, stores, &byte)) {
        raise_fault(page, stores);
        while (!serve())
            ;
    }
    __asm__ volatile("" : : "r"(byte) : "memory");
}

static uint64_t now(void)
{
    struct timespec t;
    clock_gettime(CLOCK_MONOTONIC, &t);
    return (uint64_t)t.tv_sec * 1000000000u + (uint64_t)t.tv_nsec;
}

static void go_round(uint32_t times, bool stores)
{
    for (uint32_t i = 0, page = 0; i < times; i++, page = page == pages - 1 ? 0 : page + 1)
        access_page(page, stores);
}

static uint64_t time_fills(uint32_t fills, bool stores)
{
    go_round(pages, stores);
    uint64_t start = now();
    go_round(fills, stores);
    return now() - start;
}

static uint64_t time_last(uint32_t count, bool scattered)
{
    open_buffer(count, count);
    for (uint32_t i = 0; i < count; i++)
        access_page(scattered ? (uint32_t)((uint64_t)i * STRIDE % count) : i, true);
    uint64_t start = now();
    for (uint32_t page = 0; page < pages; page++)
        if (table[page].dirty)
            write_back(page);
    uint64_t took = now() - start;
    close_buffer();
    return took;
}

int main(int argc, char **argv)
{
    uint32_t count = argc > 2 ? (uint32_t)strtoul(argv[2], NULL, 10) : 0;
    if (count == 0 || count > MOST_PAGES / 2)
        return 2;
    uint64_t first, second;
    if (argc == 4 && strcmp(argv[1], "fills") == 0) {
        uint32_t fills = (uint32_t)strtoul(argv[3], NULL, 10);
        open_buffer(2 * count, count);
        first = time_fills(fills, false);
        second = time_fills(fills, true);
        close_buffer();
    } else if (argc == 3 && strcmp(argv[1], "last") == 0) {
        first = time_last(count, false);
        second = time_last(count, true);
    } else {
        return 2;
    }
    printf("%llu %llu\n", (unsigned long long)first, (unsigned long long)second);
    return 0;
}
