/* The yardstick of bench/core: loads and stores of resident pages, as a plain C program would make them.
 *
 * It has one array of frames, and a table that gives each page's frame. An access looks its page up, tests that it is there,
 * and copies. The pages and the places are those of core_bench.
 *
 * usage: core spread|together BYTES ROUNDS     writes the nanoseconds of all loads, and of all stores
 */
#include <stdint.h>
#include <stdio.h>
#include <stdlib.h>
#include <string.h>
#include <time.h>

enum { PAGES = 64, PAGE_SIZE = 4096, MOST_ROUNDS = 1000000000 };

struct entry {
    uint32_t frame;
    uint8_t present;
};

static struct entry table[PAGES];
static uint8_t *frames;

static uint8_t *find(uint32_t page, uint32_t place) {
    struct entry found = table[page];
    return found.present ? frames + (size_t)found.frame * PAGE_SIZE + place : NULL;
}

static uint32_t part_of(uint32_t page, uint32_t room) {
    uint32_t place = page % 64 * 64;
    return place < room ? place : room;
}

static uint64_t now(void) {
    struct timespec t;
    clock_gettime(CLOCK_MONOTONIC, &t);
    return (uint64_t)t.tv_sec * 1000000000u + (uint64_t)t.tv_nsec;
}

static uint64_t accesses(uint8_t *buf, size_t bytes, uint32_t room, uint64_t rounds, int stores) {
    uint64_t hits = 0;
    for (uint64_t round = 0; round < rounds; round++) {
        for (uint32_t page = 0; page < PAGES; page++) {
            uint8_t *there = find(page, part_of(page, room));
            if (there == NULL)
                continue;
            if (stores)
                memcpy(there, buf, bytes);
            else
                memcpy(buf, there, bytes);
            __asm__ volatile("" : : "r"(buf), "r"(there) : "memory");
            hits++;
        }
    }
    return hits;
}

int main(int argc, char **argv) {
    if (argc != 4 || (strcmp(argv[1], "spread") != 0 && strcmp(argv[1], "together") != 0))
        return 2;
    size_t bytes = strtoul(argv[2], NULL, 10);
    uint64_t rounds = strtoul(argv[3], NULL, 10);
    if (bytes == 0 || bytes > PAGE_SIZE || rounds == 0 || rounds > MOST_ROUNDS)
        return 2;
    frames = calloc(PAGES, PAGE_SIZE);
    uint8_t *buf = calloc(1, PAGE_SIZE);
    if (frames == NULL || buf == NULL)
        return 1;
    uint32_t room = strcmp(argv[1], "spread") == 0 ? PAGE_SIZE - (uint32_t)bytes : 0;
    for (uint32_t page = 0; page < PAGES; page++)
        table[page] = (struct entry){PAGES - 1 - page, 1};
    uint64_t start = now();
    uint64_t hits = accesses(buf, bytes, room, rounds, 0);
    uint64_t loads = now() - start;
    start = now();
    hits += accesses(buf, bytes, room, rounds, 1);
    uint64_t stores = now() - start;
    if (hits != 2 * rounds * PAGES)
        return 1;
    printf("%llu %llu\n", (unsigned long long)loads, (unsigned long long)stores);
    return 0;
}
