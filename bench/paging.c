/* A yardstick of bench/serial and of bench/files: the same texts by the paging protocol of `umapsh serial`, in plain C.
 *
 * A region's bytes lie in its store, and the pages in use lie in frames, of which there are few. What a program with
 * userfaultfd(2) leaves to the kernel is done here by code, for one thread. An access looks its page up in a page table.
 * Where the page is missing, or write-protected and the access is a store, it raises a fault, has one service done, and tries
 * again:
 *
 * - A missing page is read from the store into the scratch page, and copied from there into a free frame. It comes in
 *   protected where a load raised the fault, else open to stores and dirty.
 * - A protected page is opened to stores, and is dirty from then on.
 * - Where no frame is free for a missing page, the page that came in first makes room. Where it is clean, it is evicted.
 *   Where it is dirty, it is protected, copied to the scratch page and written to the store, which makes it clean unless a
 *   store has opened it meanwhile; the next service evicts it.
 *
 * Pages go round the stripes, and each stripe has a page table, frames and faults of its own.
 *
 * - A flush writes the dirty pages, stripe by stripe and there in order of region and page. They stay in, clean and protected.
 * - An unmap lets the region's pages leave, stripe by stripe and there in the order in which they came in, and writes each before
 *   where it is dirty. From then on the region's loads, stores and unmaps are answered so.
 * - At the end each region that is still mapped is unmapped, in order of number.
 *
 * A region's store is an array, or a file, which is opened for each page that is read or written, as the program does it.
 *
 * Faults wait in a queue, and pages are protected before they are written, since in the protocol other threads may load and
 * store all the time. Here there is one thread: no more than one fault waits, no store comes between, and no page leaves
 * before a frame is wanted, whatever the watermarks say.
 *
 * usage: paging [STRIPES FRAMES] < TEXT     (4 stripes that share 1024 frames where none are said)
 * build: gcc -O2 -o paging paging.c
 */
#include "order.h"
#include "workload.h"

#include <fcntl.h>

enum { MOST_STRIPES = 64, MOST_FAULTS = 64 };

/* The stripes, and the frames of all of them, where the words say nothing. */
enum { DEFAULT_STRIPES = 4, DEFAULT_FRAMES = 1024 };

/* An entry of a page table: 0 where the page is missing, else its frame's number and these bits. */
typedef uint64_t entry;

static const entry PRESENT = (entry)1 << 32;
static const entry PROTECTED = (entry)1 << 33;
static const entry DIRTY = (entry)1 << 34;

enum why { TO_LOAD, TO_STORE, TO_OPEN };

struct fault {
    struct key key;
    enum why why;
};

struct stripe {
    entry *tables[MOST_REGIONS]; /* by region and page; the entries of other stripes' pages stay 0 */

    struct order order; /* of its frames */
    uint8_t *bytes;     /* one page a frame */

    uint32_t high, low; /* the stripe evicts from so many resident pages on, till so few are left */
    bool evicting;

    struct fault faults[MOST_FAULTS]; /* in the order in which they were raised */
    uint32_t fault_count;
};

struct region {
    uint8_t *store; /* the bytes of a region in memory */
    char *path;     /* the file of any other; NULL where it is in memory */
    uint32_t pages;
    bool unmapped;
};

static struct region regions[MOST_REGIONS];
static uint32_t region_count;
static struct stripe stripes[MOST_STRIPES];
static uint32_t stripe_count;
static uint8_t scratch[PAGE_SIZE];

/* ---- stores and page tables ---- */

static int open_file(const char *path, int mode)
{
    int file = open(path, mode | O_CLOEXEC);
    if (file < 0)
        fail("a file can't be opened");
    return file;
}

static void read_from_store(struct key key)
{
    const struct region *region = &regions[key.region];
    size_t place = (size_t)key.page * PAGE_SIZE;
    if (!region->path) {
        memcpy(scratch, region->store + place, PAGE_SIZE);
        return;
    }
    int file = open_file(region->path, O_RDONLY);
    if (pread(file, scratch, PAGE_SIZE, (off_t)place) != PAGE_SIZE)
        fail("a read failed");
    close(file);
}

static void write_to_store(struct key key)
{
    const struct region *region = &regions[key.region];
    size_t place = (size_t)key.page * PAGE_SIZE;
    if (!region->path) {
        memcpy(region->store + place, scratch, PAGE_SIZE);
        return;
    }
    int file = open_file(region->path, O_WRONLY);
    if (pwrite(file, scratch, PAGE_SIZE, (off_t)place) != PAGE_SIZE)
        fail("a write failed");
    close(file);
}

static entry *entry_of(struct stripe *stripe, struct key key)
{
    return &stripe->tables[key.region][key.page];
}

static uint32_t frame_of(entry page)
{
    return (uint32_t)page;
}

static uint8_t *bytes_of(struct stripe *stripe, uint32_t frame)
{
    return stripe->bytes + (size_t)frame * PAGE_SIZE;
}

/* ---- faults ---- */

/* Lets a page wait, unless it waits already. Where the queue is full, the access raises the fault at its next try. */
static void raise_fault(struct stripe *stripe, struct key key, enum why why)
{
    for (uint32_t i = 0; i < stripe->fault_count; i++)
        if (stripe->faults[i].key.region == key.region && stripe->faults[i].key.page == key.page)
            return;
    if (stripe->fault_count < MOST_FAULTS)
        stripe->faults[stripe->fault_count++] = (struct fault){key, why};
}

static struct fault withdraw_fault(struct stripe *stripe, uint32_t place)
{
    struct fault fault = stripe->faults[place];
    uint32_t behind = --stripe->fault_count - place;
    memmove(&stripe->faults[place], &stripe->faults[place + 1], behind * sizeof fault);
    return fault;
}

/* The place in the queue of the first fault that can be served, or behind the last where all wait for a frame. */
static uint32_t first_servable(const struct stripe *stripe)
{
    uint32_t place = 0;
    while (place < stripe->fault_count && stripe->faults[place].why != TO_OPEN && stripe->order.free_count == 0)
        place++;
    return place;
}

static void read_in(struct stripe *stripe, struct key key, enum why why)
{
    read_from_store(key);
    uint32_t frame = take_frame(&stripe->order, key);
    memcpy(bytes_of(stripe, frame), scratch, PAGE_SIZE);
    *entry_of(stripe, key) = PRESENT | (why == TO_STORE ? DIRTY : PROTECTED) | frame;
    if (resident(&stripe->order) >= stripe->high)
        stripe->evicting = true;
}

/* Opens a page to stores. Where it has left meanwhile, nobody waits for that any more. */
static void open_page(entry *page)
{
    if (*page & PRESENT)
        *page = (*page & ~PROTECTED) | DIRTY;
}

/* Writes a dirty page to its store. It is clean then where no store has opened it since it was protected. */
static void write_back(struct stripe *stripe, struct key key)
{
    entry *page = entry_of(stripe, key);
    *page |= PROTECTED;
    memcpy(scratch, bytes_of(stripe, frame_of(*page)), PAGE_SIZE);
    write_to_store(key);
    if (*page & PROTECTED)
        *page &= ~DIRTY;
}

static void evict(struct stripe *stripe, struct key key)
{
    entry *page = entry_of(stripe, key);
    release_frame(&stripe->order, frame_of(*page));
    *page = 0;
    if (resident(&stripe->order) <= stripe->low)
        stripe->evicting = false;
}

/* Whether pages may leave: from the high mark down to the low one, and where no frame is free. */
static bool is_under_pressure(const struct stripe *stripe)
{
    return stripe->evicting || stripe->order.free_count == 0;
}

/* Writes the oldest page back where it is dirty, else evicts it. */
static void make_room(struct stripe *stripe)
{
    if (!is_under_pressure(stripe))
        fail("no page may leave");
    struct key oldest = oldest_page(&stripe->order);
    if (*entry_of(stripe, oldest) & DIRTY)
        write_back(stripe, oldest);
    else
        evict(stripe, oldest);
}

/* Does one service: serves the first fault that can be, or, where all wait for a frame, takes one step of making room. */
static void serve(struct stripe *stripe)
{
    uint32_t place = first_servable(stripe);
    if (place == stripe->fault_count) {
        make_room(stripe);
        return;
    }
    struct fault fault = withdraw_fault(stripe, place);
    if (fault.why == TO_OPEN)
        open_page(entry_of(stripe, fault.key));
    else
        read_in(stripe, fault.key, fault.why);
}

/* ---- accesses ---- */

static bool try_load(struct stripe *stripe, struct key key, uint32_t place, uint8_t *bytes, size_t length)
{
    entry page = *entry_of(stripe, key);
    if (!(page & PRESENT)) {
        raise_fault(stripe, key, TO_LOAD);
        return false;
    }
    memcpy(bytes, bytes_of(stripe, frame_of(page)) + place, length);
    return true;
}

static bool try_store(struct stripe *stripe, struct key key, uint32_t place, const uint8_t *bytes, size_t length)
{
    entry page = *entry_of(stripe, key);
    if (!(page & PRESENT) || page & PROTECTED) {
        raise_fault(stripe, key, page & PRESENT ? TO_OPEN : TO_STORE);
        return false;
    }
    memcpy(bytes_of(stripe, frame_of(page)) + place, bytes, length);
    return true;
}

/* What is left of a range of a region. */
struct range {
    uint32_t region;
    uint64_t off, length;
};

/* Bytes of one page. */
struct piece {
    struct key key;
    struct stripe *stripe;
    uint32_t place;
    size_t length;
};

/* Takes the first bytes off a range, as many of them as lie in one page. */
static struct piece take_piece(struct range *range)
{
    uint32_t page = (uint32_t)(range->off / PAGE_SIZE), place = range->off % PAGE_SIZE;
    uint64_t rest = PAGE_SIZE - place, length = range->length < rest ? range->length : rest;
    range->off += length;
    range->length -= length;
    return (struct piece){
        .key = {range->region, page},
        .stripe = &stripes[(range->region + page) % stripe_count],
        .place = place,
        .length = length,
    };
}

static void load(struct range range, uint8_t *bytes)
{
    for (struct piece piece; range.length > 0; bytes += piece.length) {
        piece = take_piece(&range);
        while (!try_load(piece.stripe, piece.key, piece.place, bytes, piece.length))
            serve(piece.stripe);
    }
}

static void store(struct range range, const uint8_t *bytes)
{
    for (struct piece piece; range.length > 0; bytes += piece.length) {
        piece = take_piece(&range);
        while (!try_store(piece.stripe, piece.key, piece.place, bytes, piece.length))
            serve(piece.stripe);
    }
}

/* ---- flushing and unmapping; no fault waits between two lines ---- */

static void flush_stripe(struct stripe *stripe)
{
    for (uint32_t region = 0; region < region_count; region++)
        for (uint32_t page = 0; page < regions[region].pages; page++)
            if (stripe->tables[region][page] & DIRTY)
                write_back(stripe, (struct key){region, page});
}

static void flush(void)
{
    for (uint32_t i = 0; i < stripe_count; i++)
        flush_stripe(&stripes[i]);
}

static void empty_region(struct stripe *stripe, uint32_t region)
{
    for (struct key key; oldest_of(&stripe->order, region, &key);) {
        if (*entry_of(stripe, key) & DIRTY)
            write_back(stripe, key);
        evict(stripe, key);
    }
}

static void unmap(uint32_t region)
{
    for (uint32_t i = 0; i < stripe_count; i++)
        empty_region(&stripes[i], region);
    regions[region].unmapped = true;
}

static void unmap_all(void)
{
    for (uint32_t region = 0; region < region_count; region++)
        if (!regions[region].unmapped)
            unmap(region);
}

/* ---- opening, and the run ---- */

static void open_stripe(struct stripe *stripe, uint32_t quota)
{
    stripe->order = new_order(quota);
    stripe->bytes = zeros(quota, PAGE_SIZE);
    stripe->high = (uint32_t)(((uint64_t)quota * HIGH + 99) / 100);
    stripe->low = (uint32_t)((uint64_t)quota * LOW / 100);
}

static void open_stripes(uint32_t count, uint32_t frames)
{
    if (count == 0 || count > MOST_STRIPES || frames < count)
        fail("bad numbers of stripes and frames");
    stripe_count = count;
    for (uint32_t i = 0; i < count; i++)
        open_stripe(&stripes[i], frames / count + (i < frames % count));
}

static void map_region(const struct line *line)
{
    struct region *region = &regions[line->region];
    if (line->length % PAGE_SIZE != 0)
        fail("a region isn't of whole pages");
    region->pages = (uint32_t)(line->length / PAGE_SIZE);
    if (line->path.length > 0)
        region->path = strndup(line->path.bytes, line->path.length);
    else
        region->store = zeros(line->length, 1);
    region_count = line->region + 1;
    for (uint32_t i = 0; i < stripe_count; i++)
        stripes[i].tables[line->region] = zeros(region->pages, sizeof(entry));
}

int main(int argc, char **argv)
{
    static struct text text;
    static struct replies replies;
    static uint8_t bytes[MOST_ACCESS];
    struct line line = {0};
    if (argc == 1)
        open_stripes(DEFAULT_STRIPES, DEFAULT_FRAMES);
    else if (argc == 3)
        open_stripes((uint32_t)strtoul(argv[1], NULL, 10), (uint32_t)strtoul(argv[2], NULL, 10));
    else
        fail("usage: paging [STRIPES FRAMES] < TEXT");
    text = read_text();
    while (next_line(&text, &line)) {
        if (wants_region(&line) && regions[line.region].unmapped) {
            reply_unmapped(&replies);
            continue;
        }
        switch (line.kind) {
        case MAP:
            map_region(&line);
            break;
        case SCRIPT:
            reply_script(&replies, &line);
            break;
        case LOAD:
            load((struct range){line.region, line.off, line.length}, bytes);
            reply_load(&replies, bytes, line.length);
            break;
        case STORE:
            put_stored(bytes, &line);
            store((struct range){line.region, line.off, line.length}, bytes);
            reply_ok(&replies);
            break;
        case FLUSH:
            flush();
            reply_ok(&replies);
            break;
        case UNMAP:
            unmap(line.region);
            reply_ok(&replies);
            break;
        }
    }
    unmap_all();
    write_replies(&replies);
    return 0;
}
