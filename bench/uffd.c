/* The second yardstick of bench/files: the same texts by userfaultfd(2), as a small UMap in plain C.
 *
 * A region is anonymous memory that is registered for missing pages and for write protection. One thread runs the text, by
 * plain copies from and to that memory. Another, the pager, reads the faults:
 *
 * - A missing page is read from the region's file and copied in, protected where a load raised the fault.
 * - A protected page is opened to stores, and is dirty from then on.
 * - Where as many pages are in as the high mark says, the pages that came in first leave down to the low mark: one that is
 *   dirty is protected and written to its file before that.
 *
 * The thread that runs the text flushes and unmaps, as paging.c does it, with the pager held off meanwhile. An unmapped region's
 * memory is given back. At the end each region that is still mapped is unmapped, in order of number. Each file stays open.
 *
 * usage: uffd [FRAMES] < TEXT     (1024 frames where none are said; the kernel may allow userfaultfd to root alone)
 * build: gcc -O2 -pthread -o uffd uffd.c
 */
#define _GNU_SOURCE
#include "order.h"
#include "workload.h"

#include <errno.h>
#include <fcntl.h>
#include <linux/userfaultfd.h>
#include <poll.h>
#include <pthread.h>
#include <sys/eventfd.h>
#include <sys/ioctl.h>
#include <sys/mman.h>
#include <sys/syscall.h>

enum { DEFAULT_FRAMES = 1024 };

enum state { MISSING, CLEAN, DIRTY };

/* A page's state, and its frame where it isn't missing. */
struct page {
    enum state state;
    uint32_t frame;
};

struct region {
    uint8_t *bytes; /* NULL once it is unmapped */
    uint64_t length;
    int file;
    struct page *pages;
};

static struct region regions[MOST_REGIONS];
static uint32_t region_count;
static int faults, ended;

/* The pages that are in. They, and the pages' states, belong to the thread that has the turn. */
static struct order order;
static pthread_mutex_t turn = PTHREAD_MUTEX_INITIALIZER;

static uint8_t *page_at(struct key key)
{
    return regions[key.region].bytes + (size_t)key.page * PAGE_SIZE;
}

static struct page *page_of(struct key key)
{
    return &regions[key.region].pages[key.page];
}

static void protect(struct key key, bool on)
{
    struct uffdio_writeprotect asked = {
        .range = {(uint64_t)page_at(key), PAGE_SIZE},
        .mode = on ? UFFDIO_WRITEPROTECT_MODE_WP : 0,
    };
    while (ioctl(faults, UFFDIO_WRITEPROTECT, &asked))
        if (errno != EAGAIN)
            fail("a page can't be protected");
}

/* Writes a dirty page to its file, which makes it clean. */
static void write_back(struct key key)
{
    off_t place = (off_t)key.page * PAGE_SIZE;
    protect(key, true);
    if (pwrite(regions[key.region].file, page_at(key), PAGE_SIZE, place) != PAGE_SIZE)
        fail("a write failed");
    page_of(key)->state = CLEAN;
}

static void evict(struct key key)
{
    struct page *page = page_of(key);
    if (page->state == DIRTY)
        write_back(key);
    if (madvise(page_at(key), PAGE_SIZE, MADV_DONTNEED))
        fail("a page can't leave");
    release_frame(&order, page->frame);
    page->state = MISSING;
}

static void make_room(void)
{
    if ((uint64_t)resident(&order) * 100 < (uint64_t)order.quota * HIGH)
        return;
    while ((uint64_t)resident(&order) * 100 > (uint64_t)order.quota * LOW)
        evict(oldest_page(&order));
}

static void copy_in(struct key key, uint8_t *bytes, bool stores)
{
    struct uffdio_copy asked = {
        .dst = (uint64_t)page_at(key),
        .src = (uint64_t)bytes,
        .len = PAGE_SIZE,
        .mode = stores ? 0 : UFFDIO_COPY_MODE_WP,
    };
    while (ioctl(faults, UFFDIO_COPY, &asked)) {
        if (errno != EAGAIN)
            fail("a page can't be copied in");
        asked.copy = 0;
    }
}

static void fill(struct key key, bool stores)
{
    static uint8_t bytes[PAGE_SIZE];
    make_room();
    if (pread(regions[key.region].file, bytes, PAGE_SIZE, (off_t)key.page * PAGE_SIZE) != PAGE_SIZE)
        fail("a read failed");
    *page_of(key) = (struct page){stores ? DIRTY : CLEAN, take_frame(&order, key)};
    copy_in(key, bytes, stores);
}

static struct key key_at(const uint8_t *address)
{
    uint32_t region = 0;
    while (address < regions[region].bytes || address >= regions[region].bytes + regions[region].length)
        region++;
    return (struct key){region, (uint32_t)((size_t)(address - regions[region].bytes) / PAGE_SIZE)};
}

static void serve(const struct uffd_msg *message)
{
    struct key key = key_at((const uint8_t *)message->arg.pagefault.address);
    uint64_t flags = message->arg.pagefault.flags;
    if (flags & UFFD_PAGEFAULT_FLAG_WP) {
        page_of(key)->state = DIRTY;
        protect(key, false);
    } else {
        fill(key, flags & UFFD_PAGEFAULT_FLAG_WRITE);
    }
}

static void *pager(void *nothing)
{
    struct pollfd sources[] = {{.fd = faults, .events = POLLIN}, {.fd = ended, .events = POLLIN}};
    for (;;) {
        struct uffd_msg message;
        poll(sources, 2, -1);
        if (sources[1].revents)
            return nothing;
        if (read(faults, &message, sizeof message) != sizeof message || message.event != UFFD_EVENT_PAGEFAULT)
            continue;
        pthread_mutex_lock(&turn);
        serve(&message);
        pthread_mutex_unlock(&turn);
    }
}

/* ---- flushing and unmapping ---- */

static void flush(void)
{
    pthread_mutex_lock(&turn);
    for (struct key key = {0}; key.region < region_count; key.region++)
        for (key.page = 0; key.page < regions[key.region].length / PAGE_SIZE; key.page++)
            if (page_of(key)->state == DIRTY)
                write_back(key);
    pthread_mutex_unlock(&turn);
}

static void unmap(uint32_t region)
{
    struct region *gone = &regions[region];
    struct uffdio_range range = {(uint64_t)gone->bytes, gone->length};
    pthread_mutex_lock(&turn);
    for (struct key key; oldest_of(&order, region, &key);)
        evict(key);
    if (ioctl(faults, UFFDIO_UNREGISTER, &range) || munmap(gone->bytes, gone->length))
        fail("a region can't be unmapped");
    gone->bytes = NULL;
    gone->length = 0;
    pthread_mutex_unlock(&turn);
}

/* ---- opening, and the run ---- */

static void open_faults(uint32_t count)
{
    faults = (int)syscall(SYS_userfaultfd, O_CLOEXEC | O_NONBLOCK);
    struct uffdio_api api = {.api = UFFD_API, .features = UFFD_FEATURE_PAGEFAULT_FLAG_WP};
    if (faults < 0 || ioctl(faults, UFFDIO_API, &api))
        fail("userfaultfd isn't allowed");
    order = new_order(count);
    ended = eventfd(0, EFD_CLOEXEC);
}

static void map_region(const struct line *line)
{
    struct region *region = &regions[line->region];
    char *path = strndup(line->path.bytes, line->path.length);
    if (line->length % PAGE_SIZE != 0)
        fail("a region isn't of whole pages");
    region->length = line->length;
    region->pages = zeros(line->length / PAGE_SIZE, sizeof *region->pages);
    region->file = open(path, O_RDWR | O_CLOEXEC);
    region->bytes = mmap(NULL, line->length, PROT_READ | PROT_WRITE, MAP_PRIVATE | MAP_ANONYMOUS | MAP_NORESERVE, -1, 0);
    if (region->file < 0 || region->bytes == MAP_FAILED)
        fail("a region can't be mapped");
    madvise(region->bytes, line->length, MADV_NOHUGEPAGE);
    struct uffdio_register asked = {
        .range = {(uint64_t)region->bytes, line->length},
        .mode = UFFDIO_REGISTER_MODE_MISSING | UFFDIO_REGISTER_MODE_WP,
    };
    if (ioctl(faults, UFFDIO_REGISTER, &asked))
        fail("a region can't be registered");
    region_count = line->region + 1;
}

static void end(pthread_t thread)
{
    uint64_t one = 1;
    if (write(ended, &one, sizeof one) != sizeof one || pthread_join(thread, NULL))
        fail("the pager doesn't end");
    for (uint32_t region = 0; region < region_count; region++)
        if (regions[region].bytes)
            unmap(region);
}

int main(int argc, char **argv)
{
    static struct text text;
    static struct replies replies;
    static uint8_t bytes[MOST_ACCESS];
    struct line line = {0};
    pthread_t thread;
    open_faults(argc > 1 ? (uint32_t)strtoul(argv[1], NULL, 10) : DEFAULT_FRAMES);
    text = read_text();
    if (pthread_create(&thread, NULL, pager, NULL))
        fail("no thread");
    while (next_line(&text, &line)) {
        if (wants_region(&line) && !regions[line.region].bytes) {
            reply_unmapped(&replies);
            continue;
        }
        switch (line.kind) {
        case MAP:
            map_region(&line);
            break;
        case SCRIPT:
            reply_script(&replies, &line);
            break;
        case LOAD:
            memcpy(bytes, regions[line.region].bytes + line.off, line.length);
            reply_load(&replies, bytes, line.length);
            break;
        case STORE:
            put_stored(bytes, &line);
            memcpy(regions[line.region].bytes + line.off, bytes, line.length);
            reply_ok(&replies);
            break;
        case FLUSH:
            flush();
            reply_ok(&replies);
            break;
        case UNMAP:
            unmap(line.region);
            reply_ok(&replies);
            break;
        }
    }
    end(thread);
    write_replies(&replies);
    return 0;
}
