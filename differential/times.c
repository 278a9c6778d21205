/* times FILE TIMES: nanoseconds for each packet of a recording, in the best and in the middle one of so many runs, of three readers:
   limit   how fast the chain can be followed at all: the recording is in memory, and only the two numbers that lead to the next header
           are read. Where payload is read the next header stands behind the memory size, where it is skipped behind the offset.
   memory  our load over the recording in memory, as one window.
   file    our load over the file, which is opened anew for each run and read through a window of 64 KiB. */
#include <fcntl.h>
#include <stdbool.h>
#include <stdint.h>
#include <stdio.h>
#include <stdlib.h>
#include <time.h>
#include <unistd.h>

/* The crate `bench`. A slice is a pointer and a length. */
uint64_t kesarimbu_load_all(int fd, uint8_t *buffer, size_t length, bool whole, uint32_t *triggers, uint16_t *fee_ids, size_t places,
                            bool skip, bool stats);

enum { HEADER = 64, FARTHEST = 10064, MOST_TIMES = 1000, WINDOW = 65536, TRIGGERS = 20, PLACES = 4096 };
enum reader { LIMIT, MEMORY, FROM_FILE };

struct recording {
    const char *path;
    uint8_t *bytes;
    size_t length;
};

static size_t little_endian(const uint8_t *at)
{
    return at[0] | at[1] << 8;
}

/* The number of headers from the start up to a bad offset, or to where fewer than 64 bytes are left. */
static uint64_t follow(const uint8_t *bytes, size_t length, bool skip)
{
    size_t place = 0;
    uint64_t packets = 0;
    while (place + HEADER <= length) {
        size_t offset = little_endian(bytes + place + 8);
        size_t memory = little_endian(bytes + place + 10);
        if (offset < HEADER || offset > FARTHEST || memory < HEADER)
            break;
        place += skip ? offset : memory;
        packets++;
    }
    return packets;
}

static uint64_t load_file(const char *path, bool skip, bool stats)
{
    static uint8_t window[WINDOW];
    static uint32_t triggers[TRIGGERS];
    static uint16_t fee_ids[PLACES];
    int fd = open(path, O_RDONLY);
    uint64_t packets = fd < 0 ? 0 : kesarimbu_load_all(fd, window, WINDOW, false, triggers, fee_ids, PLACES, skip, stats);
    if (fd >= 0)
        close(fd);
    return packets;
}

static uint64_t read_all(enum reader reader, const struct recording *r, bool skip, bool stats)
{
    static uint32_t triggers[TRIGGERS];
    static uint16_t fee_ids[PLACES];
    if (reader == LIMIT)
        return follow(r->bytes, r->length, skip);
    if (reader == MEMORY)
        return kesarimbu_load_all(-1, r->bytes, r->length, true, triggers, fee_ids, PLACES, skip, stats);
    return load_file(r->path, skip, stats);
}

static int ascending(const void *a, const void *b)
{
    double x = *(const double *)a, y = *(const double *)b;
    return (x > y) - (x < y);
}

static void report(enum reader reader, const struct recording *r, bool skip, bool stats, int times)
{
    static const char *const names[] = {"limit", "memory", "file"};
    static double runs[MOST_TIMES];
    uint64_t packets = 0;
    for (int i = 0; i < times; i++) {
        struct timespec from, to;
        clock_gettime(CLOCK_MONOTONIC, &from);
        packets = read_all(reader, r, skip, stats);
        clock_gettime(CLOCK_MONOTONIC, &to);
        double ns = (to.tv_sec - from.tv_sec) * 1e9 + (to.tv_nsec - from.tv_nsec);
        runs[i] = ns / (packets ? packets : 1);
    }
    qsort(runs, times, sizeof runs[0], ascending);
    printf("%s skip=%d stats=%d packets %llu best %.1f middle %.1f\n", names[reader], skip, stats, (unsigned long long)packets, runs[0],
           runs[times / 2]);
}

static bool in_memory(struct recording *r)
{
    FILE *file = fopen(r->path, "rb");
    if (!file)
        return false;
    fseek(file, 0, SEEK_END);
    r->length = ftell(file);
    rewind(file);
    r->bytes = malloc(r->length ? r->length : 1);
    bool loaded = r->bytes && fread(r->bytes, 1, r->length, file) == r->length;
    fclose(file);
    return loaded;
}

int main(int argc, char **argv)
{
    int times = argc == 3 ? atoi(argv[2]) : 0;
    if (times < 1 || times > MOST_TIMES) {
        fprintf(stderr, "usage: times FILE TIMES   (1 to %d times)\n", MOST_TIMES);
        return 2;
    }
    /* The file first: once the recording is in memory too, reading that copy drives the file out of the processor's caches. */
    struct recording r = {argv[1], NULL, 0};
    for (int skip = 0; skip < 2; skip++)
        for (int stats = 0; stats < 2; stats++)
            report(FROM_FILE, &r, skip, stats, times);
    if (!in_memory(&r)) {
        fprintf(stderr, "times: cannot load %s\n", r.path);
        return 1;
    }
    for (int skip = 0; skip < 2; skip++) {
        report(LIMIT, &r, skip, false, times);
        for (int stats = 0; stats < 2; stats++)
            report(MEMORY, &r, skip, stats, times);
    }
    free(r.bytes);
    return 0;
}
