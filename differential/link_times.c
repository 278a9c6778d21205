/* link_times: nanoseconds for the check of a header on its link, in the best of many rounds: ours, and the same rule in plain C, in turns over the
   same headers. Both must yield the same, or it ends with status 1.

       doors/build && cc -O2 -I include -o target/link_times differential/link_times.c target/libkesarimbu.a && target/link_times */
#include <kesarimbu.h>
#include <stdio.h>
#include <time.h>

enum { HEADERS = 4096, LINKS_USED = 24, ROUNDS = 400, TIMES = 20 };

struct links {
    uint8_t seen[KESARIMBU_LINKS], packet_counters[KESARIMBU_LINKS], stop_bits[KESARIMBU_LINKS];
    uint16_t pages_counters[KESARIMBU_LINKS];
    uint32_t orbits[KESARIMBU_LINKS];
};

static struct kesarimbu_header headers[HEADERS];
static struct links kept, kept_in_c;

/* Headers of some links at random, one in four a stop. */
static void make_headers(void)
{
    uint32_t random = 1;
    for (size_t i = 0; i < HEADERS; i++) {
        random = random * 1103515245u + 12345u;
        headers[i].link_id = (uint8_t)((random >> 16) % LINKS_USED);
        headers[i].packet_counter = (uint8_t)(random >> 8);
        headers[i].pages_counter = (uint16_t)(random >> 12);
        headers[i].stop_bit = (random >> 20) % 4 == 0;
        headers[i].orbit = random;
    }
}

static struct kesarimbu_link_check ours(const struct kesarimbu_header *h)
{
    return kesarimbu_check_link(*h, kept.seen, kept.packet_counters, kept.pages_counters, kept.orbits, kept.stop_bits);
}

static struct kesarimbu_link_check in_c(const struct kesarimbu_header *h)
{
    struct links *k = &kept_in_c;
    struct kesarimbu_link_check check = {false, false, false, 0};
    uint8_t link = h->link_id;
    if (k->seen[link]) {
        bool stop = k->stop_bits[link] != 0;
        uint8_t packet = (uint8_t)(k->packet_counters[link] + 1);
        uint16_t page = stop ? 0 : (uint16_t)(k->pages_counters[link] + 1);
        check.packet_counter = h->packet_counter != packet;
        check.pages_counter = h->pages_counter != page;
        check.orbit = !stop && h->orbit != k->orbits[link];
        check.distance = (uint8_t)(h->packet_counter - packet);
    }
    k->seen[link] = 1;
    k->packet_counters[link] = h->packet_counter;
    k->pages_counters[link] = h->pages_counter;
    k->orbits[link] = h->orbit;
    k->stop_bits[link] = h->stop_bit;
    return check;
}

static double nanoseconds(void)
{
    struct timespec now;
    clock_gettime(CLOCK_MONOTONIC, &now);
    return (double)now.tv_sec * 1e9 + (double)now.tv_nsec;
}

/* The time of a check in one round, with what all checks yield put into one number. */
static double round_of(struct kesarimbu_link_check (*check)(const struct kesarimbu_header *), uint64_t *yielded)
{
    double start = nanoseconds();
    for (int n = 0; n < TIMES; n++)
        for (size_t i = 0; i < HEADERS; i++) {
            struct kesarimbu_link_check c = check(&headers[i]);
            *yielded = *yielded * 31 + c.distance * 8u + c.packet_counter * 4u + c.pages_counter * 2u + c.orbit;
        }
    return (nanoseconds() - start) / ((double)TIMES * HEADERS);
}

int main(void)
{
    double best = 1e9, best_in_c = 1e9;
    uint64_t yielded = 0, yielded_in_c = 0;
    make_headers();
    for (int n = 0; n < ROUNDS; n++) {
        double time = round_of(ours, &yielded), time_in_c = round_of(in_c, &yielded_in_c);
        best = time < best ? time : best;
        best_in_c = time_in_c < best_in_c ? time_in_c : best_in_c;
    }
    printf("ours %.1f ns, in C %.1f ns, ratio %.2f\n", best, best_in_c, best / best_in_c);
    return yielded == yielded_in_c ? 0 : 1;
}
