/* Kesarimbu for C and C++: a proved reader for recordings of ALICE readout crates, which are chains of packets that a 64-byte raw data
   header (RDH) leads.

   Build:  doors/build               makes target/libkesarimbu.a and target/libkesarimbu.so
   Link:   cc -std=c99 -I include program.c target/libkesarimbu.a

   What each function answers and leaves is proved for every value of its arguments: crates/doors_* has the contracts. No function keeps,
   allocates or prints anything, and there is no global state: calls in several threads need nothing but buffers of their own.

   What the caller owes, and no proof covers:
   - A pointer is not NULL, and points to as many elements as the length behind it says, or as its comment says; a length may be 0.
   - No buffer that a call may write overlaps another one of that call, and nobody else writes any of them meanwhile.
   - A bool is 0 or 1, as C's own conversions make it.

   Structs go in and come back by value. What is large is lent, and belongs to the caller before and after the call. All zeros are a
   beginning: of settings (no filter, payload read, no statistics), a state, a validator, and what is lent for lists, trigger counts and the
   check of links.

   An example: count the packets of a file, window by window.

       #include <kesarimbu.h>
       #include <stdio.h>
       #include <string.h>

       int main(int argc, char **argv)
       {
           static uint8_t window[1 << 20], links[KESARIMBU_LINKS], header[KESARIMBU_HEADER_SIZE];
           static uint32_t triggers[KESARIMBU_TRIGGERS];
           static uint16_t fee_ids[4096];
           struct kesarimbu_settings settings = {.stats = true};
           struct kesarimbu_reply reply = {0};
           uint64_t first = 0, packets = 0;
           size_t length = 0;
           FILE *file = argc == 2 ? fopen(argv[1], "rb") : NULL;
           if (!file)
               return 2;
           do {
               reply = kesarimbu_load(settings, reply.state, links, triggers, fee_ids, 4096, window, length, first, feof(file) != 0,
                                      header);
               packets += reply.answer.kind == KESARIMBU_PACKET;
               if (reply.answer.kind == KESARIMBU_WANT) {
                   size_t done = (size_t)(reply.answer.want_place - first);
                   memmove(window, window + done, length - done);
                   length = length - done + fread(window + length - done, 1, sizeof window - (length - done), file);
                   first += done;
               }
           } while (reply.answer.kind != KESARIMBU_REFUSED);
           fclose(file);
           printf("%llu packets, ended with %u\n", (unsigned long long)packets, (unsigned)reply.answer.refusal);
           return reply.answer.refusal == KESARIMBU_END ? 0 : 1;
       }
*/
#ifndef KESARIMBU_H
#define KESARIMBU_H

#include <stdbool.h>
#include <stddef.h>
#include <stdint.h>

#ifdef __cplusplus
extern "C" {
#endif

enum {
    KESARIMBU_HEADER_SIZE = 64, /* bytes of a header */
    KESARIMBU_LINKS = 256,      /* links: bytes of their list, and entries of each array that kesarimbu_check_link is lent */
    KESARIMBU_TRIGGERS = 20,    /* trigger counts, of 32 bits each */
    KESARIMBU_LEAST_ROOM = 1024 /* bytes of the shortest buffer that kesarimbu_list takes */
};

/* Why a call was refused. 0 is no refusal, and there is no 5. A header that is refused with 3 or 4 was seen and is counted, and so is one
   that is refused with 2, unless a load was open. */
enum kesarimbu_refusal {
    KESARIMBU_END = 1,              /* fewer than 64 bytes are left: the end of the recording */
    KESARIMBU_OFFSET = 2,           /* the offset to the next packet is below 64 or above 10,064 */
    KESARIMBU_MEMORY_SIZE = 3,      /* the header would be handed out, and its memory size is below 64 */
    KESARIMBU_FEE_IDS_FULL = 4,     /* the FEE id is new, and the list has no place for it */
    KESARIMBU_UNUSABLE = 6,         /* the state, the lists or the window cannot be worked with: nothing changed */
    KESARIMBU_BUFFER_TOO_SHORT = 7, /* the text needs more bytes than were lent: nothing was written */
    KESARIMBU_NOT_A_STAVE_NAME = 8, /* not a stave name, or the name of a layer above 6 or a stave above 47 */
    KESARIMBU_FEWER_THAN_64 = 9     /* fewer than 64 bytes were lent for a header: nothing was written */
};

/* What a call found. */
enum kesarimbu_kind {
    KESARIMBU_PASSED = 0,  /* an examination: the header does not match the filter */
    KESARIMBU_PACKET = 1,  /* a packet is handed out */
    KESARIMBU_WANT = 2,    /* bytes are lacking: lend a window that has them, or mark it as the last */
    KESARIMBU_REFUSED = 3, /* see `refusal` */
    KESARIMBU_FULL = 4     /* a listing: the buffer may have no room for the next packet's lines */
};

/* A header's fields, in the order of its 64 bytes, with the Rust's names. Three hold two fields: see kesarimbu_parts. */
struct kesarimbu_header {
    uint8_t header_id;
    uint8_t header_size;
    uint16_t fee_id;
    uint8_t priority_bit;
    uint8_t system_id;
    uint16_t rdh0_reserved0;
    uint16_t offset_new_packet;
    uint16_t memory_size;
    uint8_t link_id;
    uint8_t packet_counter;
    uint16_t cruid_dw;
    uint32_t bc_reserved0;
    uint32_t orbit;
    uint64_t dataformat_reserved0;
    uint32_t trigger_type;
    uint16_t pages_counter;
    uint8_t stop_bit;
    uint8_t rdh2_reserved0;
    uint64_t reserved1;
    uint32_t detector_field;
    uint16_t par_bit;
    uint16_t rdh3_reserved0;
    uint64_t reserved2;
};

/* A header, or refusal 9 and zeros. */
struct kesarimbu_decoded {
    struct kesarimbu_header header;
    uint32_t refusal;
};

/* The fields that share a number with others: those of `bc_reserved0`, `cruid_dw` and `dataformat_reserved0`; and whether `trigger_type` has
   the bit of a physics trigger. */
struct kesarimbu_header_parts {
    uint32_t bc_reserved;
    uint16_t bc;
    uint16_t cru_id;
    uint8_t dw;
    uint8_t data_format;
    bool is_pht_trigger;
};

/* A text, written at the start of the lent buffer. `refusal` is 0, and `length` bytes were written; or it is 7, and `length` are needed.
   Bytes behind the text keep their content. */
struct kesarimbu_text {
    size_t length;
    uint32_t refusal;
};

struct kesarimbu_fee_parts {
    uint8_t layer;
    uint8_t stave;
    uint8_t uplink;
};

/* A FEE id, or refusal 8 and 0. */
struct kesarimbu_named {
    uint32_t refusal;
    uint16_t fee_id;
};

/* A validator: the header ID that headers are held to, and whether the system id is tested as that of the ITS. If `configured`, the header
   ID is `id`; else if `settled`, it is `id`, which the first header checked had; else the next header checked settles it. A validator that
   comes back is configured, settled or neither, and `id` is 0 with neither. */
struct kesarimbu_validator {
    bool configured;
    bool settled;
    uint8_t id;
    bool its;
};

/* A verdict: the text's length, as in kesarimbu_text, whether the header is sound, and the validator for the next header. With refusal 7
   that validator means the same as the one that went in. */
struct kesarimbu_checked {
    size_t length;
    uint32_t refusal;
    bool sound;
    struct kesarimbu_validator validator;
};

/* What a header yields behind the last one that was put on its link: a flag for each field that is not as it must be there, and how far the
   packet counter is from the expected one. Any stop bit but 0 is a stop. The first header on a link is taken as it comes: no flag, and
   distance 0.

   Where packets were lost in an orderly run, `distance` is how many of them, modulo 256: the packet counter does not tell of 256 that were
   lost in a row. A distance of 255 may be a packet that came twice. */
struct kesarimbu_link_check {
    bool packet_counter; /* it is not the last one plus 1, with 255 followed by 0 */
    bool pages_counter;  /* it is not the last one plus 1, with 65,535 followed by 0; or, behind a stop, it is not 0 */
    bool orbit;          /* it is not the last one; behind a stop any orbit is right */
    uint8_t distance;    /* the packet counter minus the expected one, modulo 256 */
};

/* The trigger counts, which are lent, are KESARIMBU_TRIGGERS numbers: how many of the headers seen had each bit of a trigger in their
   `trigger_type`, modulo 2^32. No mark tells of a count that starts again at 0. Which count stands at which place:

       bits 0 to 14    0 orbit, 1 hb, 2 hbr, 3 hc, 4 pht, 5 pp, 6 cal, 7 sot, 8 eot, 9 soc, 10 eoc, 11 tf, 12 fe_rst, 13 rt, 14 rs
       bits 27 to 31   15 lhc_gap1, 16 lhc_gap2, 17 tpc_sync, 18 tpc_rst, 19 tof */

/* What a scan is asked for. Of several filters the first of link, FEE id and stave decides; without any, all headers match. A stave is a
   FEE id, of which layer and stave are compared; kesarimbu_set_stave makes it of a name.

   With `skip_payload` and without `stats` a filter only thins out: a scan hands out exactly the packets of the one without a filter that
   match, with the same `own`, and ends alike, if no header has a memory size below 64 (docs/READER.md, C7 and C8). */
struct kesarimbu_settings {
    bool by_link;
    bool by_fee;
    bool by_stave;
    uint8_t link;
    uint16_t fee;
    uint16_t stave;
    bool skip_payload;
    bool stats;
};

/* Settings that filter by the stave that was named, or refusal 8 and the settings as they were. */
struct kesarimbu_stave_set {
    struct kesarimbu_settings settings;
    uint32_t refusal;
};

/* What a scan keeps between two calls, beside the lists and the trigger counts. `place` is where it reads; `position` is what it reports.
   `load_start` is the position from which the open load started, if `load_open`, and else 0 whenever a call leaves it. */
struct kesarimbu_state {
    uint64_t place;
    uint64_t position;
    uint64_t load_start;
    size_t links_used;
    size_t fee_ids_used;
    uint32_t seen;
    uint32_t filtered;
    uint32_t payload;
    bool load_open;
};

/* What a call found. What its kind does not have is 0. */
struct kesarimbu_answer {
    uint64_t position;     /* packet: the position at its load's start; refusal 2: that of the refused header */
    uint64_t own;          /* packet: its own position, where its header stands */
    uint64_t want_place;   /* want: the byte place from which bytes are lacking .. */
    uint64_t want_size;    /* .. and how many there must be from there on */
    size_t payload_start;  /* packet: where in the window its payload is; 0 long if it is skipped or cut */
    size_t payload_length;
    uint32_t kind;         /* enum kesarimbu_kind */
    uint32_t refusal;      /* refused: enum kesarimbu_refusal */
    int32_t distance;      /* refusal 2: the offset minus 64 */
};

/* What is reported of the headers that a call examined. If `initial`, the first was at position 0, and the next three are its fields.
   `seen_carries` is how often the count of seen headers reached 2^32 - 1 and started again; `payload_cut` is E100. */
struct kesarimbu_marks {
    uint64_t seen_carries;
    uint32_t trigger_type;
    uint8_t data_format;
    uint8_t system_id;
    bool initial;
    bool filtered_carry;
    bool payload_carry;
    bool payload_cut;
};

struct kesarimbu_reply {
    struct kesarimbu_answer answer;
    struct kesarimbu_marks marks;
    struct kesarimbu_state state;
};

/* A listing, as far as it went: why it stopped, what to go on with, how many bytes were written, and how many of the packets listed are not
   sound. With refusal 7 `length` is KESARIMBU_LEAST_ROOM, and nothing was done. */
struct kesarimbu_listed {
    struct kesarimbu_answer answer;
    struct kesarimbu_state state;
    struct kesarimbu_validator validator;
    size_t length;
    uint64_t unsound;
};

/* The header in the first 64 of `length` bytes. */
struct kesarimbu_decoded kesarimbu_decode(const uint8_t *bytes, size_t length);

/* Writes a header to the first 64 of `length` bytes. Returns 0, or 9. */
uint32_t kesarimbu_encode(struct kesarimbu_header header, uint8_t *out, size_t length);

/* Whether two headers have the same 64 bytes. */
bool kesarimbu_equal(struct kesarimbu_header header, struct kesarimbu_header other);

struct kesarimbu_header_parts kesarimbu_parts(struct kesarimbu_header header);

/* The row that shows a header in columns: 114 bytes are always enough. */
struct kesarimbu_text kesarimbu_row(struct kesarimbu_header header, uint8_t *out, size_t length);

/* Layer, stave and fibre uplink of a FEE id. */
struct kesarimbu_fee_parts kesarimbu_fee(uint16_t fee_id);

/* The FEE id of a layer and a stave at uplink 0, from the lowest three bits of the one and six of the other: what lies above them is lost,
   and layer 9 becomes layer 1. A name is not folded so. */
uint16_t kesarimbu_fee_id(uint8_t layer, uint8_t stave);

/* Whether two FEE ids have the same layer and stave. */
bool kesarimbu_same_stave(uint16_t fee_id, uint16_t other);

/* The FEE id at uplink 0 of the stave that is named, as L5_42: layers are 0 to 6, staves 0 to 47. */
struct kesarimbu_named kesarimbu_name(const uint8_t *name, size_t length);

/* The settings with the stave that is named for a filter, and all else as it was. A filter by link or FEE id still comes first. */
struct kesarimbu_stave_set kesarimbu_set_stave(struct kesarimbu_settings settings, const uint8_t *name, size_t length);

/* Whether a header is sound, with a text that names what is not: 406 bytes are always enough. */
struct kesarimbu_checked kesarimbu_check(struct kesarimbu_validator validator, struct kesarimbu_header header, uint8_t *text,
                                         size_t length);

/* The list of the trigger counts: 480 bytes are always enough. */
struct kesarimbu_text kesarimbu_trigger_list(const uint32_t *triggers, uint8_t *out, size_t length);

/* A line for each count that differs from that of `expected`, in the order of the places: 1,058 bytes are always enough. */
struct kesarimbu_text kesarimbu_trigger_compare(const uint32_t *triggers, const uint32_t *expected, uint8_t *out, size_t length);

/* Whether a header goes on from the last one that was put on its link; it then is the last one itself. What is kept of the links are five
   arrays of KESARIMBU_LINKS entries, apart from a scan's state. `seen` is 0 where nothing is kept of a link yet, whatever the other four
   have there, and anything else where they have the values of its last header, the stop bit as it was. A call writes 1 there, and changes
   no entry of another link. Whatever the arrays and the header have is answered: there is no refusal.

   Put the headers that a scan hands out, all of them and in their order. Where several senders share a link, a filter by FEE id or stave
   leaves gaps, which are told as lost packets: scan without a filter, or by link. */
struct kesarimbu_link_check kesarimbu_check_link(struct kesarimbu_header header, uint8_t *seen, uint8_t *packet_counters,
                                                 uint16_t *pages_counters, uint32_t *orbits, uint8_t *stop_bits);

/* Examines the header at the state's byte place. `window` holds `length` bytes of the recording from byte place `first` on, and the
   recording ends with it if it is the `last`. `links` are KESARIMBU_LINKS bytes and `fee_ids` are `places` numbers: lists in the order of
   first sight, of which the state says how many are used. `triggers` are KESARIMBU_TRIGGERS numbers, whatever they are: with statistics each
   header that is seen is counted there, whether it matches the filter or not. A want and refusals 1 and 6 leave them as they were. `header`
   are KESARIMBU_HEADER_SIZE bytes: those of a packet's header if one is handed out; else they stay as they were. */
struct kesarimbu_reply kesarimbu_examine(struct kesarimbu_settings settings, struct kesarimbu_state state, uint8_t *links,
                                         uint32_t *triggers, uint16_t *fee_ids, size_t places, const uint8_t *window, size_t length,
                                         uint64_t first, bool last, uint8_t *header);

/* Loads the next packet: examines headers up to the first that is not passed. It is never answered with KESARIMBU_PASSED. */
struct kesarimbu_reply kesarimbu_load(struct kesarimbu_settings settings, struct kesarimbu_state state, uint8_t *links,
                                      uint32_t *triggers, uint16_t *fee_ids, size_t places, const uint8_t *window, size_t length,
                                      uint64_t first, bool last, uint8_t *header);

/* Lists packets: loads one after the other, and writes each packet's row, and its verdict if it is not sound, a line each with the packet's
   own position, at the start of `out`, until a load finds no packet, or `out` might not hold the next lines. A refusal 1 to 4 or 6 adds the
   last lines, with the state's counts. Marks and trigger counts are not told. Call it again with what came back, and with a buffer to fill
   anew, as long as the kind is KESARIMBU_FULL or KESARIMBU_WANT. */
struct kesarimbu_listed kesarimbu_list(struct kesarimbu_settings settings, struct kesarimbu_state state,
                                       struct kesarimbu_validator validator, uint8_t *links, uint32_t *triggers, uint16_t *fee_ids,
                                       size_t places, const uint8_t *window, size_t length, uint64_t first, bool last, uint8_t *out,
                                       size_t room);

#ifdef __cplusplus
}
#endif

#endif
