/* Calls every door from C, and prints how many answers were right; `test layout` prints where each field of each struct stands, which the
   Python tests hold against Rattle's structs and their own. Expected values are by hand, from the rules. */
#include <kesarimbu.h>
#include <stdio.h>
#include <string.h>

enum { SEVENTY_TWO = 72, PLACES = 4, TEXT = 2048 };

static int passed, failed;

static void check(bool is_right, int line)
{
    passed += is_right;
    failed += !is_right;
    if (!is_right)
        printf("doors/test.c:%d: not as expected\n", line);
}
#define CHECK(condition) check(condition, __LINE__)

/* A sound header of layer 5, stave 42 and link 2, with these sizes. */
static struct kesarimbu_header sound(uint16_t offset, uint16_t memory)
{
    struct kesarimbu_header h = {0};
    h.header_id = 7;
    h.header_size = 64;
    h.fee_id = 0x502A;
    h.system_id = 32;
    h.offset_new_packet = offset;
    h.memory_size = memory;
    h.link_id = 2;
    h.cruid_dw = 1;
    h.dataformat_reserved0 = 2;
    h.trigger_type = 0x4813;
    return h;
}

static bool starts_with(const uint8_t *text, size_t length, const char *expected)
{
    return length == strlen(expected) && memcmp(text, expected, length) == 0;
}

/* Byte n of the 64 is n, so that every field has a number of its own. */
static void header_and_bytes(void)
{
    uint8_t bytes[KESARIMBU_HEADER_SIZE + 1], back[KESARIMBU_HEADER_SIZE + 1];
    for (size_t i = 0; i < sizeof bytes; i++)
        bytes[i] = (uint8_t)i;
    struct kesarimbu_decoded d = kesarimbu_decode(bytes, sizeof bytes);
    CHECK(d.refusal == 0);
    CHECK(d.header.header_id == 0 && d.header.header_size == 1 && d.header.fee_id == 0x0302 && d.header.priority_bit == 4);
    CHECK(d.header.system_id == 5 && d.header.rdh0_reserved0 == 0x0706);
    CHECK(d.header.offset_new_packet == 0x0908 && d.header.memory_size == 0x0B0A && d.header.link_id == 12);
    CHECK(d.header.packet_counter == 13 && d.header.cruid_dw == 0x0F0E);
    CHECK(d.header.bc_reserved0 == 0x13121110 && d.header.orbit == 0x17161514);
    CHECK(d.header.dataformat_reserved0 == 0x1F1E1D1C1B1A1918);
    CHECK(d.header.trigger_type == 0x23222120 && d.header.pages_counter == 0x2524 && d.header.stop_bit == 38);
    CHECK(d.header.rdh2_reserved0 == 39 && d.header.reserved1 == 0x2F2E2D2C2B2A2928);
    CHECK(d.header.detector_field == 0x33323130 && d.header.par_bit == 0x3534 && d.header.rdh3_reserved0 == 0x3736);
    CHECK(d.header.reserved2 == 0x3F3E3D3C3B3A3938);

    memset(back, 0xAA, sizeof back);
    CHECK(kesarimbu_encode(d.header, back, sizeof back) == 0);
    CHECK(memcmp(back, bytes, KESARIMBU_HEADER_SIZE) == 0 && back[KESARIMBU_HEADER_SIZE] == 0xAA);
    memset(back, 0xAA, sizeof back);
    CHECK(kesarimbu_encode(d.header, back, KESARIMBU_HEADER_SIZE - 1) == KESARIMBU_FEWER_THAN_64 && back[0] == 0xAA);

    struct kesarimbu_decoded none = {0};
    none.refusal = KESARIMBU_FEWER_THAN_64;
    d = kesarimbu_decode(bytes, KESARIMBU_HEADER_SIZE - 1);
    CHECK(d.refusal == none.refusal && kesarimbu_equal(d.header, none.header));
}

static void parts_and_equality(void)
{
    struct kesarimbu_header h = sound(64, 64), other = h;
    CHECK(kesarimbu_equal(h, other));
    other.reserved2 = 1;
    CHECK(!kesarimbu_equal(h, other));
    h.cruid_dw = 0x2ABC;
    h.bc_reserved0 = 0x12345DEB;
    h.dataformat_reserved0 = 0x0102030405060708;
    struct kesarimbu_header_parts p = kesarimbu_parts(h);
    CHECK(p.cru_id == 0xABC && p.dw == 2 && p.bc == 0xDEB && p.bc_reserved == 0x12345 && p.data_format == 8);
    CHECK(p.is_pht_trigger); /* 0x4813 has bit 4 */
    h.trigger_type = 0xFFFFFFEF;
    CHECK(!kesarimbu_parts(h).is_pht_trigger);
}

static void rows(void)
{
    static const char row[] = "7     64     20522  32    64      2     0         0    0x10        2          0x4813    0        0      0x0";
    struct kesarimbu_header h = sound(64, 64);
    uint8_t out[TEXT];
    h.orbit = 16;
    memset(out, '~', sizeof out);
    struct kesarimbu_text t = kesarimbu_row(h, out, sizeof out);
    CHECK(t.refusal == 0 && starts_with(out, t.length, row) && out[t.length] == '~');
    memset(out, '~', sizeof out);
    t = kesarimbu_row(h, out, 3);
    CHECK(t.refusal == KESARIMBU_BUFFER_TOO_SHORT && t.length == strlen(row) && out[0] == '~');
}

static struct kesarimbu_named named(const char *name)
{
    return kesarimbu_name((const uint8_t *)name, strlen(name));
}

static void staves(void)
{
    struct kesarimbu_fee_parts p = kesarimbu_fee(0x522A);
    CHECK(p.layer == 5 && p.stave == 42 && p.uplink == 2);
    CHECK(kesarimbu_fee_id(5, 42) == 0x502A && kesarimbu_fee_id(9, 70) == 0x1006);
    CHECK(kesarimbu_same_stave(0x502A, 0x522A) && !kesarimbu_same_stave(0x502A, 0x502B));
    CHECK(named("L5_42").refusal == 0 && named("L5_42").fee_id == 0x502A);
    CHECK(named("L6_47").refusal == 0 && named("L6_47").fee_id == 0x602F);
    CHECK(named("L9_70").refusal == KESARIMBU_NOT_A_STAVE_NAME && named("L9_70").fee_id == 0);
    CHECK(named("L5").refusal == KESARIMBU_NOT_A_STAVE_NAME && named("L5").fee_id == 0);
    CHECK(named("").refusal == KESARIMBU_NOT_A_STAVE_NAME);
}

static void filters_by_name(void)
{
    struct kesarimbu_settings before = {.by_link = true, .link = 2, .fee = 7, .stave = 9, .stats = true};
    struct kesarimbu_stave_set s = kesarimbu_set_stave(before, (const uint8_t *)"L5_42", 5);
    CHECK(s.refusal == 0 && s.settings.by_stave && s.settings.stave == 0x502A);
    CHECK(s.settings.by_link && s.settings.link == 2 && !s.settings.by_fee && s.settings.fee == 7);
    CHECK(!s.settings.skip_payload && s.settings.stats);
    s = kesarimbu_set_stave(before, (const uint8_t *)"L7_0", 4);
    CHECK(s.refusal == KESARIMBU_NOT_A_STAVE_NAME && !s.settings.by_stave && s.settings.stave == 9);
    CHECK(s.settings.by_link && s.settings.link == 2 && !s.settings.by_fee && s.settings.fee == 7);
}

static void verdicts(void)
{
    struct kesarimbu_validator v = {0};
    struct kesarimbu_header h = sound(64, 64);
    uint8_t text[TEXT];
    memset(text, '~', sizeof text);
    h.header_size = 63;
    struct kesarimbu_checked c = kesarimbu_check(v, h, text, 3);
    CHECK(c.refusal == KESARIMBU_BUFFER_TOO_SHORT && !c.sound && text[0] == '~' && !c.validator.settled);
    size_t needed = c.length;
    c = kesarimbu_check(v, h, text, needed);
    CHECK(c.refusal == 0 && !c.sound && c.length == needed && text[needed] == '~');
    CHECK(starts_with(text, c.length, "[E10] RDH sanity check failed: RDH0: Header size = 0x3f "));
    CHECK(c.validator.settled && !c.validator.configured && c.validator.id == 7 && !c.validator.its);
    h = sound(64, 64);
    c = kesarimbu_check(c.validator, h, text, 0);
    CHECK(c.refusal == 0 && c.sound && c.length == 0);
    h.header_id = 6;
    c = kesarimbu_check(c.validator, h, text, sizeof text);
    CHECK(!c.sound && c.validator.id == 7);
    v.configured = true;
    v.id = 6;
    c = kesarimbu_check(v, h, text, sizeof text);
    CHECK(c.sound && c.validator.configured && c.validator.id == 6 && !c.validator.settled);
    v.its = true;
    h.system_id = 33;
    c = kesarimbu_check(v, h, text, sizeof text);
    CHECK(!c.sound && c.validator.its);
}

static void trigger_texts(void)
{
    static const uint32_t counts[KESARIMBU_TRIGGERS] = {2, 1, [4] = 1, [11] = 1, [14] = 1, [19] = 1};
    static const uint32_t other[KESARIMBU_TRIGGERS] = {0, 3, [4] = 1, [11] = 1, [14] = 1};
    static const char lines[] = "orbit mismatch! expected: 0, got: 2\n"
                                "hb mismatch! expected: 3, got: 1\n"
                                "tof mismatch! expected: 0, got: 1\n";
    uint8_t out[TEXT];
    struct kesarimbu_text t = kesarimbu_trigger_list(counts, out, sizeof out);
    CHECK(t.refusal == 0 && memcmp(out, "Trigger statistics:\n  Orbit:         2\n  HB:            1\n", 58) == 0);
    CHECK(t.length == 400 && memcmp(out + 381, "  TOF:           1\n", 19) == 0);
    CHECK(kesarimbu_trigger_list(counts, out, 3).refusal == KESARIMBU_BUFFER_TOO_SHORT);
    t = kesarimbu_trigger_compare(counts, other, out, sizeof out);
    CHECK(t.refusal == 0 && starts_with(out, t.length, lines));
    CHECK(kesarimbu_trigger_compare(counts, counts, out, 0).length == 0);
    CHECK(kesarimbu_trigger_compare(counts, other, out, 3).length == strlen(lines));
}

/* A recording of three packets of 72, 64 and 72 bytes, from links 2, 3 and 2. */
struct recording {
    uint8_t bytes[2 * SEVENTY_TWO + KESARIMBU_HEADER_SIZE];
};

static struct recording recorded(void)
{
    struct recording r;
    struct kesarimbu_header second = sound(64, 64);
    second.link_id = 3;
    second.fee_id = 0x1001;
    memset(r.bytes, 0xEE, sizeof r.bytes);
    kesarimbu_encode(sound(SEVENTY_TWO, SEVENTY_TWO), r.bytes, sizeof r.bytes);
    kesarimbu_encode(second, r.bytes + SEVENTY_TWO, KESARIMBU_HEADER_SIZE);
    kesarimbu_encode(sound(SEVENTY_TWO, SEVENTY_TWO), r.bytes + SEVENTY_TWO + KESARIMBU_HEADER_SIZE, KESARIMBU_HEADER_SIZE);
    return r;
}

/* What a scan is lent. */
struct lent {
    uint8_t links[KESARIMBU_LINKS];
    uint32_t triggers[KESARIMBU_TRIGGERS];
    uint16_t fee_ids[PLACES];
    uint8_t header[KESARIMBU_HEADER_SIZE];
};

static void examinations(void)
{
    struct recording r = recorded();
    struct lent lent = {{0}, {0}, {0}, {0}};
    struct kesarimbu_settings by_link = {.by_link = true, .link = 3, .stats = true};
    struct kesarimbu_state begin = {0};
    struct kesarimbu_reply e = kesarimbu_examine(by_link, begin, lent.links, lent.triggers, lent.fee_ids, PLACES, r.bytes, 63, 0, false,
                                                 lent.header);
    CHECK(e.answer.kind == KESARIMBU_WANT && e.answer.want_place == 0 && e.answer.want_size == 64 && e.state.seen == 0);
    e = kesarimbu_examine(by_link, e.state, lent.links, lent.triggers, lent.fee_ids, PLACES, r.bytes, 64, 0, false, lent.header);
    CHECK(e.answer.kind == KESARIMBU_PASSED && lent.header[0] == 0 && e.state.load_open && e.state.load_start == 0);
    CHECK(e.marks.initial && e.marks.trigger_type == 0x4813 && e.marks.data_format == 2 && e.marks.system_id == 32);
    CHECK(e.state.place == SEVENTY_TWO && e.state.position == SEVENTY_TWO && e.state.seen == 1 && e.state.filtered == 0);
    e = kesarimbu_examine(by_link, e.state, lent.links, lent.triggers, lent.fee_ids, PLACES, r.bytes + 1, sizeof r.bytes - 1, 1, true,
                          lent.header);
    CHECK(e.answer.kind == KESARIMBU_PACKET && e.answer.position == 0 && e.answer.own == SEVENTY_TWO);
    CHECK(e.answer.payload_length == 0 && !e.marks.initial);
    CHECK(memcmp(lent.header, r.bytes + SEVENTY_TWO, sizeof lent.header) == 0 && !e.state.load_open);
    CHECK(e.state.links_used == 2 && lent.links[0] == 2 && lent.links[1] == 3);
    CHECK(e.state.fee_ids_used == 2 && lent.fee_ids[0] == 0x502A && lent.fee_ids[1] == 0x1001 && lent.fee_ids[2] == 0);
    e = kesarimbu_examine(by_link, e.state, lent.links, lent.triggers, lent.fee_ids, 1, r.bytes, sizeof r.bytes, 0, true, lent.header);
    CHECK(e.answer.kind == KESARIMBU_REFUSED && e.answer.refusal == KESARIMBU_UNUSABLE && e.state.seen == 2);
}

static void loads(void)
{
    struct recording r = recorded();
    struct lent lent = {{0}, {0}, {0}, {0}};
    struct kesarimbu_settings settings = {.by_stave = true, .stave = 0x522A, .stats = true};
    struct kesarimbu_reply l = {0};
    l = kesarimbu_load(settings, l.state, lent.links, lent.triggers, lent.fee_ids, PLACES, r.bytes, sizeof r.bytes - 1, 0, true, lent.header);
    CHECK(l.answer.kind == KESARIMBU_PACKET && l.answer.payload_start == 64 && l.answer.payload_length == 8);
    CHECK(l.answer.position == 0 && l.answer.own == 0);
    l = kesarimbu_load(settings, l.state, lent.links, lent.triggers, lent.fee_ids, PLACES, r.bytes, sizeof r.bytes - 1, 0, true, lent.header);
    CHECK(l.answer.kind == KESARIMBU_PACKET && l.answer.payload_length == 0 && l.marks.payload_cut);
    CHECK(l.answer.position == SEVENTY_TWO && l.answer.own == SEVENTY_TWO + KESARIMBU_HEADER_SIZE);
    CHECK(l.state.seen == 3 && l.state.filtered == 2 && l.state.payload == 16);
    l = kesarimbu_load(settings, l.state, lent.links, lent.triggers, lent.fee_ids, PLACES, r.bytes, sizeof r.bytes - 1, 0, true, lent.header);
    CHECK(l.answer.kind == KESARIMBU_REFUSED && l.answer.refusal == KESARIMBU_END);
    struct kesarimbu_state begin = {0};
    r.bytes[8] = 63;
    l = kesarimbu_load(settings, begin, lent.links, lent.triggers, lent.fee_ids, PLACES, r.bytes, sizeof r.bytes, 0, true, lent.header);
    CHECK(l.answer.kind == KESARIMBU_REFUSED && l.answer.refusal == KESARIMBU_OFFSET && l.answer.distance == -1);
}

static void listings(void)
{
    static const char last[] = "seen 3\nfiltered 0\npayload 16\nend 1\n";
    struct recording r = recorded();
    struct lent lent = {{0}, {0}, {0}, {0}};
    struct kesarimbu_settings settings = {.stats = true};
    struct kesarimbu_listed l = {0};
    uint8_t out[TEXT];
    r.bytes[1] = 63;
    l = kesarimbu_list(settings, l.state, l.validator, lent.links, lent.triggers, lent.fee_ids, PLACES, r.bytes, sizeof r.bytes, 0, true,
                       out, 1023);
    CHECK(l.answer.kind == KESARIMBU_REFUSED && l.answer.refusal == KESARIMBU_BUFFER_TOO_SHORT && l.length == KESARIMBU_LEAST_ROOM);
    CHECK(l.state.seen == 0 && !l.validator.settled && lent.triggers[4] == 0);
    l = kesarimbu_list(settings, l.state, l.validator, lent.links, lent.triggers, lent.fee_ids, PLACES, r.bytes, 100, 0, false, out, 1024);
    CHECK(l.answer.kind == KESARIMBU_FULL && l.unsound == 1 && memcmp(out, "0x0: 7 ", 7) == 0 && l.validator.settled);
    CHECK(lent.triggers[4] == 1);
    l = kesarimbu_list(settings, l.state, l.validator, lent.links, lent.triggers, lent.fee_ids, PLACES, r.bytes, 100, 0, false, out,
                       sizeof out);
    CHECK(l.answer.kind == KESARIMBU_WANT && l.answer.want_place == SEVENTY_TWO && l.answer.want_size == 64 && l.length == 0);
    CHECK(lent.triggers[4] == 1);
    l = kesarimbu_list(settings, l.state, l.validator, lent.links, lent.triggers, lent.fee_ids, PLACES, r.bytes, sizeof r.bytes, 0, true,
                       out, sizeof out);
    CHECK(l.answer.kind == KESARIMBU_REFUSED && l.answer.refusal == KESARIMBU_END && l.unsound == 0 && l.state.seen == 3);
    CHECK(memcmp(out, "0x48: 7 ", 8) == 0 && memcmp(out + l.length - strlen(last), last, strlen(last)) == 0);
    CHECK(lent.triggers[4] == 3 && lent.triggers[5] == 0);
}

/* With a filter a line has the packet's own position, and not that of the header which was passed before it. */
static void filtered_listings(void)
{
    struct recording r = recorded();
    struct lent lent = {{0}, {0}, {0}, {0}};
    struct kesarimbu_settings by_link = {.by_link = true, .link = 3, .stats = true};
    struct kesarimbu_listed l = {0};
    uint8_t out[TEXT];
    l = kesarimbu_list(by_link, l.state, l.validator, lent.links, lent.triggers, lent.fee_ids, PLACES, r.bytes, sizeof r.bytes, 0, true,
                       out, sizeof out);
    CHECK(l.answer.refusal == KESARIMBU_END && l.state.filtered == 1 && memcmp(out, "0x48: 7 ", 8) == 0);
}

/* What is lent, with all trigger counts at `n`. */
static struct lent lent_with(uint32_t n)
{
    struct lent lent = {{0}, {0}, {0}, {0}};
    for (size_t i = 0; i < KESARIMBU_TRIGGERS; i++)
        lent.triggers[i] = n;
    return lent;
}

/* Whether all counts were `n` and this word was counted: each is one more that has its bit, modulo 2^32. */
static bool counted(const struct lent *lent, uint32_t n, uint32_t word)
{
    static const uint32_t bits[KESARIMBU_TRIGGERS] = {0, 1, 2, 3, 4, 5, 6, 7, 8, 9, 10, 11, 12, 13, 14, 27, 28, 29, 30, 31};
    for (size_t i = 0; i < KESARIMBU_TRIGGERS; i++)
        if (lent->triggers[i] != n + (word >> bits[i] & 1))
            return false;
    return true;
}

/* Examines the first `length` bytes of a header, which stands where the state is. */
static struct kesarimbu_reply examined(struct kesarimbu_settings settings, struct kesarimbu_state state, struct lent *lent,
                                       struct kesarimbu_header header, size_t length, bool last)
{
    uint8_t bytes[KESARIMBU_HEADER_SIZE];
    kesarimbu_encode(header, bytes, sizeof bytes);
    return kesarimbu_examine(settings, state, lent->links, lent->triggers, lent->fee_ids, PLACES, bytes, length, state.place, last,
                             lent->header);
}

static void trigger_bits(void)
{
    struct kesarimbu_settings settings = {.stats = true};
    struct kesarimbu_state begin = {0};
    struct kesarimbu_header h = sound(64, 64);
    for (uint32_t bit = 0; bit < 32; bit++) {
        struct lent lent = lent_with(0);
        h.trigger_type = (uint32_t)1 << bit;
        struct kesarimbu_reply e = examined(settings, begin, &lent, h, 64, true);
        CHECK(e.answer.kind == KESARIMBU_PACKET && counted(&lent, 0, h.trigger_type));
    }
    struct lent lent = lent_with(0);
    h.trigger_type = 0x88004001;
    examined(settings, begin, &lent, h, 64, true);
    CHECK(lent.triggers[0] == 1 && lent.triggers[14] == 1 && lent.triggers[15] == 1 && lent.triggers[19] == 1 && lent.triggers[13] == 0);
}

/* Counts may be any numbers: one that steps over 2^32 - 1 starts again at 0, with no mark, and none stops at 2^32 - 1. */
static void trigger_counts_at_their_end(void)
{
    struct kesarimbu_settings settings = {.stats = true};
    struct kesarimbu_state begin = {0};
    struct kesarimbu_header h = sound(64, 64);
    h.trigger_type = 0xFFFFFFFF;
    for (uint32_t n = 0xFFFFFFFD; n != 1; n++) {
        struct lent lent = lent_with(n);
        struct kesarimbu_reply e = examined(settings, begin, &lent, h, 64, true);
        CHECK(e.answer.kind == KESARIMBU_PACKET && counted(&lent, n, h.trigger_type) && lent.triggers[7] == (n == 0xFFFFFFFF ? 0 : n + 1));
        CHECK(e.marks.seen_carries == 0 && !e.marks.filtered_carry && !e.marks.payload_carry && e.state.seen == 1);
    }
}

/* A header that is seen is counted, whatever becomes of it. */
static void headers_counted(void)
{
    struct kesarimbu_settings settings = {.stats = true}, by_link = {.by_link = true, .link = 3, .stats = true};
    struct kesarimbu_state begin = {0}, full = {.fee_ids_used = PLACES};
    struct lent lent = lent_with(5);
    struct kesarimbu_reply e = examined(by_link, begin, &lent, sound(64, 64), 64, true);
    CHECK(e.answer.kind == KESARIMBU_PASSED && counted(&lent, 5, 0x4813));
    lent = lent_with(5);
    e = examined(settings, begin, &lent, sound(63, 64), 64, true);
    CHECK(e.answer.refusal == KESARIMBU_OFFSET && e.state.seen == 1 && counted(&lent, 5, 0x4813));
    lent = lent_with(5);
    e = examined(settings, begin, &lent, sound(64, 63), 64, true);
    CHECK(e.answer.refusal == KESARIMBU_MEMORY_SIZE && e.state.seen == 1 && counted(&lent, 5, 0x4813));
    lent = lent_with(5);
    e = examined(settings, full, &lent, sound(64, 64), 64, true);
    CHECK(e.answer.refusal == KESARIMBU_FEE_IDS_FULL && e.state.seen == 1 && counted(&lent, 5, 0x4813));
    lent = lent_with(5);
    e = examined(settings, begin, &lent, sound(72, 72), 64, true);
    CHECK(e.answer.kind == KESARIMBU_PACKET && e.marks.payload_cut && counted(&lent, 5, 0x4813));
}

/* A header that is not seen is not counted: a later one with a bad offset, one that is wanted or lacks, and any where the call is refused
   with 6 or has no statistics. */
static void headers_not_counted(void)
{
    struct kesarimbu_settings settings = {.stats = true}, by_link = {.by_link = true, .link = 3, .stats = true}, no_stats = {0};
    struct kesarimbu_state begin = {0}, unusable = {.seen = 0xFFFFFFFF};
    struct lent lent = lent_with(5);
    struct kesarimbu_reply e = examined(by_link, begin, &lent, sound(64, 64), 64, true);
    e = examined(by_link, e.state, &lent, sound(63, 64), 64, true);
    CHECK(e.answer.refusal == KESARIMBU_OFFSET && e.state.seen == 1 && counted(&lent, 5, 0x4813)); /* that of the first */
    lent = lent_with(5);
    e = examined(settings, begin, &lent, sound(64, 64), 63, false);
    CHECK(e.answer.kind == KESARIMBU_WANT && e.answer.want_size == 64 && counted(&lent, 5, 0));
    e = examined(settings, begin, &lent, sound(72, 72), 64, false);
    CHECK(e.answer.kind == KESARIMBU_WANT && e.answer.want_size == 72 && counted(&lent, 5, 0));
    e = examined(settings, begin, &lent, sound(64, 64), 63, true);
    CHECK(e.answer.refusal == KESARIMBU_END && counted(&lent, 5, 0));
    e = examined(settings, unusable, &lent, sound(64, 64), 64, true);
    CHECK(e.answer.refusal == KESARIMBU_UNUSABLE && counted(&lent, 5, 0));
    e = examined(no_stats, begin, &lent, sound(64, 64), 64, true);
    CHECK(e.answer.kind == KESARIMBU_PACKET && counted(&lent, 5, 0));
}

/* A load that passed a header and then wants more has counted that header, and the next call does not count it again. */
static void passed_headers_before_a_want(void)
{
    struct recording r = recorded();
    struct lent lent = lent_with(5);
    struct kesarimbu_settings by_link = {.by_link = true, .link = 3, .stats = true};
    struct kesarimbu_reply l = {0};
    l = kesarimbu_load(by_link, l.state, lent.links, lent.triggers, lent.fee_ids, PLACES, r.bytes, 100, 0, false, lent.header);
    CHECK(l.answer.kind == KESARIMBU_WANT && l.answer.want_place == SEVENTY_TWO && l.state.seen == 1 && counted(&lent, 5, 0x4813));
    l = kesarimbu_load(by_link, l.state, lent.links, lent.triggers, lent.fee_ids, PLACES, r.bytes, sizeof r.bytes, 0, true, lent.header);
    CHECK(l.answer.kind == KESARIMBU_PACKET && l.state.seen == 2 && lent.triggers[4] == 7 && lent.triggers[5] == 5);
}

/* One recording with a filter by examinations, by loads and by a listing: the counts are the same, and those of all three headers. */
static void trigger_counts_of_each_call(void)
{
    static const uint32_t expected[KESARIMBU_TRIGGERS] = {3, 2, [4] = 2, [11] = 2, [14] = 2, [17] = 1, [19] = 1};
    struct recording r = recorded();
    struct lent by_one = lent_with(0), by_load = lent_with(0), by_list = lent_with(0);
    struct kesarimbu_settings by_link = {.by_link = true, .link = 3, .stats = true};
    struct kesarimbu_reply e = {0}, l = {0};
    struct kesarimbu_listed listed = {0};
    uint8_t out[TEXT];
    struct kesarimbu_header second = kesarimbu_decode(r.bytes + SEVENTY_TWO, KESARIMBU_HEADER_SIZE).header;
    second.trigger_type = 0xA0008001;
    kesarimbu_encode(second, r.bytes + SEVENTY_TWO, KESARIMBU_HEADER_SIZE);
    while (e.answer.kind != KESARIMBU_REFUSED)
        e = kesarimbu_examine(by_link, e.state, by_one.links, by_one.triggers, by_one.fee_ids, PLACES, r.bytes, sizeof r.bytes, 0, true,
                              by_one.header);
    while (l.answer.kind != KESARIMBU_REFUSED)
        l = kesarimbu_load(by_link, l.state, by_load.links, by_load.triggers, by_load.fee_ids, PLACES, r.bytes, sizeof r.bytes, 0, true,
                           by_load.header);
    listed = kesarimbu_list(by_link, listed.state, listed.validator, by_list.links, by_list.triggers, by_list.fee_ids, PLACES, r.bytes,
                            sizeof r.bytes, 0, true, out, sizeof out);
    CHECK(e.answer.refusal == KESARIMBU_END && memcmp(by_one.triggers, expected, sizeof expected) == 0);
    CHECK(l.answer.refusal == KESARIMBU_END && memcmp(by_load.triggers, expected, sizeof expected) == 0);
    CHECK(listed.answer.refusal == KESARIMBU_END && memcmp(by_list.triggers, expected, sizeof expected) == 0);
}

/* What is lent for the check of links. */
struct links {
    uint8_t seen[KESARIMBU_LINKS];
    uint8_t packet_counters[KESARIMBU_LINKS];
    uint16_t pages_counters[KESARIMBU_LINKS];
    uint32_t orbits[KESARIMBU_LINKS];
    uint8_t stop_bits[KESARIMBU_LINKS];
};

static bool same_links(const struct links *one, const struct links *other)
{
    return memcmp(one->seen, other->seen, sizeof one->seen) == 0 &&
           memcmp(one->packet_counters, other->packet_counters, sizeof one->packet_counters) == 0 &&
           memcmp(one->pages_counters, other->pages_counters, sizeof one->pages_counters) == 0 &&
           memcmp(one->orbits, other->orbits, sizeof one->orbits) == 0 &&
           memcmp(one->stop_bits, other->stop_bits, sizeof one->stop_bits) == 0;
}

/* The four values of a header that its link keeps. */
struct last {
    uint8_t packet_counter;
    uint16_t pages_counter;
    uint32_t orbit;
    uint8_t stop_bit;
};

static struct last with(uint8_t packet_counter, uint16_t pages_counter, uint32_t orbit, uint8_t stop_bit)
{
    struct last values = {packet_counter, pages_counter, orbit, stop_bit};
    return values;
}

static void keep(struct links *links, uint8_t link, uint8_t seen, struct last values)
{
    links->seen[link] = seen;
    links->packet_counters[link] = values.packet_counter;
    links->pages_counters[link] = values.pages_counter;
    links->orbits[link] = values.orbit;
    links->stop_bits[link] = values.stop_bit;
}

/* Puts a header on a link, with these values, and those of another header for all else. */
static struct kesarimbu_link_check put_as(struct kesarimbu_header h, struct links *links, uint8_t link, struct last values)
{
    h.link_id = link;
    h.packet_counter = values.packet_counter;
    h.pages_counter = values.pages_counter;
    h.orbit = values.orbit;
    h.stop_bit = values.stop_bit;
    return kesarimbu_check_link(h, links->seen, links->packet_counters, links->pages_counters, links->orbits, links->stop_bits);
}

static struct kesarimbu_link_check put(struct links *links, uint8_t link, struct last values)
{
    return put_as(sound(64, 64), links, link, values);
}

/* What a header yields behind another one, which was the first of its link. */
static struct kesarimbu_link_check behind(struct last first, struct last next)
{
    struct links links = {{0}, {0}, {0}, {0}, {0}};
    put(&links, 3, first);
    return put(&links, 3, next);
}

enum { NO_FLAG = 0, PACKETS = 1, PAGES = 2, ORBIT = 4 };

static bool yields(struct kesarimbu_link_check c, int flags, uint8_t distance)
{
    return (c.packet_counter ? PACKETS : 0) + (c.pages_counter ? PAGES : 0) + (c.orbit ? ORBIT : 0) == flags && c.distance == distance;
}

/* A link from its first header on: two frames, the first of three pages, the second of one. All zeros are a beginning. */
static void a_link_in_order(void)
{
    struct links links = {{0}, {0}, {0}, {0}, {0}}, expected = links;
    CHECK(yields(put(&links, 3, with(200, 7, 0xBC5E1, 0)), NO_FLAG, 0)); /* taken as it comes */
    keep(&expected, 3, 1, with(200, 7, 0xBC5E1, 0));
    CHECK(same_links(&links, &expected));
    CHECK(yields(put(&links, 3, with(201, 8, 0xBC5E1, 0)), NO_FLAG, 0));
    CHECK(yields(put(&links, 3, with(202, 9, 0xBC5E1, 1)), NO_FLAG, 0));
    CHECK(yields(put(&links, 3, with(203, 0, 0xBC5E2, 1)), NO_FLAG, 0));
    CHECK(yields(put(&links, 3, with(204, 0, 0xBC5E3, 2)), NO_FLAG, 0));
    keep(&expected, 3, 1, with(204, 0, 0xBC5E3, 2));
    CHECK(same_links(&links, &expected)); /* the stop bit as it was */
}

static void first_headers(void)
{
    struct links links = {{0}, {0}, {0}, {0}, {0}};
    CHECK(yields(put(&links, 0, with(0, 0, 0, 0)), NO_FLAG, 0));
    CHECK(yields(put(&links, 1, with(255, 65535, 0xFFFFFFFF, 255)), NO_FLAG, 0));
    CHECK(yields(put(&links, 255, with(1, 1, 1, 1)), NO_FLAG, 0));
    CHECK(links.seen[0] == 1 && links.seen[1] == 1 && links.seen[255] == 1 && links.seen[2] == 0 && links.seen[254] == 0);
}

static void packet_counters(void)
{
    CHECK(yields(behind(with(4, 0, 9, 0), with(5, 1, 9, 0)), NO_FLAG, 0));
    CHECK(yields(behind(with(4, 0, 9, 0), with(6, 1, 9, 0)), PACKETS, 1));   /* one is lost */
    CHECK(yields(behind(with(4, 0, 9, 0), with(4, 1, 9, 0)), PACKETS, 255)); /* it came twice */
    CHECK(yields(behind(with(4, 0, 9, 0), with(3, 1, 9, 0)), PACKETS, 254));
    CHECK(yields(behind(with(4, 0, 9, 0), with(0, 1, 9, 0)), PACKETS, 251));
    CHECK(yields(behind(with(254, 0, 9, 0), with(255, 1, 9, 0)), NO_FLAG, 0));
    CHECK(yields(behind(with(254, 0, 9, 0), with(0, 1, 9, 0)), PACKETS, 1));
    CHECK(yields(behind(with(255, 0, 9, 0), with(0, 1, 9, 0)), NO_FLAG, 0));
    CHECK(yields(behind(with(255, 0, 9, 0), with(255, 1, 9, 0)), PACKETS, 255));
    CHECK(yields(behind(with(255, 0, 9, 0), with(1, 1, 9, 0)), PACKETS, 1));
    CHECK(yields(behind(with(255, 0, 9, 1), with(0, 0, 9, 0)), NO_FLAG, 0)); /* a stop does not begin it anew .. */
    CHECK(yields(behind(with(7, 0, 9, 1), with(0, 0, 9, 0)), PACKETS, 248)); /* .. nor does it let it be free */
    CHECK(yields(behind(with(7, 0, 9, 1), with(8, 0, 9, 0)), NO_FLAG, 0));
}

static void pages_counters(void)
{
    CHECK(yields(behind(with(4, 41, 9, 0), with(5, 42, 9, 0)), NO_FLAG, 0));
    CHECK(yields(behind(with(4, 41, 9, 0), with(5, 41, 9, 0)), PAGES, 0));
    CHECK(yields(behind(with(4, 41, 9, 0), with(5, 43, 9, 0)), PAGES, 0));
    CHECK(yields(behind(with(4, 41, 9, 0), with(5, 0, 9, 0)), PAGES, 0));
    CHECK(yields(behind(with(4, 255, 9, 0), with(5, 256, 9, 0)), NO_FLAG, 0));
    CHECK(yields(behind(with(4, 255, 9, 0), with(5, 0, 9, 0)), PAGES, 0));
    CHECK(yields(behind(with(4, 65534, 9, 0), with(5, 65535, 9, 0)), NO_FLAG, 0));
    CHECK(yields(behind(with(4, 65534, 9, 0), with(5, 0, 9, 0)), PAGES, 0));
    CHECK(yields(behind(with(4, 65535, 9, 0), with(5, 0, 9, 0)), NO_FLAG, 0));
    CHECK(yields(behind(with(4, 65535, 9, 0), with(5, 65535, 9, 0)), PAGES, 0));
    CHECK(yields(behind(with(4, 65535, 9, 0), with(5, 1, 9, 0)), PAGES, 0));
    CHECK(yields(behind(with(4, 41, 9, 0), with(6, 43, 9, 0)), PACKETS | PAGES, 1));
}

static void orbits(void)
{
    CHECK(yields(behind(with(4, 0, 0, 0), with(5, 1, 1, 0)), ORBIT, 0));
    CHECK(yields(behind(with(4, 0, 9, 0), with(5, 1, 8, 1)), ORBIT, 0)); /* its own stop does not free it */
    CHECK(yields(behind(with(4, 0, 0, 0), with(5, 1, 0x80000000, 0)), ORBIT, 0));
    CHECK(yields(behind(with(4, 0, 0xFFFFFFFF, 0), with(5, 1, 0, 0)), ORBIT, 0));
    CHECK(yields(behind(with(4, 0, 0xFFFFFFFF, 0), with(5, 1, 0xFFFFFFFF, 0)), NO_FLAG, 0));
    CHECK(yields(behind(with(4, 0, 9, 0), with(7, 0, 10, 0)), PACKETS | PAGES | ORBIT, 2));
}

/* Any stop bit but 0 is a stop: behind it the pages begin at 0, and the orbit is free. */
static void stops(void)
{
    static const uint8_t stop_bits[] = {1, 2, 128, 255};
    for (size_t i = 0; i < sizeof stop_bits; i++) {
        uint8_t stop = stop_bits[i];
        CHECK(yields(behind(with(4, 1, 9, stop), with(5, 0, 9, 0)), NO_FLAG, 0));
        CHECK(yields(behind(with(4, 1, 9, stop), with(5, 0, 10, stop)), NO_FLAG, 0));
        CHECK(yields(behind(with(4, 1, 9, stop), with(5, 0, 0, 0)), NO_FLAG, 0));
        CHECK(yields(behind(with(4, 1, 9, stop), with(5, 2, 10, 0)), PAGES, 0));
        CHECK(yields(behind(with(4, 65535, 9, stop), with(5, 0, 9, 0)), NO_FLAG, 0));
        CHECK(yields(behind(with(4, 65535, 9, stop), with(5, 65535, 9, 0)), PAGES, 0));
        CHECK(yields(behind(with(4, 1, 9, stop), with(7, 1, 9, 0)), PACKETS | PAGES, 2));
    }
    CHECK(yields(behind(with(4, 1, 9, 0), with(5, 0, 10, 0)), PAGES | ORBIT, 0));
    CHECK(yields(behind(with(4, 1, 9, 0), with(5, 2, 10, 1)), ORBIT, 0));
}

/* Two links in turns, with the same packet counters: each goes on from its own last header. */
static void links_in_turns(void)
{
    struct links links = {{0}, {0}, {0}, {0}, {0}};
    CHECK(yields(put(&links, 0, with(254, 0, 9, 0)), NO_FLAG, 0) && yields(put(&links, 255, with(10, 5, 70, 0)), NO_FLAG, 0));
    CHECK(yields(put(&links, 0, with(255, 1, 9, 1)), NO_FLAG, 0) && yields(put(&links, 255, with(11, 6, 70, 0)), NO_FLAG, 0));
    CHECK(yields(put(&links, 0, with(0, 0, 10, 0)), NO_FLAG, 0) && yields(put(&links, 255, with(14, 7, 71, 0)), PACKETS | ORBIT, 2));
    CHECK(yields(put(&links, 0, with(1, 1, 10, 0)), NO_FLAG, 0) && yields(put(&links, 255, with(15, 8, 71, 0)), NO_FLAG, 0));
}

/* Entries that are all different: of `seen` a third each are 0, 1 and 2. */
static struct links filled(void)
{
    struct links links;
    for (uint32_t i = 0; i < KESARIMBU_LINKS; i++)
        keep(&links, (uint8_t)i, (uint8_t)(i % 3), with((uint8_t)(i + 7), (uint16_t)(257 * i + 3), 0x01010101 * i + 5, (uint8_t)(255 - i)));
    return links;
}

/* A header on any link writes the five entries of that link, and no other. */
static void no_other_link_changes(void)
{
    bool all = true;
    for (uint32_t i = 0; i < KESARIMBU_LINKS; i++) {
        struct links links = filled(), expected = links;
        put(&links, (uint8_t)i, with(1, 2, 3, 4));
        keep(&expected, (uint8_t)i, 1, with(1, 2, 3, 4));
        all = all && same_links(&links, &expected);
    }
    CHECK(all);
}

/* Of a link with 0 for seen nothing is kept, whatever else stands there; any other number means that it is. */
static void what_seen_says(void)
{
    static const uint8_t seen[] = {0, 1, 2, 128, 255};
    for (size_t i = 0; i < sizeof seen; i++) {
        struct links links = filled(), expected = links;
        keep(&links, 255, seen[i], with(4, 1, 9, 0));
        struct kesarimbu_link_check c = put(&links, 255, with(9, 7, 8, 0));
        CHECK(seen[i] == 0 ? yields(c, NO_FLAG, 0) : yields(c, PACKETS | PAGES | ORBIT, 4));
        keep(&expected, 255, 1, with(9, 7, 8, 0));
        CHECK(same_links(&links, &expected));
    }
}

/* Nothing matters of a header but its link and the four values. */
static void other_fields(void)
{
    struct links links = {{0}, {0}, {0}, {0}, {0}}, expected = links;
    uint8_t bytes[KESARIMBU_HEADER_SIZE];
    memset(bytes, 0xFF, sizeof bytes);
    put(&links, 3, with(4, 0, 9, 0));
    CHECK(yields(put_as(kesarimbu_decode(bytes, sizeof bytes).header, &links, 3, with(5, 1, 9, 0)), NO_FLAG, 0));
    CHECK(yields(put(&links, 3, with(6, 2, 9, 0)), NO_FLAG, 0));
    keep(&expected, 3, 1, with(6, 2, 9, 0));
    CHECK(same_links(&links, &expected));
}

#define SIZE(s) printf("struct %s size %zu\n", #s, sizeof(struct s))
#define FIELD(s, f) printf("%s.%s offset %zu size %zu\n", #s, #f, offsetof(struct s, f), sizeof(((struct s *)0)->f))

static void layout_of_headers(void)
{
    SIZE(kesarimbu_header);
    FIELD(kesarimbu_header, header_id);
    FIELD(kesarimbu_header, header_size);
    FIELD(kesarimbu_header, fee_id);
    FIELD(kesarimbu_header, priority_bit);
    FIELD(kesarimbu_header, system_id);
    FIELD(kesarimbu_header, rdh0_reserved0);
    FIELD(kesarimbu_header, offset_new_packet);
    FIELD(kesarimbu_header, memory_size);
    FIELD(kesarimbu_header, link_id);
    FIELD(kesarimbu_header, packet_counter);
    FIELD(kesarimbu_header, cruid_dw);
    FIELD(kesarimbu_header, bc_reserved0);
    FIELD(kesarimbu_header, orbit);
    FIELD(kesarimbu_header, dataformat_reserved0);
    FIELD(kesarimbu_header, trigger_type);
    FIELD(kesarimbu_header, pages_counter);
    FIELD(kesarimbu_header, stop_bit);
    FIELD(kesarimbu_header, rdh2_reserved0);
    FIELD(kesarimbu_header, reserved1);
    FIELD(kesarimbu_header, detector_field);
    FIELD(kesarimbu_header, par_bit);
    FIELD(kesarimbu_header, rdh3_reserved0);
    FIELD(kesarimbu_header, reserved2);
    SIZE(kesarimbu_decoded);
    FIELD(kesarimbu_decoded, header);
    FIELD(kesarimbu_decoded, refusal);
    SIZE(kesarimbu_header_parts);
    FIELD(kesarimbu_header_parts, bc_reserved);
    FIELD(kesarimbu_header_parts, bc);
    FIELD(kesarimbu_header_parts, cru_id);
    FIELD(kesarimbu_header_parts, dw);
    FIELD(kesarimbu_header_parts, data_format);
    FIELD(kesarimbu_header_parts, is_pht_trigger);
}

static void layout_of_texts_names_and_checks(void)
{
    SIZE(kesarimbu_text);
    FIELD(kesarimbu_text, length);
    FIELD(kesarimbu_text, refusal);
    SIZE(kesarimbu_fee_parts);
    FIELD(kesarimbu_fee_parts, layer);
    FIELD(kesarimbu_fee_parts, stave);
    FIELD(kesarimbu_fee_parts, uplink);
    SIZE(kesarimbu_named);
    FIELD(kesarimbu_named, refusal);
    FIELD(kesarimbu_named, fee_id);
    SIZE(kesarimbu_validator);
    FIELD(kesarimbu_validator, configured);
    FIELD(kesarimbu_validator, settled);
    FIELD(kesarimbu_validator, id);
    FIELD(kesarimbu_validator, its);
    SIZE(kesarimbu_checked);
    FIELD(kesarimbu_checked, length);
    FIELD(kesarimbu_checked, refusal);
    FIELD(kesarimbu_checked, sound);
    FIELD(kesarimbu_checked, validator);
    SIZE(kesarimbu_link_check);
    FIELD(kesarimbu_link_check, packet_counter);
    FIELD(kesarimbu_link_check, pages_counter);
    FIELD(kesarimbu_link_check, orbit);
    FIELD(kesarimbu_link_check, distance);
}

static void layout_of_a_scan(void)
{
    SIZE(kesarimbu_settings);
    FIELD(kesarimbu_settings, by_link);
    FIELD(kesarimbu_settings, by_fee);
    FIELD(kesarimbu_settings, by_stave);
    FIELD(kesarimbu_settings, link);
    FIELD(kesarimbu_settings, fee);
    FIELD(kesarimbu_settings, stave);
    FIELD(kesarimbu_settings, skip_payload);
    FIELD(kesarimbu_settings, stats);
    SIZE(kesarimbu_stave_set);
    FIELD(kesarimbu_stave_set, settings);
    FIELD(kesarimbu_stave_set, refusal);
    SIZE(kesarimbu_state);
    FIELD(kesarimbu_state, place);
    FIELD(kesarimbu_state, position);
    FIELD(kesarimbu_state, load_start);
    FIELD(kesarimbu_state, links_used);
    FIELD(kesarimbu_state, fee_ids_used);
    FIELD(kesarimbu_state, seen);
    FIELD(kesarimbu_state, filtered);
    FIELD(kesarimbu_state, payload);
    FIELD(kesarimbu_state, load_open);
    SIZE(kesarimbu_answer);
    FIELD(kesarimbu_answer, position);
    FIELD(kesarimbu_answer, own);
    FIELD(kesarimbu_answer, want_place);
    FIELD(kesarimbu_answer, want_size);
    FIELD(kesarimbu_answer, payload_start);
    FIELD(kesarimbu_answer, payload_length);
    FIELD(kesarimbu_answer, kind);
    FIELD(kesarimbu_answer, refusal);
    FIELD(kesarimbu_answer, distance);
}

static void layout_of_replies(void)
{
    SIZE(kesarimbu_marks);
    FIELD(kesarimbu_marks, seen_carries);
    FIELD(kesarimbu_marks, trigger_type);
    FIELD(kesarimbu_marks, data_format);
    FIELD(kesarimbu_marks, system_id);
    FIELD(kesarimbu_marks, initial);
    FIELD(kesarimbu_marks, filtered_carry);
    FIELD(kesarimbu_marks, payload_carry);
    FIELD(kesarimbu_marks, payload_cut);
    SIZE(kesarimbu_reply);
    FIELD(kesarimbu_reply, answer);
    FIELD(kesarimbu_reply, marks);
    FIELD(kesarimbu_reply, state);
    SIZE(kesarimbu_listed);
    FIELD(kesarimbu_listed, answer);
    FIELD(kesarimbu_listed, state);
    FIELD(kesarimbu_listed, validator);
    FIELD(kesarimbu_listed, length);
    FIELD(kesarimbu_listed, unsound);
}

int main(int argc, char **argv)
{
    if (argc == 2 && strcmp(argv[1], "layout") == 0) {
        layout_of_headers();
        layout_of_texts_names_and_checks();
        layout_of_a_scan();
        layout_of_replies();
        return 0;
    }
    header_and_bytes();
    parts_and_equality();
    rows();
    staves();
    filters_by_name();
    verdicts();
    trigger_texts();
    examinations();
    loads();
    listings();
    filtered_listings();
    trigger_bits();
    trigger_counts_at_their_end();
    headers_counted();
    headers_not_counted();
    passed_headers_before_a_want();
    trigger_counts_of_each_call();
    a_link_in_order();
    first_headers();
    packet_counters();
    pages_counters();
    orbits();
    stops();
    links_in_turns();
    no_other_link_changes();
    what_seen_says();
    other_fields();
    printf("%d passed, %d failed\n", passed, failed);
    return failed != 0;
}
