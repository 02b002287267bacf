/* header.c: tests tambolune.h against the library: its sizes, the places of each field, its functions beside the library's own calls.
 * What is due is written here from docs/RULES.md (X2 to X5) and from how a frame was made. It prints one line, or the first failure. */
#include <stdio.h>
#include <stdlib.h>

/* The calls that take frame, LLDPDU, text, output or list go through functions of this file, which see that no pointer is NULL. */
#define tambolune_judge spied_judge
#define tambolune_read spied_read
#define tambolune_read_lldpdu spied_read_lldpdu
#define tambolune_write spied_write
#define tambolune_frame_on_port spied_frame_on_port
#define tambolune_compare spied_compare
#include "tambolune.h"
#undef tambolune_judge
#undef tambolune_read
#undef tambolune_read_lldpdu
#undef tambolune_write
#undef tambolune_frame_on_port
#undef tambolune_compare

#define COUNT(rows) (sizeof(rows) / sizeof(rows)[0])
#define CHECK(holds) check((holds), #holds, __LINE__)

static unsigned long checks;

static void check(int holds, const char *what, int line)
{
    checks++;
    if (!holds) {
        printf("header: line %d: %s does not hold\n", line, what);
        exit(1);
    }
}

/* Seeded, so that every run is the same. */
static uint64_t state = 0x9E3779B97F4A7C15u;

static unsigned below(unsigned limit)
{
    state ^= state << 13;
    state ^= state >> 7;
    state ^= state << 17;
    return (unsigned)((state >> 24) % limit);
}

static void fill_random(uint8_t *octets, size_t count)
{
    for (size_t i = 0; i < count; i++) {
        octets[i] = (uint8_t)below(256);
    }
}

/* ---- The calls of the library that are looked at on their way (X1) ---- */

typedef const uint8_t *in;
typedef uint8_t *out;

uint8_t tambolune_judge(in, size_t, out, size_t);
uint8_t tambolune_read(in, size_t, out, size_t, out, size_t);
uint8_t tambolune_read_lldpdu(in, size_t, out, size_t, out, size_t);
uint8_t tambolune_write(in, size_t, in, size_t, out, size_t, out, size_t);
uint8_t tambolune_frame_on_port(out, size_t, out, size_t, out, size_t, out, size_t, out, size_t, size_t, in, size_t, out, size_t);
uint8_t tambolune_compare(in, size_t, in, size_t, in, size_t, in, size_t, in, size_t, in, size_t, in, size_t, in, size_t, in, size_t,
                          in, size_t, out, size_t, out, size_t);

uint8_t spied_judge(in frame, size_t frame_octets, out answer, size_t answer_octets)
{
    CHECK(frame != NULL && answer != NULL);
    return tambolune_judge(frame, frame_octets, answer, answer_octets);
}

uint8_t spied_read(in frame, size_t frame_octets, out answer, size_t answer_octets, out description, size_t description_octets)
{
    CHECK(frame != NULL && answer != NULL && description != NULL);
    return tambolune_read(frame, frame_octets, answer, answer_octets, description, description_octets);
}

uint8_t spied_read_lldpdu(in lldpdu, size_t lldpdu_octets, out answer, size_t answer_octets, out description, size_t description_octets)
{
    CHECK(lldpdu != NULL && answer != NULL && description != NULL);
    return tambolune_read_lldpdu(lldpdu, lldpdu_octets, answer, answer_octets, description, description_octets);
}

uint8_t spied_write(in description, size_t description_octets, in text, size_t text_octets, out output, size_t output_octets,
                    out answer, size_t answer_octets)
{
    CHECK(description != NULL && text != NULL && output != NULL && answer != NULL);
    return tambolune_write(description, description_octets, text, text_octets, output, output_octets, answer, answer_octets);
}

uint8_t spied_frame_on_port(out ports, size_t ports_octets, out seconds, size_t seconds_octets, out lengths, size_t lengths_octets,
                            out senders, size_t senders_octets, out buffer, size_t buffer_octets, size_t port, in frame,
                            size_t frame_octets, out answer, size_t answer_octets)
{
    CHECK(frame != NULL && answer != NULL);
    return tambolune_frame_on_port(ports, ports_octets, seconds, seconds_octets, lengths, lengths_octets, senders, senders_octets,
                                   buffer, buffer_octets, port, frame, frame_octets, answer, answer_octets);
}

/* No two of these slices overlap (X7). One table twice is the easiest way to lend such. */
static int apart(const in *slices, const size_t *octets, size_t count)
{
    for (size_t i = 0; i < count; i++) {
        for (size_t j = 0; j < i; j++) {
            uintptr_t one = (uintptr_t)slices[i], other = (uintptr_t)slices[j];
            if (one < other + octets[j] && other < one + octets[i]) {
                return 0;
            }
        }
    }
    return 1;
}

uint8_t spied_compare(in ports, size_t ports_octets, in seconds, size_t seconds_octets, in lengths, size_t lengths_octets, in senders,
                      size_t senders_octets, in buffer, size_t buffer_octets, in ports2, size_t ports2_octets, in seconds2,
                      size_t seconds2_octets, in lengths2, size_t lengths2_octets, in senders2, size_t senders2_octets, in buffer2,
                      size_t buffer2_octets, out list, size_t list_octets, out answer, size_t answer_octets)
{
    const in slices[] = {ports, seconds, lengths, senders, buffer, ports2, seconds2, lengths2, senders2, buffer2, list, answer};
    const size_t octets[] = {ports_octets,    seconds_octets,  lengths_octets,  senders_octets, buffer_octets, ports2_octets,
                             seconds2_octets, lengths2_octets, senders2_octets, buffer2_octets, list_octets,   answer_octets};
    CHECK(list != NULL && answer != NULL);
    CHECK(apart(slices, octets, COUNT(slices)));
    return tambolune_compare(ports, ports_octets, seconds, seconds_octets, lengths, lengths_octets, senders, senders_octets, buffer,
                             buffer_octets, ports2, ports2_octets, seconds2, seconds2_octets, lengths2, lengths2_octets, senders2,
                             senders2_octets, buffer2, buffer2_octets, list, list_octets, answer, answer_octets);
}

/* ---- Sizes and numbers ---- */

static void test_sizes(void)
{
    const struct {
        size_t due, header, library;
    } rows[] = {
        {10, TAMBOLUNE_PORTS, tambolune_size_ports()},
        {40, TAMBOLUNE_PLACES, tambolune_size_places()},
        {1500, TAMBOLUNE_PLACE_OCTETS, tambolune_size_place()},
        {60000, TAMBOLUNE_BUFFER_OCTETS, tambolune_size_buffer()},
        {80, TAMBOLUNE_NUMBERS_OCTETS, tambolune_size_numbers()},
        {240, TAMBOLUNE_SENDERS_OCTETS, tambolune_size_senders()},
        {6, TAMBOLUNE_ADDRESS_OCTETS, tambolune_size_address()},
        {85, TAMBOLUNE_DESCRIPTION_OCTETS, tambolune_size_description()},
        {15, TAMBOLUNE_JUDGED_OCTETS, tambolune_size_judged()},
        {3, TAMBOLUNE_VERDICT_OCTETS, tambolune_size_verdict()},
        {2, TAMBOLUNE_WRITTEN_OCTETS, tambolune_size_written()},
        {1, TAMBOLUNE_REPLY_OCTETS, tambolune_size_reply()},
        {1, TAMBOLUNE_COUNT_OCTETS, tambolune_size_count()},
        {13, TAMBOLUNE_SIGHT_OCTETS, tambolune_size_sight()},
        {2, TAMBOLUNE_COMPARED_OCTETS, tambolune_size_compared()},
        {2, TAMBOLUNE_ENTRY_OCTETS, tambolune_size_entry()},
        {14, TAMBOLUNE_HEADER_OCTETS, tambolune_size_header()},
    };
    for (size_t i = 0; i < COUNT(rows); i++) {
        CHECK(rows[i].header == rows[i].library);
        CHECK(rows[i].header == rows[i].due);
    }
    CHECK(sizeof(tambolune_table) == 40 + 80 + 80 + 240 + 60000);
    CHECK(TAMBOLUNE_ENTRIES == 80 && TAMBOLUNE_LIST_OCTETS == 160);
}

static void test_enums(void)
{
    CHECK(TAMBOLUNE_NOT_REFUSED == 0 && TAMBOLUNE_REFUSED_UNFIT == 1 && TAMBOLUNE_REFUSED_NO_PORT == 2);
    CHECK(TAMBOLUNE_REFUSED_HEADER == 3 && TAMBOLUNE_REFUSED_FIRST_TLVS == 4 && TAMBOLUNE_REFUSED_CUT_SHORT == 5);
    CHECK(TAMBOLUNE_REFUSED_LATER_TLV == 6 && TAMBOLUNE_REFUSED_PORT_FULL == 7 && TAMBOLUNE_REFUSED_COMMON_TAKEN == 8);
    CHECK(TAMBOLUNE_REFUSED_DESCRIPTION == 9 && TAMBOLUNE_REFUSED_OUTPUT == 10 && TAMBOLUNE_REFUSED_LOUD_CHASSIS == 13);
    CHECK(TAMBOLUNE_REFUSED_LIST == 14);
    CHECK(TAMBOLUNE_RECORDED == 1 && TAMBOLUNE_REFRESHED == 2 && TAMBOLUNE_GONE == 3 && TAMBOLUNE_UNKNOWN_GOODBYE == 4);
    CHECK(TAMBOLUNE_CHANGE_LEFT == 1 && TAMBOLUNE_CHANGE_JOINED == 2);
    CHECK(TAMBOLUNE_CHANGE_SECONDS == 3 && TAMBOLUNE_CHANGE_ALTERED == 4);
    CHECK(TAMBOLUNE_NOT_HTIP == 0 && TAMBOLUNE_HTIP == 1 && TAMBOLUNE_ABSENT == 0 && TAMBOLUNE_PRESENT == 1);
    CHECK(TAMBOLUNE_NOBODY == 0 && TAMBOLUNE_SOMEBODY == 1);
    CHECK(TAMBOLUNE_CHASSIS_ADDRESS == 4 && TAMBOLUNE_CHASSIS_LOCAL == 7);
}

/* ---- Where each field stands ---- */

/* A number: its first octet and how many it has, by the rules; where it is in the struct, and how wide. */
struct row {
    size_t from, octets, offset, width;
};

#define ROW(type, from, octets, member) {from, octets, offsetof(type, member), sizeof((type *)0)->member}
#define PART(type, from, member) ROW(type, from, 2, member.start), ROW(type, from + 2, 2, member.octets)
#define ID(type, from, member) ROW(type, from, 1, member.subtype), PART(type, from + 1, member.part)
#define OPTIONAL(from, member) D(from, 1, member.present), PART(tambolune_description, from + 1, member.part)
#define D(from, octets, member) ROW(tambolune_description, from, octets, member)
#define DP(from, member) PART(tambolune_description, from, member)
#define J(from, octets, member) ROW(tambolune_judged, from, octets, member)
#define S(from, octets, member) ROW(tambolune_sight, from, octets, member)

/* X5 */
static const struct row description_rows[] = {
    ID(tambolune_description, 0, chassis),
    ID(tambolune_description, 5, port_id),
    D(10, 2, seconds),
    DP(12, port_description),
    DP(16, category),
    DP(20, manufacturer_code),
    DP(24, model_name),
    DP(28, model_number),
    D(32, 1, link.present),
    DP(33, link.interface_type),
    DP(37, link.port_number),
    DP(41, link.addresses),
    OPTIONAL(45, extension),
    OPTIONAL(50, address_list),
    DP(55, system_name),
    DP(59, system_description),
    D(63, 1, capabilities.present),
    D(64, 2, capabilities.can),
    D(66, 2, capabilities.enabled),
    D(68, 1, management.count),
    DP(69, management.addresses[0]),
    DP(73, management.addresses[1]),
    DP(77, management.addresses[2]),
    DP(81, management.addresses[3]),
};

/* X4: the answers of judge and of who sees */
static const struct row judged_rows[] = {
    J(0, 2, length), J(2, 1, htip), ID(tambolune_judged, 3, chassis), ID(tambolune_judged, 8, port_id), J(13, 2, seconds),
};
static const struct row sight_rows[] = {
    S(0, 1, seen),
    S(1, 2, place),
    S(3, 1, interface_type.octets),
    S(4, 4, interface_type.value),
    S(8, 1, port_number.octets),
    S(9, 4, port_number.value),
};

/* D3 */
static const struct row entry_rows[] = {
    ROW(tambolune_entry, 0, 1, kind),
    ROW(tambolune_entry, 1, 1, place),
};

static uint32_t number_at(const uint8_t *octets, size_t count)
{
    uint32_t number = 0;
    for (size_t i = 0; i < count; i++) {
        number = number * 256 + octets[i];
    }
    return number;
}

static uint32_t in_struct(const void *data, const struct row *row)
{
    const uint8_t *at = (const uint8_t *)data + row->offset;
    uint16_t two;
    uint32_t four;
    switch (row->width) {
    case 1:
        return *at;
    case 2:
        memcpy(&two, at, sizeof two);
        return two;
    default:
        memcpy(&four, at, sizeof four);
        return four;
    }
}

static int same(const void *data, const uint8_t *octets, const struct row *rows, size_t count)
{
    for (size_t i = 0; i < count; i++) {
        if (in_struct(data, &rows[i]) != number_at(octets + rows[i].from, rows[i].octets)) {
            printf("header: the number at octet %zu differs\n", rows[i].from);
            return 0;
        }
    }
    return 1;
}

static int same_structs(const void *one, const void *other, const struct row *rows, size_t count)
{
    for (size_t i = 0; i < count; i++) {
        if (in_struct(one, &rows[i]) != in_struct(other, &rows[i])) {
            printf("header: the number at octet %zu differs: %lu, %lu\n", rows[i].from,
                   (unsigned long)in_struct(one, &rows[i]), (unsigned long)in_struct(other, &rows[i]));
            return 0;
        }
    }
    return 1;
}

#define SAME(data, octets, rows) same(data, octets, rows, COUNT(rows))
#define SAME_STRUCTS(one, other, rows) same_structs(one, other, rows, COUNT(rows))

/* The rows name each octet once, and each number is as wide in the struct as in the octets. */
static void check_rows(const struct row *rows, size_t count, size_t octets)
{
    size_t next = 0;
    for (size_t i = 0; i < count; i++) {
        CHECK(rows[i].from == next);
        CHECK(rows[i].width == rows[i].octets);
        next += rows[i].octets;
    }
    CHECK(next == octets);
}

/* ---- What is lent to the library, with guards around each slice ---- */

enum { GUARD = 16, MARK = 0xA5 };

struct lent {
    uint8_t guard0[GUARD], ports[40];
    uint8_t guard1[GUARD], seconds[80];
    uint8_t guard2[GUARD], lengths[80];
    uint8_t guard3[GUARD], senders[240];
    uint8_t guard4[GUARD], buffer[60000];
    uint8_t guard5[GUARD], answer[15];
    uint8_t guard6[GUARD], description[85];
    uint8_t guard7[GUARD], output[1600];
    uint8_t guard8[GUARD];
};

static struct lent lent, before;

static int marked(const uint8_t *octets, size_t count)
{
    for (size_t i = 0; i < count; i++) {
        if (octets[i] != MARK) {
            return 0;
        }
    }
    return 1;
}

static void lend_anew(void)
{
    memset(&lent, MARK, sizeof lent);
    before = lent;
}

static int untouched(void)
{
    return memcmp(&lent, &before, sizeof lent) == 0;
}

/* No octet around the slices has changed, and of the answer no more than its first octets have. */
static int guarded(size_t answer_octets)
{
    return marked(lent.guard0, GUARD) && marked(lent.guard1, GUARD) && marked(lent.guard2, GUARD) &&
           marked(lent.guard3, GUARD) && marked(lent.guard4, GUARD) && marked(lent.guard5, GUARD) &&
           marked(lent.guard6, GUARD) && marked(lent.guard7, GUARD) && marked(lent.guard8, GUARD) &&
           marked(lent.answer + answer_octets, sizeof lent.answer - answer_octets);
}

/* The lengths of the table's slices (X2). They are handed in, so that wrong ones can be tried. */
static const size_t right[5] = {40, 80, 80, 240, 60000};

#define SLICES(of, n) of.ports, n[0], of.seconds, n[1], of.lengths, n[2], of.senders, n[3], of.buffer, n[4]
#define TABLE(n) SLICES(lent, n)

static void test_description_octets(void)
{
    struct {
        uint8_t before[GUARD], octets[85], after[GUARD];
    } room;
    check_rows(description_rows, COUNT(description_rows), 85);
    check_rows(judged_rows, COUNT(judged_rows), 15);
    check_rows(sight_rows, COUNT(sight_rows), 13);
    check_rows(entry_rows, COUNT(entry_rows), 2);
    for (unsigned turn = 0; turn < 20000; turn++) {
        uint8_t octets[85];
        tambolune_description description;
        fill_random(octets, sizeof octets);
        description = tambolune_description_from_octets(octets);
        CHECK(SAME(&description, octets, description_rows));
        memset(&room, MARK, sizeof room);
        tambolune_description_to_octets(&description, room.octets);
        CHECK(memcmp(room.octets, octets, sizeof octets) == 0);
        CHECK(marked(room.before, GUARD) && marked(room.after, GUARD));
    }
    /* One number at a time, all others 0: it stands where X5 has it and nowhere else. */
    for (size_t i = 0; i < COUNT(description_rows); i++) {
        const struct row *row = &description_rows[i];
        uint8_t octets[85] = {0};
        tambolune_description description;
        memset(&description, 0, sizeof description);
        if (row->width == 1) {
            ((uint8_t *)&description)[row->offset] = 0xC3;
            octets[row->from] = 0xC3;
        } else {
            const uint16_t number = 0xC35A;
            memcpy((uint8_t *)&description + row->offset, &number, sizeof number);
            octets[row->from] = 0xC3;
            octets[row->from + 1] = 0x5A;
        }
        tambolune_description_to_octets(&description, room.octets);
        CHECK(memcmp(room.octets, octets, sizeof octets) == 0);
    }
}

/* ---- Frames, and what is due of them ---- */

struct made {
    uint8_t frame[1514];
    size_t octets; /* of the frame, padding among them */
    tambolune_reading due;
    tambolune_counted interface_type, port_number; /* of the link information */
};

static struct made made;

static uint8_t *lldpdu_of(struct made *m)
{
    return m->frame + 14;
}

static void put(struct made *m, unsigned octet)
{
    m->frame[m->octets++] = (uint8_t)octet;
}

static tambolune_part put_random(struct made *m, size_t count)
{
    tambolune_part part = {(uint16_t)(m->octets - 14), (uint16_t)count};
    fill_random(m->frame + m->octets, count);
    m->octets += count;
    return part;
}

static void put_header(struct made *m, unsigned type, size_t length)
{
    put(m, type * 2 + (unsigned)(length / 256));
    put(m, (unsigned)(length % 256));
}

static void put_ttc(struct made *m, size_t length, unsigned subtype)
{
    put_header(m, 127, length);
    put(m, 0xE0);
    put(m, 0x27);
    put(m, 0x1A);
    put(m, subtype);
}

/* Few addresses, so that one that is asked for is often there. */
static void put_address(struct made *m, unsigned which)
{
    for (int i = 0; i < 5; i++) {
        put(m, i == 0 ? 2 : 0);
    }
    put(m, which);
}

static tambolune_part put_addresses(struct made *m, size_t count)
{
    tambolune_part part = {(uint16_t)(m->octets - 14), (uint16_t)(6 * count)};
    for (size_t i = 0; i < count; i++) {
        put_address(m, below(4));
    }
    return part;
}

static tambolune_part put_device(struct made *m, unsigned id, size_t count)
{
    put_ttc(m, 6 + count, 1);
    put(m, id);
    put(m, (unsigned)count);
    return put_random(m, count);
}

static tambolune_part put_string(struct made *m, unsigned type, size_t count)
{
    put_header(m, type, count);
    return put_random(m, count);
}

static tambolune_counted counted_in(const struct made *m, tambolune_part part)
{
    tambolune_counted counted = {(uint8_t)part.octets, number_at(m->frame + 14 + part.start, part.octets)};
    return counted;
}

static void put_links(struct made *m)
{
    tambolune_description *due = &m->due.description;
    if (below(3) > 0) {
        size_t n = 1 + below(4), number = 1 + below(4), k = 1 + below(3);
        put_ttc(m, 7 + n + number + 6 * k, 2);
        put(m, (unsigned)n);
        due->link.present = 1;
        due->link.interface_type = put_random(m, n);
        put(m, (unsigned)number);
        due->link.port_number = put_random(m, number);
        put(m, (unsigned)k);
        due->link.addresses = put_addresses(m, k);
        m->interface_type = counted_in(m, due->link.interface_type);
        m->port_number = counted_in(m, due->link.port_number);
    }
    if (below(3) == 0) {
        size_t k = below(3), item = below(5);
        put_ttc(m, 4 + 9 + 7 * k + k * item, 4);
        due->extension.present = 1;
        due->extension.part.start = (uint16_t)(m->octets - 14);
        due->extension.part.octets = (uint16_t)(9 + 7 * k + k * item);
        put(m, 1);
        put(m, below(256));
        put(m, 1);
        put(m, below(256));
        put(m, 6);
        put(m, (unsigned)k);
        put(m, 1);
        for (size_t i = 0; i < k; i++) {
            put_address(m, below(4));
            put(m, (unsigned)item);
            put_random(m, item);
        }
        put(m, 0);
        put(m, 0);
    }
    if (below(3) == 0) {
        size_t k = 1 + below(3);
        put_ttc(m, 5 + 6 * k, 3);
        put(m, (unsigned)k);
        due->address_list.present = 1;
        due->address_list.part = put_addresses(m, k);
    }
}

static void put_fields(struct made *m)
{
    static const char characters[] = "AZaz09 -'()+,./:=?;!*#@$_%";
    tambolune_description *due = &m->due.description;
    if (below(2) == 0) {
        due->port_description = put_string(m, 4, 1 + below(20));
        for (size_t i = 0; i < due->port_description.octets; i++) {
            lldpdu_of(m)[due->port_description.start + i] = (uint8_t)characters[below(sizeof characters - 1)];
        }
    }
    if (below(2) == 0) {
        due->system_name = put_string(m, 5, 1 + below(30));
    }
    if (below(2) == 0) {
        due->system_description = put_string(m, 6, below(8) == 0 ? 255 : 1 + below(30));
    }
    if (below(2) == 0) {
        due->capabilities.present = 1;
        due->capabilities.can = (uint16_t)below(65536);
        due->capabilities.enabled = (uint16_t)below(65536);
        put_header(m, 7, 4);
        put(m, due->capabilities.can / 256u);
        put(m, due->capabilities.can % 256u);
        put(m, due->capabilities.enabled / 256u);
        put(m, due->capabilities.enabled % 256u);
    }
    due->management.count = (uint8_t)below(5);
    for (size_t i = 0; i < due->management.count; i++) {
        due->management.addresses[i] = put_string(m, 8, 9 + below(9));
    }
    due->category = put_device(m, 1, 1 + below(20));
    if (below(2) == 0) {
        due->manufacturer_code = put_device(m, 2, 1 + below(6));
    }
    if (below(2) == 0) {
        due->model_name = put_device(m, 3, 1 + below(31));
    }
    due->model_number = put_device(m, 4, 1 + below(31));
    put_links(m);
}

/* A valid frame in the order that the writer has (W1), and what is due of it. Few neighbours where `few`. */
static void make(struct made *m, uint16_t seconds, int few)
{
    tambolune_description *due = &m->due.description;
    memset(m, 0, sizeof *m);
    for (int i = 0; i < 6; i++) {
        put(m, 0xFF);
    }
    put(m, below(128) * 2);
    put_random(m, 5);
    put(m, 0x88);
    put(m, 0xCC);
    if (few || below(2) == 0) {
        put_header(m, 1, 7);
        due->chassis.subtype = 4;
        put(m, 4);
        due->chassis.part = put_random(m, 6);
        if (few) {
            m->octets -= 6;
            put_address(m, below(3));
        }
    } else if (below(2) == 0) {
        put_header(m, 1, 9);
        due->chassis.subtype = 4;
        put(m, 4);
        due->chassis.part = put_random(m, 8);
    } else {
        size_t count = 2 * (1 + below(32));
        put_header(m, 1, 1 + count);
        due->chassis.subtype = 7;
        put(m, 7);
        due->chassis.part = put_random(m, count);
        for (size_t i = 0; i < count; i++) {
            lldpdu_of(m)[due->chassis.part.start + i] = (uint8_t) "0123456789ABCDEF"[below(16)];
        }
    }
    due->port_id.subtype = few ? 7 : (uint8_t)(1 + below(7));
    if (few) {
        put_header(m, 2, 2);
        put(m, due->port_id.subtype);
        due->port_id.part = put_random(m, 1);
        lldpdu_of(m)[due->port_id.part.start] = (uint8_t)below(4);
    } else {
        size_t count = below(8) == 0 ? 255 : 1 + below(20);
        put_header(m, 2, 1 + count);
        put(m, due->port_id.subtype);
        due->port_id.part = put_random(m, count);
    }
    due->seconds = seconds;
    put_header(m, 3, 2);
    put(m, seconds / 256u);
    put(m, seconds % 256u);
    if (seconds > 0) {
        put_fields(m);
        m->due.htip = 1;
    }
    put(m, 0);
    put(m, 0);
    m->due.length = (uint16_t)(m->octets - 14);
    put_random(m, below(10));
}

static void damage(struct made *m)
{
    switch (below(3)) {
    case 0:
        m->octets = below((unsigned)m->octets + 1);
        break;
    case 1:
        m->frame[below((unsigned)m->octets)] = (uint8_t)below(256);
        break;
    default:
        m->frame[14 + below((unsigned)m->octets - 14)] ^= (uint8_t)(1u << below(8));
        break;
    }
}

/* ---- The reader ---- */

/* An answer between guards; a refusal leaves every octet of it, and no call touches the guards. */
#define ANSWER(type)                                    \
    struct {                                            \
        uint8_t before[GUARD];                          \
        type value;                                     \
        uint8_t after[GUARD];                           \
    } room;                                             \
    memset(&room, MARK, sizeof room)
#define UNTOUCHED marked((const uint8_t *)&room, sizeof room)
#define GUARDED (marked(room.before, GUARD) && marked(room.after, GUARD))

static uint8_t judge_both(const uint8_t *frame, size_t octets, tambolune_judged *judged)
{
    ANSWER(tambolune_judged);
    uint8_t refusal = tambolune_frame_judge(frame, octets, &room.value);
    lend_anew();
    CHECK(tambolune_judge(frame, octets, lent.answer, 15) == refusal);
    if (refusal != 0) {
        CHECK(UNTOUCHED && untouched());
    } else {
        CHECK(GUARDED && guarded(15));
        CHECK(SAME(&room.value, lent.answer, judged_rows));
        *judged = room.value;
    }
    return refusal;
}

static uint8_t read_both(const uint8_t *octets, size_t count, int is_frame, tambolune_reading *reading)
{
    ANSWER(tambolune_reading);
    uint8_t refusal = is_frame ? tambolune_frame_read(octets, count, &room.value)
                               : tambolune_lldpdu_read(octets, count, &room.value);
    lend_anew();
    if (is_frame) {
        CHECK(tambolune_read(octets, count, lent.answer, 3, lent.description, 85) == refusal);
    } else {
        CHECK(tambolune_read_lldpdu(octets, count, lent.answer, 3, lent.description, 85) == refusal);
    }
    if (refusal != 0) {
        CHECK(UNTOUCHED && untouched());
    } else {
        CHECK(GUARDED && guarded(3));
        CHECK(room.value.length == number_at(lent.answer, 2));
        CHECK(room.value.htip == lent.answer[2]);
        CHECK(SAME(&room.value.description, lent.description, description_rows));
        *reading = room.value;
    }
    return refusal;
}

static int same_id(const tambolune_id *one, const tambolune_id *other)
{
    return one->subtype == other->subtype && one->part.start == other->part.start &&
           one->part.octets == other->part.octets;
}

/* Judges and reads a frame in every way; the ways agree. What is read of it is in `reading`. */
static uint8_t read_in_every_way(struct made *m, tambolune_reading *reading)
{
    tambolune_judged judged;
    tambolune_reading bare;
    uint8_t refusal = read_both(m->frame, m->octets, 1, reading);
    CHECK(judge_both(m->frame, m->octets, &judged) == refusal);
    if (refusal == 0) {
        CHECK(judged.length == reading->length && judged.htip == reading->htip);
        CHECK(same_id(&judged.chassis, &reading->description.chassis));
        CHECK(same_id(&judged.port_id, &reading->description.port_id));
        CHECK(judged.seconds == reading->description.seconds);
    }
    if (refusal != 3) {
        CHECK(read_both(lldpdu_of(m), m->octets - 14, 0, &bare) == refusal);
        CHECK(refusal != 0 || (bare.length == reading->length && bare.htip == reading->htip));
        CHECK(refusal != 0 || SAME_STRUCTS(&bare.description, &reading->description, description_rows));
    }
    return refusal;
}

static void test_reading(void)
{
    tambolune_reading reading;
    for (unsigned turn = 0; turn < 4000; turn++) {
        make(&made, (uint16_t)(below(4) == 0 ? 0 : 1 + below(65535)), 0);
        CHECK(read_in_every_way(&made, &reading) == 0);
        CHECK(reading.length == made.due.length && reading.htip == made.due.htip);
        CHECK(SAME_STRUCTS(&reading.description, &made.due.description, description_rows));
        damage(&made);
        read_in_every_way(&made, &reading);
    }
}

/* Skipped TLVs, so that the LLDPDU has so many octets; category and model number stand behind them. */
static void make_long(uint8_t *lldpdu, size_t octets)
{
    static const uint8_t front[17] = {2, 7, 4, 2, 0, 0, 0, 0, 1, 4, 2, 7, 0x31, 6, 2, 0, 120};
    static const uint8_t back[20] = {0xFE, 7, 0xE0, 0x27, 0x1A, 1, 1, 1, 0x41, 0xFE, 7, 0xE0, 0x27, 0x1A, 1, 4, 1, 0x37, 0, 0};
    size_t at = sizeof front;
    memcpy(lldpdu, front, sizeof front);
    while (at < octets - sizeof back) {
        size_t left = octets - sizeof back - at, length = left < 1000 ? (left < 513 ? left : left / 2) - 2 : 511;
        lldpdu[at] = (uint8_t)(9 * 2 + length / 256);
        lldpdu[at + 1] = (uint8_t)(length % 256);
        memset(lldpdu + at + 2, 0, length);
        at += 2 + length;
    }
    memcpy(lldpdu + at, back, sizeof back);
}

/* The longest LLDPDU that two octets can speak of is read, with any padding; a longer one is refused, never read wrongly. */
static void test_long_lldpdus(void)
{
    static uint8_t lldpdu[3 * 65536];
    tambolune_reading reading;
    make_long(lldpdu, 65535);
    CHECK(read_both(lldpdu, 65535, 0, &reading) == 0);
    for (size_t padding = 0; padding <= 65536; padding += 32768) {
        CHECK(tambolune_lldpdu_read(lldpdu, 65535 + padding, &reading) == 0);
        CHECK(reading.length == 65535 && reading.htip == 1);
        CHECK(reading.description.category.start == 65523 && reading.description.category.octets == 1);
        CHECK(reading.description.model_number.start == 65532 && reading.description.model_number.octets == 1);
    }
    for (size_t octets = 65536; octets < sizeof lldpdu; octets += 4099) {
        make_long(lldpdu, octets);
        CHECK(tambolune_lldpdu_read(lldpdu, octets, &reading) == 5);
    }
    lldpdu[0] = 4;
    CHECK(tambolune_lldpdu_read(lldpdu, sizeof lldpdu, &reading) == 4);
}

/* ---- The writer ---- */

static uint8_t write_both(const tambolune_description *description, const uint8_t *text, size_t octets, size_t space,
                          uint16_t *written)
{
    static uint8_t output[GUARD + 1600 + GUARD];
    uint8_t packed[85];
    uint8_t refusal;
    ANSWER(uint16_t);
    memset(output, MARK, sizeof output);
    refusal = tambolune_description_write(description, text, octets, output + GUARD, space, &room.value);
    for (size_t i = 0; i < COUNT(description_rows); i++) {
        const struct row *row = &description_rows[i];
        uint32_t number = in_struct(description, row);
        packed[row->from] = (uint8_t)(row->octets == 2 ? number / 256 : number);
        packed[row->from + row->octets - 1] = (uint8_t)(number % 256);
    }
    lend_anew();
    CHECK(tambolune_write(packed, 85, text, octets, lent.output, space, lent.answer, 2) == refusal);
    if (refusal != 0) {
        CHECK(UNTOUCHED && untouched());
        CHECK(marked(output, sizeof output));
    } else {
        CHECK(GUARDED && guarded(2));
        CHECK(room.value == number_at(lent.answer, 2) && room.value <= space);
        CHECK(marked(lent.output + room.value, sizeof lent.output - room.value));
        CHECK(marked(output, GUARD) && marked(output + GUARD + room.value, sizeof output - GUARD - room.value));
        CHECK(memcmp(output + GUARD, lent.output, room.value) == 0);
        *written = room.value;
    }
    return refusal;
}

static void test_writing(void)
{
    for (unsigned turn = 0; turn < 2000; turn++) {
        tambolune_description description;
        uint16_t written = 0;
        make(&made, (uint16_t)(below(4) == 0 ? 0 : 1 + below(65535)), 0);
        description = made.due.description;
        CHECK(write_both(&description, lldpdu_of(&made), made.octets - 14, 1600, &written) == 0);
        CHECK(written == made.due.length);
        CHECK(memcmp(lent.output, lldpdu_of(&made), written) == 0);
        CHECK(write_both(&description, lldpdu_of(&made), made.octets - 14, written, &written) == 0);
        CHECK(write_both(&description, lldpdu_of(&made), made.octets - 14, written - 1u, &written) == 10);
        CHECK(write_both(&description, lldpdu_of(&made), made.octets - 14, 0, &written) == 10);
        /* What is behind a presence of 0 and behind the count is not looked at; any other presence gives 9. */
        if (description.link.present == 0) {
            description.link.addresses.start = 65535;
            description.link.addresses.octets = 65535;
        }
        if (description.management.count < 4) {
            description.management.addresses[3].start = 65535;
        }
        CHECK(write_both(&description, lldpdu_of(&made), made.octets - 14, 1600, &written) == 0);
        CHECK(memcmp(lent.output, lldpdu_of(&made), written) == 0);
        for (size_t i = 0; i < 4; i++) {
            uint8_t *presences[4];
            presences[0] = &description.link.present;
            presences[1] = &description.extension.present;
            presences[2] = &description.address_list.present;
            presences[3] = &description.capabilities.present;
            uint8_t was = *presences[i];
            *presences[i] = 2;
            CHECK(write_both(&description, lldpdu_of(&made), made.octets - 14, 1600, &written) == 9);
            *presences[i] = 255;
            CHECK(write_both(&description, lldpdu_of(&made), made.octets - 14, 1600, &written) == 9);
            *presences[i] = was;
        }
        description = made.due.description;
        description.management.count = 5;
        CHECK(write_both(&description, lldpdu_of(&made), made.octets - 14, 1600, &written) == 9);
        description = made.due.description;
        description.chassis.part.start = 65535;
        CHECK(write_both(&description, lldpdu_of(&made), made.octets - 14, 1600, &written) == 9);
        /* Any numbers at all: both ways say the same. */
        fill_random((uint8_t *)&description, sizeof description);
        CHECK(write_both(&description, lldpdu_of(&made), made.octets - 14, below(1601), &written) == 9);
    }
}

/* ---- The table ---- */

static tambolune_table table;

static int same_tables(void)
{
    return memcmp(table.ports, lent.ports, 40) == 0 && memcmp(table.seconds, lent.seconds, 80) == 0 &&
           memcmp(table.lengths, lent.lengths, 80) == 0 && memcmp(table.senders, lent.senders, 240) == 0 &&
           memcmp(table.buffer, lent.buffer, 60000) == 0;
}

/* Each place as X3 has it. */
static void check_places(void)
{
    static const uint8_t zeros[1500] = {0};
    for (size_t i = 0; i < 40; i++) {
        size_t length = number_at(lent.lengths + 2 * i, 2);
        CHECK(tambolune_place_used(&table, i) == (length > 0));
        CHECK(tambolune_place_length(&table, i) == length);
        CHECK(tambolune_place_port(&table, i) == lent.ports[i]);
        CHECK(tambolune_place_seconds(&table, i) == number_at(lent.seconds + 2 * i, 2));
        if (length > 0) {
            CHECK(memcmp(tambolune_place_sender(&table, i), lent.senders + 6 * i, 6) == 0);
            CHECK(memcmp(tambolune_place_lldpdu(&table, i), lent.buffer + 1500 * i, length) == 0);
        } else {
            CHECK(tambolune_place_sender(&table, i) == NULL && tambolune_place_lldpdu(&table, i) == NULL);
            CHECK(memcmp(lent.senders + 6 * i, zeros, 6) == 0 && memcmp(lent.buffer + 1500 * i, zeros, 1500) == 0);
        }
    }
}

static void check_no_place(size_t place)
{
    CHECK(tambolune_place_used(&table, place) == 0 && tambolune_place_length(&table, place) == 0);
    CHECK(tambolune_place_port(&table, place) == 0 && tambolune_place_seconds(&table, place) == 0);
    CHECK(tambolune_place_sender(&table, place) == NULL && tambolune_place_lldpdu(&table, place) == NULL);
}

/* Each call both ways. The marks of the last answer are set again first, so that what is untouched can be told. */
static void mark_answer(void)
{
    memset(lent.answer, MARK, sizeof lent.answer);
    before = lent;
}

static void settle(uint8_t refusal, size_t answer_octets)
{
    CHECK(refusal == 0 || untouched());
    CHECK(guarded(refusal == 0 ? answer_octets : 0));
    CHECK(same_tables());
}

static void start_both(void)
{
    mark_answer();
    CHECK(tambolune_table_start(&table) == 0);
    CHECK(tambolune_start(TABLE(right)) == 0);
    settle(0, 0);
}

static uint8_t frame_both(size_t port, const uint8_t *frame, size_t octets, uint8_t *reply)
{
    uint8_t refusal;
    ANSWER(uint8_t);
    mark_answer();
    refusal = tambolune_table_frame(&table, port, frame, octets, &room.value);
    CHECK(tambolune_frame_on_port(TABLE(right), port, frame, octets, lent.answer, 1) == refusal);
    settle(refusal, 1);
    CHECK(refusal == 0 ? GUARDED && room.value == lent.answer[0] : UNTOUCHED);
    *reply = room.value;
    return refusal;
}

static uint8_t seconds_both(size_t gone)
{
    uint8_t refusal;
    mark_answer();
    refusal = tambolune_table_seconds(&table, gone);
    CHECK(tambolune_seconds_passed(TABLE(right), gone) == refusal);
    settle(refusal, 0);
    return refusal;
}

static uint8_t lost_both(size_t port)
{
    uint8_t refusal;
    mark_answer();
    refusal = tambolune_table_link_lost(&table, port);
    CHECK(tambolune_link_lost(TABLE(right), port) == refusal);
    settle(refusal, 0);
    return refusal;
}

static uint8_t count_both(size_t port, uint8_t *count)
{
    uint8_t refusal;
    ANSWER(uint8_t);
    mark_answer();
    refusal = tambolune_table_how_many(&table, port, &room.value);
    CHECK(tambolune_how_many(TABLE(right), port, lent.answer, 1) == refusal);
    settle(refusal, 1);
    CHECK(refusal == 0 ? GUARDED && room.value == lent.answer[0] : UNTOUCHED);
    *count = room.value;
    return refusal;
}

static uint8_t sight_both(const uint8_t *address, size_t start, tambolune_sight *sight)
{
    uint8_t refusal;
    ANSWER(tambolune_sight);
    mark_answer();
    refusal = tambolune_table_who_sees(&table, address, start, &room.value);
    CHECK(tambolune_who_sees(TABLE(right), address, 6, start, lent.answer, 13) == refusal);
    settle(refusal, 13);
    CHECK(refusal == 0 ? GUARDED && SAME(&room.value, lent.answer, sight_rows) : UNTOUCHED);
    *sight = room.value;
    return refusal;
}

/* ---- Two looks at the table ---- */

static tambolune_table look, look_before;

static void take_look(void)
{
    look = table;
    look_before = table;
}

/* The place of a table that has the same neighbour as a used place of another, or 40. Chassis ID and port ID, with
 * their lengths and subtypes, are the first two TLVs (N2, L6). */
static size_t place_of(const tambolune_table *sought, const tambolune_table *other, size_t place)
{
    const uint8_t *lldpdu = other->buffer + 1500 * place;
    size_t chassis = 2 + number_at(lldpdu, 2) % 512, both = chassis + 2 + number_at(lldpdu + chassis, 2) % 512, i = 0;
    while (i < 40 && (sought->ports[i] != other->ports[place] || memcmp(sought->buffer + 1500 * i, lldpdu, both) != 0)) {
        i++;
    }
    return i;
}

/* The kind of a neighbour that is in place `i` of the first table and in place `j` of the second (D1); 0 for no change. */
static uint8_t kind_of(const tambolune_table *first, size_t i, const tambolune_table *second, size_t j)
{
    if (memcmp(first->senders + 6 * i, second->senders + 6 * j, 6) != 0 ||
        memcmp(first->buffer + 1500 * i, second->buffer + 1500 * j, 1500) != 0) {
        return 4;
    }
    return memcmp(first->seconds + 2 * i, second->seconds + 2 * j, 2) != 0 ? 3 : 0;
}

/* The entries that are due, in the order of D2; how many there are. */
static size_t due_entries(const tambolune_table *first, const tambolune_table *second, tambolune_entry *due)
{
    size_t count = 0;
    for (size_t i = 0; i < 40; i++) {
        if (number_at(first->lengths + 2 * i, 2) > 0) {
            size_t j = place_of(second, first, i);
            due[count].kind = j == 40 ? 1 : kind_of(first, i, second, j);
            due[count].place = (uint8_t)(j == 40 ? i : j);
            count += due[count].kind > 0;
        }
    }
    for (size_t j = 0; j < 40; j++) {
        if (number_at(second->lengths + 2 * j, 2) > 0 && place_of(first, second, j) == 40) {
            due[count].kind = 2;
            due[count++].place = (uint8_t)j;
        }
    }
    return count;
}

struct changes {
    tambolune_entry entries[81];
    uint16_t count;
};

/* Compares the look with the table, or back, with room for so many entries. Both are fit. */
static uint8_t compare_both(int back, size_t space, struct changes *changes)
{
    tambolune_entry due[80];
    size_t due_count = back ? due_entries(&table, &look, due) : due_entries(&look, &table, due);
    uint8_t refusal;
    ANSWER(struct changes);
    memset(lent.output, MARK, sizeof lent.output);
    mark_answer();
    if (back) {
        refusal = tambolune_table_compare(&table, &look, room.value.entries, space, &room.value.count);
        CHECK(tambolune_compare(TABLE(right), SLICES(look, right), lent.output, 2 * space, lent.answer, 2) == refusal);
    } else {
        refusal = tambolune_table_compare(&look, &table, room.value.entries, space, &room.value.count);
        CHECK(tambolune_compare(SLICES(look, right), TABLE(right), lent.output, 2 * space, lent.answer, 2) == refusal);
    }
    settle(refusal, 2);
    CHECK(memcmp(&look, &look_before, sizeof look) == 0);
    CHECK(refusal == (due_count <= space ? 0 : 14));
    if (refusal != 0) {
        CHECK(UNTOUCHED);
    } else {
        CHECK(GUARDED && room.value.count == due_count && number_at(lent.answer, 2) == due_count);
        for (size_t i = 0; i < due_count; i++) {
            CHECK(SAME(&due[i], lent.output + 2 * i, entry_rows));
            CHECK(SAME_STRUCTS(&due[i], &room.value.entries[i], entry_rows));
        }
        CHECK(marked(lent.output + 2 * due_count, sizeof lent.output - 2 * due_count));
        CHECK(marked((const uint8_t *)(room.value.entries + due_count), sizeof room.value.entries - due_count * sizeof due[0]));
    }
    *changes = room.value;
    return refusal;
}

/* In every room up to one too many, both ways. The kinds of the entries are counted. */
static void compare_in_every_room(unsigned long *kinds)
{
    for (int back = 0; back <= 1; back++) {
        struct changes changes;
        size_t space = 0;
        while (compare_both(back, space, &changes) == 14) {
            space++;
        }
        CHECK(changes.count == space);
        for (size_t i = 0; i < space; i++) {
            kinds[changes.entries[i].kind]++;
        }
        CHECK(compare_both(back, space + 1, &changes) == 0 && compare_both(back, 80, &changes) == 0);
    }
}

static void test_table_at_random(void)
{
    unsigned long replies[5] = {0}, refusals[14] = {0}, kinds[5] = {0};
    unsigned long seen = 0;
    uint8_t reply, count;
    tambolune_sight sight;
    lend_anew();
    memset(&table, MARK, sizeof table);
    /* Octets that are no table are refused with 1, and a Start mends them. */
    CHECK(frame_both(0, made.frame, made.octets, &reply) == 1 && seconds_both(0) == 1 && lost_both(0) == 1);
    CHECK(count_both(0, &count) == 1 && sight_both(made.frame, 0, &sight) == 1);
    start_both();
    take_look();
    for (unsigned turn = 0; turn < 12000; turn++) {
        const uint16_t lives[] = {0, 1, 120, 300, 65535};
        uint8_t address[6] = {2, 0, 0, 0, 0, (uint8_t)below(5)};
        size_t port = below(40) == 0 ? 10 + below(600) : below(10);
        unsigned what = below(100);
        if (what < 80) {
            uint8_t refusal;
            make(&made, lives[below(40) < 4 ? 0 : 1 + below(4)], 1);
            if (below(8) == 0) {
                damage(&made);
            }
            refusal = frame_both(port, made.frame, made.octets, &reply);
            CHECK(refusal <= 8 || refusal == 13);
            refusals[refusal]++;
            if (refusal == 0) {
                CHECK(reply >= 1 && reply <= 4);
                replies[reply]++;
            }
        } else if (what < 84) {
            CHECK(seconds_both(below(4) == 0 ? 65536 + below(9) : below(30)) == 0);
        } else if (what < 88) {
            CHECK(lost_both(port) == (port < 10 ? 0 : 2));
        } else if (what < 94) {
            CHECK(count_both(port, &count) == (port < 10 ? 0 : 2));
            CHECK(port >= 10 || count <= 6);
        } else {
            CHECK(sight_both(address, below(50), &sight) == 0);
            seen += sight.seen;
        }
        if (turn % 16 == 0) {
            check_places();
        }
        if (turn % 64 == 0) {
            compare_in_every_room(kinds);
            take_look();
        }
    }
    /* All that can be answered was met, so nothing above was compared in vain. */
    CHECK(replies[1] > 0 && replies[2] > 0 && replies[3] > 0 && replies[4] > 0 && seen > 0);
    for (unsigned refusal = 2; refusal <= 6; refusal++) {
        CHECK(refusals[refusal] > 0);
    }
    CHECK(refusals[7] > 0 && refusals[8] > 0 && refusals[13] > 0);
    CHECK(kinds[1] > 0 && kinds[2] > 0 && kinds[3] > 0 && kinds[4] > 0);
}

/* What is due follows from how each frame was made. Records fill the places from 0 on. */
static void test_table_by_the_rules(void)
{
    for (unsigned turn = 0; turn < 60; turn++) {
        start_both();
        for (size_t place = 0; place < 20; place++) {
            const size_t port = place / 2;
            uint8_t reply, count;
            make(&made, (uint16_t)(1 + below(65535)), 0);
            CHECK(frame_both(port, made.frame, made.octets, &reply) == 0 && reply == TAMBOLUNE_RECORDED);
            CHECK(tambolune_place_used(&table, place) == 1 && tambolune_place_used(&table, place + 1) == 0);
            CHECK(tambolune_place_port(&table, place) == port);
            CHECK(tambolune_place_length(&table, place) == made.due.length);
            CHECK(tambolune_place_seconds(&table, place) == made.due.description.seconds);
            CHECK(memcmp(tambolune_place_sender(&table, place), made.frame + 6, 6) == 0);
            CHECK(memcmp(tambolune_place_lldpdu(&table, place), lldpdu_of(&made), made.due.length) == 0);
            CHECK(count_both(port, &count) == 0 && count == place % 2 + 1);
            if (made.due.description.link.present) {
                tambolune_sight sight;
                const uint8_t *address = lldpdu_of(&made) + made.due.description.link.addresses.start;
                CHECK(sight_both(address, place, &sight) == 0);
                CHECK(sight.seen == TAMBOLUNE_SOMEBODY && sight.place == place);
                CHECK(sight.interface_type.octets == made.interface_type.octets);
                CHECK(sight.interface_type.value == made.interface_type.value);
                CHECK(sight.port_number.octets == made.port_number.octets);
                CHECK(sight.port_number.value == made.port_number.value);
                CHECK(sight_both(address, place + 1, &sight) == 0 && sight.seen == TAMBOLUNE_NOBODY);
            }
            CHECK(frame_both(port, made.frame, made.octets, &reply) == 0 && reply == TAMBOLUNE_REFRESHED);
        }
    }
}

static void hear(size_t port, const struct made *m, uint8_t due)
{
    uint8_t reply;
    CHECK(frame_both(port, m->frame, m->octets, &reply) == 0 && reply == due);
}

/* One change of each kind, and of each way to be altered (D1). What is due is typed. */
static void test_changes_by_the_rules(void)
{
    static struct made neighbours[6];
    static const uint8_t ports[6] = {0, 0, 5, 9, 9, 9};
    static const tambolune_entry due[5] = {{4, 1}, {1, 2}, {4, 3}, {3, 4}, {2, 2}};
    struct changes changes;
    unsigned long kinds[5] = {0};
    start_both();
    for (size_t i = 0; i < 6; i++) {
        make(&neighbours[i], 300, 0);
    }
    for (size_t i = 0; i < 5; i++) {
        hear(ports[i], &neighbours[i], TAMBOLUNE_RECORDED);
    }
    take_look();
    /* Nothing but their seconds: the places keep their order. */
    CHECK(seconds_both(20) == 0);
    CHECK(compare_both(0, 5, &changes) == 0 && changes.count == 5);
    for (size_t i = 0; i < 5; i++) {
        CHECK(changes.entries[i].kind == TAMBOLUNE_CHANGE_SECONDS && changes.entries[i].place == i);
    }
    /* The first is as it was, the second has another sender, the third left, the fourth has other octets, and the
     * sixth takes the place that the third had (N4). */
    hear(ports[0], &neighbours[0], TAMBOLUNE_REFRESHED);
    neighbours[1].frame[11] ^= 1;
    hear(ports[1], &neighbours[1], TAMBOLUNE_REFRESHED);
    CHECK(lost_both(ports[2]) == 0);
    lldpdu_of(&neighbours[3])[neighbours[3].due.description.category.start] ^= 1;
    hear(ports[3], &neighbours[3], TAMBOLUNE_REFRESHED);
    hear(ports[5], &neighbours[5], TAMBOLUNE_RECORDED);
    for (int back = 0; back <= 1; back++) {
        CHECK(compare_both(back, 5, &changes) == 0 && changes.count == 5);
        for (size_t i = 0; i < 5; i++) {
            CHECK(SAME_STRUCTS(&changes.entries[i], &due[i], entry_rows));
        }
        CHECK(compare_both(back, 4, &changes) == 14);
    }
    compare_in_every_room(kinds);
    /* No room is so large that its octets are counted wrongly. */
    CHECK(tambolune_table_compare(&look, &table, changes.entries, SIZE_MAX / 2 + 1, &changes.count) == 0 && changes.count == 5);
}

/* A table with new neighbours in all places, four on each port. */
static void fill_table(void)
{
    start_both();
    for (size_t i = 0; i < 40; i++) {
        make(&made, 300, 0);
        hear(i % 10, &made, TAMBOLUNE_RECORDED);
    }
}

/* No list is longer than that of two full tables without a neighbour in common (D4). */
static void test_changes_of_full_tables(void)
{
    unsigned long kinds[5] = {0};
    fill_table();
    take_look();
    fill_table();
    compare_in_every_room(kinds);
    CHECK(kinds[1] == 80 && kinds[2] == 80 && kinds[3] == 0 && kinds[4] == 0);
}

/* A table with itself, and with one that is not fit: 1 goes before 14 (D4). */
static void test_changes_of_one_table(void)
{
    tambolune_entry entry = {7, 7};
    uint16_t count = 7;
    start_both();
    make(&made, 120, 1);
    hear(3, &made, TAMBOLUNE_RECORDED);
    CHECK(tambolune_table_compare(&table, &table, &entry, 1, &count) == 0 && count == 0);
    take_look();
    look.ports[0] = 10;
    count = 7;
    for (size_t space = 0; space <= 1; space++) {
        CHECK(tambolune_table_compare(&look, &look, &entry, space, &count) == 1);
        CHECK(tambolune_table_compare(&look, &table, &entry, space, &count) == 1);
        CHECK(tambolune_table_compare(&table, &look, &entry, space, &count) == 1);
    }
    CHECK(count == 7 && entry.kind == 7 && entry.place == 7);
}

/* ---- Two frames in either order ---- */

static tambolune_table table_kept;
static struct lent lent_kept;

static void keep(void)
{
    table_kept = table;
    lent_kept = lent;
}

/* What the one order left is kept as a look, and the other order begins where the first did. */
static void take_the_other_order(void)
{
    take_look();
    table = table_kept;
    lent = lent_kept;
}

/* New neighbours, each of its own chassis, so that none gets 13. */
static void hold(size_t port, unsigned count)
{
    for (unsigned i = 0; i < count; i++) {
        make(&made, 300, 0);
        hear(port, &made, TAMBOLUNE_RECORDED);
    }
}

static void hear_refused(size_t port, const struct made *m, uint8_t due)
{
    uint8_t reply;
    CHECK(frame_both(port, m->frame, m->octets, &reply) == due);
}

/* The same announcement with no seconds to live. */
static void say_goodbye(struct made *m)
{
    const tambolune_part id = m->due.description.port_id.part;
    memset(lldpdu_of(m) + id.start + id.octets + 2, 0, 2);
}

/* The three pairs of B26, with a chassis for each neighbour. What is due is typed. */
static void test_either_order(void)
{
    static struct made leaving, on_5, on_6;
    struct changes changes;
    make(&leaving, 300, 0);
    make(&on_5, 300, 0);
    make(&on_6, 300, 0);

    /* One common place is left: whoever is first gets it (E2). */
    start_both();
    for (size_t port = 0; port < 4; port++) {
        hold(port, 6);
    }
    hold(4, 5);
    hold(5, 2);
    hold(6, 2);
    keep();
    hear(5, &on_5, TAMBOLUNE_RECORDED);
    hear_refused(6, &on_6, 8);
    take_the_other_order();
    hear(6, &on_6, TAMBOLUNE_RECORDED);
    hear_refused(5, &on_5, 8);
    CHECK(compare_both(0, 2, &changes) == 0 && changes.count == 2);
    CHECK(changes.entries[0].kind == TAMBOLUNE_CHANGE_LEFT && changes.entries[1].kind == TAMBOLUNE_CHANGE_JOINED);
    CHECK(look.ports[changes.entries[0].place] == 5 && table.ports[changes.entries[1].place] == 6);

    /* None is left, and a goodbye frees one before the new one asks for it, or behind (E2). */
    start_both();
    hear(0, &leaving, TAMBOLUNE_RECORDED);
    hold(0, 5);
    for (size_t port = 1; port < 5; port++) {
        hold(port, 6);
    }
    hold(5, 2);
    keep();
    say_goodbye(&leaving);
    hear(0, &leaving, TAMBOLUNE_GONE);
    hear(5, &on_5, TAMBOLUNE_RECORDED);
    take_the_other_order();
    hear_refused(5, &on_5, 8);
    hear(0, &leaving, TAMBOLUNE_GONE);
    CHECK(compare_both(0, 1, &changes) == 0 && changes.count == 1);
    CHECK(changes.entries[0].kind == TAMBOLUNE_CHANGE_LEFT && look.ports[changes.entries[0].place] == 5);

    /* The same goodbye, and a port that holds one: the place alone differs (E3). */
    table = table_kept;
    lent = lent_kept;
    hold(6, 1);
    keep();
    hear(0, &leaving, TAMBOLUNE_GONE);
    hear(6, &on_6, TAMBOLUNE_RECORDED);
    take_the_other_order();
    hear(6, &on_6, TAMBOLUNE_RECORDED);
    hear(0, &leaving, TAMBOLUNE_GONE);
    CHECK(compare_both(0, 0, &changes) == 0 && changes.count == 0);
    CHECK(tambolune_place_used(&look, 0) == 1 && tambolune_place_used(&table, 0) == 0);
}

/* The sender of a place may be asked for as it stands in the table. */
static void test_own_sender(void)
{
    const uint8_t *sender;
    tambolune_sight sight, again;
    uint8_t reply, address[6];
    start_both();
    make(&made, 120, 1);
    CHECK(frame_both(3, made.frame, made.octets, &reply) == 0);
    sender = tambolune_place_sender(&table, 0);
    memcpy(address, sender, 6);
    CHECK(tambolune_table_who_sees(&table, sender, 0, &sight) == 0);
    CHECK(tambolune_table_who_sees(&table, address, 0, &again) == 0);
    CHECK(SAME_STRUCTS(&sight, &again, sight_rows));
}

/* Whatever a table's octets are, nobody is led out of a place. */
static void test_places_of_any_octets(void)
{
    for (unsigned turn = 0; turn < 2000; turn++) {
        fill_random(table.lengths, sizeof table.lengths);
        for (size_t i = 0; i < 40; i++) {
            size_t length = number_at(table.lengths + 2 * i, 2);
            CHECK(tambolune_place_length(&table, i) == (length <= 1500 ? length : 0));
            CHECK((tambolune_place_lldpdu(&table, i) != NULL) == (length >= 1 && length <= 1500));
        }
    }
    /* Every number of this table could be that of a used place, and so could what stands behind the last one. */
    memset(&table, 1, sizeof table);
    CHECK(tambolune_place_used(&table, 39) == 1);
    check_no_place(40);
    check_no_place(41);
    check_no_place(SIZE_MAX);
    check_no_place(SIZE_MAX / 2 + 1);
    table.lengths[0] = 1500 / 256;
    table.lengths[1] = 1500 % 256;
    CHECK(tambolune_place_length(&table, 0) == 1500 && tambolune_place_used(&table, 0) == 1);
    table.lengths[1]++;
    check_no_place(0);
}

/* ---- Lengths that are not as X2 says, and no octets ---- */

static void check_table_refused(const size_t *n)
{
    uint8_t address[6] = {2};
    CHECK(tambolune_start(TABLE(n)) == 1 && untouched());
    CHECK(tambolune_seconds_passed(TABLE(n), 1) == 1 && untouched());
    CHECK(tambolune_link_lost(TABLE(n), 10) == 1 && untouched());
    CHECK(tambolune_frame_on_port(TABLE(n), 0, made.frame, made.octets, lent.answer, 1) == 1 && untouched());
    CHECK(tambolune_frame_on_port(TABLE(n), 10, made.frame, 0, lent.answer, 1) == 1 && untouched());
    CHECK(tambolune_how_many(TABLE(n), 10, lent.answer, 1) == 1 && untouched());
    CHECK(tambolune_who_sees(TABLE(n), address, 6, 40, lent.answer, 13) == 1 && untouched());
    CHECK(tambolune_compare(TABLE(n), SLICES(look, right), lent.output, 160, lent.answer, 2) == 1 && untouched());
    CHECK(tambolune_compare(SLICES(look, right), TABLE(n), lent.output, 0, lent.answer, 2) == 1 && untouched());
}

static void test_lengths(void)
{
    uint8_t octets[86] = {0};
    start_both();
    take_look();
    make(&made, 120, 1);
    hear(0, &made, TAMBOLUNE_RECORDED);
    mark_answer();
    CHECK(tambolune_compare(SLICES(look, right), TABLE(right), lent.output, 0, lent.answer, 2) == 14 && untouched());
    for (size_t i = 0; i < 5; i++) {
        size_t n[5];
        memcpy(n, right, sizeof n);
        n[i] = right[i] - 1;
        check_table_refused(n);
        n[i] = right[i] + 1;
        check_table_refused(n);
        n[i] = 0;
        check_table_refused(n);
    }
    /* Each other slice of a fixed length, one octet too short and one too long. */
    for (size_t more = 0; more <= 2; more += 2) {
        CHECK(tambolune_frame_on_port(TABLE(right), 10, octets, 0, lent.answer, more) == 1 && untouched());
        CHECK(tambolune_how_many(TABLE(right), 10, lent.answer, more) == 1 && untouched());
        CHECK(tambolune_who_sees(TABLE(right), octets, 6, 0, lent.answer, 12 + more) == 1 && untouched());
        CHECK(tambolune_who_sees(TABLE(right), octets, 5 + more, 0, lent.answer, 13) == 1 && untouched());
        CHECK(tambolune_compare(SLICES(look, right), TABLE(right), lent.output, 0, lent.answer, 1 + more) == 1 && untouched());
        CHECK(tambolune_judge(octets, 0, lent.answer, 14 + more) == 1 && untouched());
        CHECK(tambolune_read(octets, 0, lent.answer, 2 + more, lent.description, 85) == 1 && untouched());
        CHECK(tambolune_read(octets, 0, lent.answer, 3, lent.description, 84 + more) == 1 && untouched());
        CHECK(tambolune_read_lldpdu(octets, 0, lent.answer, 2 + more, lent.description, 85) == 1 && untouched());
        CHECK(tambolune_read_lldpdu(octets, 0, lent.answer, 3, lent.description, 84 + more) == 1 && untouched());
        CHECK(tambolune_write(octets, 84 + more, made.frame, 0, lent.output, 0, lent.answer, 2) == 1 && untouched());
        CHECK(tambolune_write(octets, 85, made.frame, 0, lent.output, 0, lent.answer, 1 + more) == 1 && untouched());
        /* 1 goes before 9 too. */
        octets[32] = 2;
        CHECK(tambolune_write(octets, 85, made.frame, 0, lent.output, 0, lent.answer, 1 + more) == 1 && untouched());
        octets[32] = 0;
    }
}

static void test_no_octets(void)
{
    tambolune_judged judged;
    tambolune_reading reading;
    tambolune_description nothing;
    uint16_t written = 7, count = 7;
    uint8_t reply = 7;
    memset(&nothing, 0, sizeof nothing);
    make(&made, 120, 0);
    CHECK(tambolune_frame_judge(NULL, 0, &judged) == 3);
    CHECK(tambolune_frame_read(NULL, 0, &reading) == 3);
    CHECK(tambolune_lldpdu_read(NULL, 0, &reading) == 5);
    CHECK(tambolune_description_write(&nothing, NULL, 0, NULL, 0, &written) == 9);
    CHECK(tambolune_description_write(&made.due.description, NULL, 0, NULL, 0, &written) == 9);
    CHECK(tambolune_description_write(&made.due.description, lldpdu_of(&made), made.octets - 14, NULL, 0, &written) == 10);
    CHECK(tambolune_table_start(&table) == 0);
    CHECK(tambolune_table_frame(&table, 0, NULL, 0, &reply) == 3);
    CHECK(tambolune_table_frame(&table, 10, NULL, 0, &reply) == 2);
    CHECK(written == 7 && reply == 7);
    CHECK(tambolune_lldpdu_read(tambolune_place_lldpdu(&table, 0), tambolune_place_length(&table, 0), &reading) == 5);
    take_look();
    CHECK(tambolune_table_compare(&look, &table, NULL, 0, &count) == 0 && count == 0);
    count = 7;
    CHECK(tambolune_table_frame(&table, 0, made.frame, made.octets, &reply) == 0);
    CHECK(tambolune_table_compare(&look, &table, NULL, 0, &count) == 14 && count == 7);
}

/* Frame A of the rules (B1), and what is due of it, counted by hand. */
static void test_frame_a(void)
{
    static const uint8_t frame_a[51] = {
        0xFF, 0xFF, 0xFF, 0xFF, 0xFF, 0xFF, 0x02, 0x00, 0x00, 0x00, 0x00, 0x01, 0x88, 0xCC, /* header */
        0x02, 0x07, 0x04, 0x02, 0x00, 0x00, 0x00, 0x00, 0x01,                               /* chassis */
        0x04, 0x02, 0x07, 0x31,                                                             /* port ID */
        0x06, 0x02, 0x00, 0x78,                                                             /* seconds */
        0xFE, 0x07, 0xE0, 0x27, 0x1A, 0x01, 0x01, 0x01, 0x41,                               /* category */
        0xFE, 0x07, 0xE0, 0x27, 0x1A, 0x01, 0x04, 0x01, 0x37,                               /* model number */
        0x00, 0x00,                                                                         /* End */
    };
    tambolune_reading reading;
    tambolune_description due;
    memset(&due, 0, sizeof due);
    due.chassis.subtype = 4;
    due.chassis.part.start = 3;
    due.chassis.part.octets = 6;
    due.port_id.subtype = 7;
    due.port_id.part.start = 12;
    due.port_id.part.octets = 1;
    due.seconds = 120;
    due.category.start = 25;
    due.category.octets = 1;
    due.model_number.start = 34;
    due.model_number.octets = 1;
    memcpy(made.frame, frame_a, sizeof frame_a);
    made.octets = sizeof frame_a;
    CHECK(read_in_every_way(&made, &reading) == 0);
    CHECK(reading.length == 37 && reading.htip == TAMBOLUNE_HTIP);
    CHECK(SAME_STRUCTS(&reading.description, &due, description_rows));
    CHECK(made.frame[TAMBOLUNE_HEADER_OCTETS + reading.description.category.start] == 0x41);
}

int main(void)
{
    test_sizes();
    test_enums();
    test_description_octets();
    test_frame_a();
    test_reading();
    test_long_lldpdus();
    test_writing();
    test_table_at_random();
    test_table_by_the_rules();
    test_changes_by_the_rules();
    test_changes_of_full_tables();
    test_changes_of_one_table();
    test_either_order();
    test_own_sender();
    test_lengths();
    test_no_octets();
    test_places_of_any_octets();
    printf("header: %lu checks, each as due\n", checks);
    return 0;
}
