/* tambolune.h: the calls of Tambolune for C11 and C++: frames are read and written, a table of neighbours is kept, two
 * looks at it are compared.
 * docs/RULES.md says what each call does (X1 to X7); the numbers of its rules stand in brackets here.
 *
 * The file has two layers. First the calls of the library, which take slices of octets. Behind them stand inline
 * functions with structs, whose names begin with a noun: tambolune_table_frame, tambolune_frame_read. Use these.
 *
 * For both layers:
 * - A call returns a refusal number, 0 for none. A refusal changes nothing (Q2, X4); a call on a table may write the
 *   octets that are there once more.
 * - Nothing is allocated, and the library keeps nothing between calls. Calls on different tables may run on
 *   different threads. One table is used by one thread at a time.
 * - A slice is a pointer and a number of octets. That many octets must be there.
 * - Slices that are lent in one call must not overlap, const ones neither (X7). So a frame for a table does not lie in
 *   that table, an output does not lie in its text, and tambolune_compare is not lent one table twice.
 * - No pointer is NULL. The calls of the library forbid it even with 0 octets. The inline functions allow it with 0
 *   octets, for a frame, an LLDPDU, a text and an output, and with room for 0 entries.
 */
#ifndef TAMBOLUNE_H
#define TAMBOLUNE_H

#include <stddef.h>
#include <stdint.h>
#include <string.h>

#ifdef __cplusplus
extern "C" {
#endif

/* Sizes (X2). All of the table follow from the number of ports (N1). A library that was made for another number of
 * ports refuses every table with 1. tambolune_size_ports() and those below it say what the library was made for. */
#define TAMBOLUNE_PORTS 10
#define TAMBOLUNE_PLACES (4 * TAMBOLUNE_PORTS)
#define TAMBOLUNE_PLACE_OCTETS 1500
#define TAMBOLUNE_BUFFER_OCTETS (TAMBOLUNE_PLACE_OCTETS * TAMBOLUNE_PLACES)
#define TAMBOLUNE_NUMBERS_OCTETS (2 * TAMBOLUNE_PLACES) /* the seconds; the lengths */
#define TAMBOLUNE_ADDRESS_OCTETS 6
#define TAMBOLUNE_SENDERS_OCTETS (TAMBOLUNE_ADDRESS_OCTETS * TAMBOLUNE_PLACES)
#define TAMBOLUNE_HEADER_OCTETS 14 /* of a frame, in front of its LLDPDU (F1) */
#define TAMBOLUNE_DESCRIPTION_OCTETS 85
#define TAMBOLUNE_JUDGED_OCTETS 15  /* the answer of judge */
#define TAMBOLUNE_VERDICT_OCTETS 3  /* of read and of read LLDPDU */
#define TAMBOLUNE_WRITTEN_OCTETS 2  /* of write */
#define TAMBOLUNE_REPLY_OCTETS 1    /* of frame on a port */
#define TAMBOLUNE_COUNT_OCTETS 1    /* of how many */
#define TAMBOLUNE_SIGHT_OCTETS 13   /* of who sees */
#define TAMBOLUNE_COMPARED_OCTETS 2 /* of compare */
#define TAMBOLUNE_ENTRY_OCTETS 2    /* an entry in the list of compare (D3) */
#define TAMBOLUNE_ENTRIES (2 * TAMBOLUNE_PLACES) /* the most there can be: one for each place of both tables (D4) */
#define TAMBOLUNE_LIST_OCTETS (TAMBOLUNE_ENTRY_OCTETS * TAMBOLUNE_ENTRIES)

/* The same sizes, as the library has them. */
size_t tambolune_size_ports(void);
size_t tambolune_size_places(void);
size_t tambolune_size_place(void);
size_t tambolune_size_buffer(void);
size_t tambolune_size_numbers(void);
size_t tambolune_size_senders(void);
size_t tambolune_size_address(void);
size_t tambolune_size_description(void);
size_t tambolune_size_judged(void);
size_t tambolune_size_verdict(void);
size_t tambolune_size_written(void);
size_t tambolune_size_reply(void);
size_t tambolune_size_count(void);
size_t tambolune_size_sight(void);
size_t tambolune_size_compared(void);
size_t tambolune_size_entry(void);
size_t tambolune_size_header(void);

/* Refusal numbers (R1 to R10, R13, R14). Where several are due, Q1 says which is given. */
enum tambolune_refusal {
    TAMBOLUNE_NOT_REFUSED = 0,
    TAMBOLUNE_REFUSED_UNFIT = 1,         /* a table is not fit (N5), or a slice does not have its length (X2) */
    TAMBOLUNE_REFUSED_NO_PORT = 2,       /* there is no such port */
    TAMBOLUNE_REFUSED_HEADER = 3,        /* length, destination, type or source of the frame (F1 to F4) */
    TAMBOLUNE_REFUSED_FIRST_TLVS = 4,    /* one of the first three TLVs: chassis ID, port ID, seconds (L3 to L6) */
    TAMBOLUNE_REFUSED_CUT_SHORT = 5,     /* a TLV runs past the octets, or they end before an End */
    TAMBOLUNE_REFUSED_LATER_TLV = 6,     /* a later TLV that may not stand there (L9, L10) */
    TAMBOLUNE_REFUSED_PORT_FULL = 7,     /* a new neighbour, and the port holds six */
    TAMBOLUNE_REFUSED_COMMON_TAKEN = 8,  /* a new neighbour, the port holds two to five, the common places are taken */
    TAMBOLUNE_REFUSED_DESCRIPTION = 9,   /* the description breaks a rule, or needs more than 1,500 octets */
    TAMBOLUNE_REFUSED_OUTPUT = 10,       /* the output is shorter than the LLDPDU */
    TAMBOLUNE_REFUSED_LOUD_CHASSIS = 13, /* a new neighbour, and its chassis holds three on the port (N13) */
    TAMBOLUNE_REFUSED_LIST = 14          /* the list is shorter than the entries (D4) */
};

/* What became of a frame on a port (N7). */
enum tambolune_reply {
    TAMBOLUNE_RECORDED = 1,
    TAMBOLUNE_REFRESHED = 2,
    TAMBOLUNE_GONE = 3,
    TAMBOLUNE_UNKNOWN_GOODBYE = 4
};

/* What changed of a neighbour from the first table to the second (D1). */
enum tambolune_change {
    TAMBOLUNE_CHANGE_LEFT = 1,    /* only the first has it */
    TAMBOLUNE_CHANGE_JOINED = 2,  /* only the second has it */
    TAMBOLUNE_CHANGE_SECONDS = 3, /* both have it, and nothing but the seconds left differs */
    TAMBOLUNE_CHANGE_ALTERED = 4  /* both have it, and the octets of its LLDPDU or its sender differ */
};

/* Whether a valid frame is HTIP (H1); whether a field is present (X5); whether an address is seen (X4). */
enum tambolune_verdict { TAMBOLUNE_NOT_HTIP = 0, TAMBOLUNE_HTIP = 1 };
enum tambolune_presence { TAMBOLUNE_ABSENT = 0, TAMBOLUNE_PRESENT = 1 };
enum tambolune_seen { TAMBOLUNE_NOBODY = 0, TAMBOLUNE_SOMEBODY = 1 };

/* Subtypes of a chassis (L3): six or eight octets of an address; characters of a local one. */
enum tambolune_chassis { TAMBOLUNE_CHASSIS_ADDRESS = 4, TAMBOLUNE_CHASSIS_LOCAL = 7 };

/* ---- The calls of the library (X1) ----
 *
 * Each says which refusals it gives; enum tambolune_refusal has what the numbers mean.
 * Any slice of another length than X2 says is refused with 1, before all else. Frame, LLDPDU, text, output and list
 * may have any length. Numbers in octets have their high octet first. X4 and X5 say what each octet of an answer is. */

/* A frame's LLDPDU length, verdict, chassis, port ID and seconds. Its parts count from octet 14 of the frame, where
 * the LLDPDU begins. Refusals: 1 a wrong length of the answer; 3 to 6 the frame is not valid. */
uint8_t tambolune_judge(const uint8_t *frame, size_t frame_octets, uint8_t *answer, size_t answer_octets);

/* The whole reading of a frame. Its parts count from octet 14 of the frame, where the LLDPDU begins.
 * Refusals: 1 a wrong length of answer or description; 3 to 6 the frame is not valid. */
uint8_t tambolune_read(const uint8_t *frame, size_t frame_octets, uint8_t *answer, size_t answer_octets,
                       uint8_t *description, size_t description_octets);

/* The same for an LLDPDU without a frame header, such as a place keeps. Its parts count from its first octet. No more
 * than its first 65,535 octets are looked at, since two octets of an answer cannot say where anything behind them
 * stands (X5). Refusals: 1 a wrong length of answer or description; 4 to 6 the LLDPDU is not valid, with 5 where only
 * its End is not among those octets. */
uint8_t tambolune_read_lldpdu(const uint8_t *lldpdu, size_t lldpdu_octets, uint8_t *answer, size_t answer_octets,
                              uint8_t *description, size_t description_octets);

/* Writes an LLDPDU, without a frame header. Parts count from the first octet of the text. The answer is how many
 * octets were written; those behind them stay as they were (W4).
 * Refusals: 1 a wrong length of description or answer; 9 the description breaks a rule; 10 the output is too short. */
uint8_t tambolune_write(const uint8_t *description, size_t description_octets, const uint8_t *text,
                        size_t text_octets, uint8_t *output, size_t output_octets, uint8_t *answer,
                        size_t answer_octets);

/* Empties a table, whatever its octets are (N6). Refusal: 1 a wrong length of a slice. */
uint8_t tambolune_start(uint8_t *ports, size_t ports_octets, uint8_t *seconds, size_t seconds_octets,
                        uint8_t *lengths, size_t lengths_octets, uint8_t *senders, size_t senders_octets,
                        uint8_t *buffer, size_t buffer_octets);

/* A frame came in on a port (N7). The answer is one of enum tambolune_reply.
 * Refusals: 1 a wrong length of a slice, or the table is not fit; 2 no such port; 3 to 6 the frame is not valid;
 * 7, 8 and 13 no room for a new neighbour. */
uint8_t tambolune_frame_on_port(uint8_t *ports, size_t ports_octets, uint8_t *seconds, size_t seconds_octets,
                                uint8_t *lengths, size_t lengths_octets, uint8_t *senders, size_t senders_octets,
                                uint8_t *buffer, size_t buffer_octets, size_t port, const uint8_t *frame,
                                size_t frame_octets, uint8_t *answer, size_t answer_octets);

/* So many seconds passed (N8). More than 65,535 do what 65,535 do (X6): they empty the table. A clock that was set
 * back must not come in here as a difference below 0, which is a large size_t.
 * Refusal: 1 a wrong length of a slice, or the table is not fit. */
uint8_t tambolune_seconds_passed(uint8_t *ports, size_t ports_octets, uint8_t *seconds, size_t seconds_octets,
                                 uint8_t *lengths, size_t lengths_octets, uint8_t *senders, size_t senders_octets,
                                 uint8_t *buffer, size_t buffer_octets, size_t seconds_gone);

/* The link of a port was lost: its places are freed (N9).
 * Refusals: 1 a wrong length of a slice, or the table is not fit; 2 no such port. */
uint8_t tambolune_link_lost(uint8_t *ports, size_t ports_octets, uint8_t *seconds, size_t seconds_octets,
                            uint8_t *lengths, size_t lengths_octets, uint8_t *senders, size_t senders_octets,
                            uint8_t *buffer, size_t buffer_octets, size_t port);

/* How many neighbours a port holds (N10).
 * Refusals: 1 a wrong length of a slice, or the table is not fit; 2 no such port. */
uint8_t tambolune_how_many(const uint8_t *ports, size_t ports_octets, const uint8_t *seconds, size_t seconds_octets,
                           const uint8_t *lengths, size_t lengths_octets, const uint8_t *senders,
                           size_t senders_octets, const uint8_t *buffer, size_t buffer_octets, size_t port,
                           uint8_t *answer, size_t answer_octets);

/* Who sees an address, from place `start` on (N11). A start past the last place sees nobody (X6).
 * Refusal: 1 a wrong length of a slice, or the table is not fit. */
uint8_t tambolune_who_sees(const uint8_t *ports, size_t ports_octets, const uint8_t *seconds, size_t seconds_octets,
                           const uint8_t *lengths, size_t lengths_octets, const uint8_t *senders,
                           size_t senders_octets, const uint8_t *buffer, size_t buffer_octets,
                           const uint8_t *address, size_t address_octets, size_t start, uint8_t *answer,
                           size_t answer_octets);

/* What changed from the first table to the second, which may be the older look. The list gets an entry for each
 * neighbour of which something changed (D1), in the order of D2: one of enum tambolune_change, then a place, which is
 * one of the first table where the neighbour left, and of the second for any other kind. The answer is how many there
 * are; the octets of the list behind them stay as they were. The list may have any length, and with
 * TAMBOLUNE_LIST_OCTETS it is never too short.
 * Refusals: 1 a wrong length of a slice, or a table is not fit; 14 the list is shorter than the entries. */
uint8_t tambolune_compare(const uint8_t *first_ports, size_t first_ports_octets, const uint8_t *first_seconds,
                          size_t first_seconds_octets, const uint8_t *first_lengths, size_t first_lengths_octets,
                          const uint8_t *first_senders, size_t first_senders_octets, const uint8_t *first_buffer,
                          size_t first_buffer_octets, const uint8_t *second_ports, size_t second_ports_octets,
                          const uint8_t *second_seconds, size_t second_seconds_octets,
                          const uint8_t *second_lengths, size_t second_lengths_octets,
                          const uint8_t *second_senders, size_t second_senders_octets,
                          const uint8_t *second_buffer, size_t second_buffer_octets, uint8_t *list,
                          size_t list_octets, uint8_t *answer, size_t answer_octets);

/* ---- Structs ---- */

/* The table: exactly the octets that cross to the library (X3). It has some 60 KB, so it is best static. It must be
 * started before use. Octets that are no fit table are refused with 1 by every other call, and never read wrongly.
 * Only the calls change it; tambolune_place_used and those below it say what a place holds. */
typedef struct tambolune_table {
    uint8_t ports[TAMBOLUNE_PLACES];
    uint8_t seconds[TAMBOLUNE_NUMBERS_OCTETS];
    uint8_t lengths[TAMBOLUNE_NUMBERS_OCTETS];
    uint8_t senders[TAMBOLUNE_SENDERS_OCTETS];
    uint8_t buffer[TAMBOLUNE_BUFFER_OCTETS];
} tambolune_table;

/* A part: `octets` octets from `start` on. What is read of a frame counts from octet 14 of the frame
 * (TAMBOLUNE_HEADER_OCTETS), what is read of an LLDPDU from its first octet, what is written from the first octet of
 * the text. A string that is absent reads as the part 0, 0. */
typedef struct tambolune_part {
    uint16_t start;
    uint16_t octets;
} tambolune_part;

/* A chassis or a port ID: its subtype, and its octets without the subtype (L3, L4). */
typedef struct tambolune_id {
    uint8_t subtype;
    tambolune_part part;
} tambolune_id;

/* A part that may be absent. `present` is 0 or 1; to write any other is refused with 9. */
typedef struct tambolune_optional {
    uint8_t present;
    tambolune_part part;
} tambolune_optional;

/* Link information (T7). All addresses are one part, six octets each. */
typedef struct tambolune_link {
    uint8_t present;
    tambolune_part interface_type;
    tambolune_part port_number;
    tambolune_part addresses;
} tambolune_link;

/* Capabilities (S2): what the system can do, and what of it is enabled. */
typedef struct tambolune_capabilities {
    uint8_t present;
    uint16_t can;
    uint16_t enabled;
} tambolune_capabilities;

/* Management addresses (S3, S5): how many, 0 to 4, and their parts. Those behind the count say nothing. */
typedef struct tambolune_management {
    uint8_t count;
    tambolune_part addresses[4];
} tambolune_management;

/* What an LLDPDU announces (A1), beside the octets that its parts count in. All zeros but chassis, port ID and
 * seconds is a description without any other field: absent is 0 throughout (X5). */
typedef struct tambolune_description {
    tambolune_id chassis;
    tambolune_id port_id;
    uint16_t seconds;
    tambolune_part port_description;
    tambolune_part category;
    tambolune_part manufacturer_code;
    tambolune_part model_name;
    tambolune_part model_number;
    tambolune_link link;
    tambolune_optional extension; /* its octets behind the subtype (T11, A6) */
    tambolune_optional address_list;
    tambolune_part system_name;
    tambolune_part system_description;
    tambolune_capabilities capabilities;
    tambolune_management management;
} tambolune_description;

/* The short answer on a frame. `length` is that of the LLDPDU through its End; `htip` is 0 or 1. */
typedef struct tambolune_judged {
    uint16_t length;
    uint8_t htip;
    tambolune_id chassis;
    tambolune_id port_id;
    uint16_t seconds;
} tambolune_judged;

/* The whole reading of a frame or of an LLDPDU. */
typedef struct tambolune_reading {
    uint16_t length;
    uint8_t htip;
    tambolune_description description;
} tambolune_reading;

/* An interface type or a port number: 1 to 4 octets, and their value. `00 06` and `06` differ in `octets` (A4). */
typedef struct tambolune_counted {
    uint8_t octets;
    uint32_t value;
} tambolune_counted;

/* Who sees an address. With `seen` 0 nobody does, and all the rest is 0. */
typedef struct tambolune_sight {
    uint8_t seen;
    uint16_t place;
    tambolune_counted interface_type;
    tambolune_counted port_number;
} tambolune_sight;

/* What changed of one neighbour: `kind` is one of enum tambolune_change. `place` is one of the first table where the
 * neighbour left, and of the second for any other kind; tambolune_place_port and those below it say what is there. */
typedef struct tambolune_entry {
    uint8_t kind;
    uint8_t place;
} tambolune_entry;

/* ---- Octets and structs, each way ---- */

/* Two octets as a number, and back. */
static inline uint16_t tambolune_number_from_octets(const uint8_t *octets)
{
    return (uint16_t)((uint16_t)octets[0] << 8 | octets[1]);
}

static inline void tambolune_number_to_octets(uint16_t number, uint8_t *octets)
{
    octets[0] = (uint8_t)(number >> 8);
    octets[1] = (uint8_t)(number & 255u);
}

static inline tambolune_part tambolune_part_from_octets(const uint8_t *octets)
{
    tambolune_part part;
    part.start = tambolune_number_from_octets(octets);
    part.octets = tambolune_number_from_octets(octets + 2);
    return part;
}

static inline void tambolune_part_to_octets(tambolune_part part, uint8_t *octets)
{
    tambolune_number_to_octets(part.start, octets);
    tambolune_number_to_octets(part.octets, octets + 2);
}

static inline tambolune_id tambolune_id_from_octets(const uint8_t *octets)
{
    tambolune_id id;
    id.subtype = octets[0];
    id.part = tambolune_part_from_octets(octets + 1);
    return id;
}

static inline void tambolune_id_to_octets(tambolune_id id, uint8_t *octets)
{
    octets[0] = id.subtype;
    tambolune_part_to_octets(id.part, octets + 1);
}

static inline tambolune_optional tambolune_optional_from_octets(const uint8_t *octets)
{
    tambolune_optional optional;
    optional.present = octets[0];
    optional.part = tambolune_part_from_octets(octets + 1);
    return optional;
}

static inline void tambolune_optional_to_octets(tambolune_optional optional, uint8_t *octets)
{
    octets[0] = optional.present;
    tambolune_part_to_octets(optional.part, octets + 1);
}

/* A description from its 85 octets, and back (X5). Nothing is lost either way. */
static inline tambolune_description tambolune_description_from_octets(const uint8_t *octets)
{
    tambolune_description description;
    size_t i;
    description.chassis = tambolune_id_from_octets(octets);
    description.port_id = tambolune_id_from_octets(octets + 5);
    description.seconds = tambolune_number_from_octets(octets + 10);
    description.port_description = tambolune_part_from_octets(octets + 12);
    description.category = tambolune_part_from_octets(octets + 16);
    description.manufacturer_code = tambolune_part_from_octets(octets + 20);
    description.model_name = tambolune_part_from_octets(octets + 24);
    description.model_number = tambolune_part_from_octets(octets + 28);
    description.link.present = octets[32];
    description.link.interface_type = tambolune_part_from_octets(octets + 33);
    description.link.port_number = tambolune_part_from_octets(octets + 37);
    description.link.addresses = tambolune_part_from_octets(octets + 41);
    description.extension = tambolune_optional_from_octets(octets + 45);
    description.address_list = tambolune_optional_from_octets(octets + 50);
    description.system_name = tambolune_part_from_octets(octets + 55);
    description.system_description = tambolune_part_from_octets(octets + 59);
    description.capabilities.present = octets[63];
    description.capabilities.can = tambolune_number_from_octets(octets + 64);
    description.capabilities.enabled = tambolune_number_from_octets(octets + 66);
    description.management.count = octets[68];
    for (i = 0; i < 4; i++) {
        description.management.addresses[i] = tambolune_part_from_octets(octets + 69 + 4 * i);
    }
    return description;
}

static inline void tambolune_description_to_octets(const tambolune_description *description, uint8_t *octets)
{
    size_t i;
    tambolune_id_to_octets(description->chassis, octets);
    tambolune_id_to_octets(description->port_id, octets + 5);
    tambolune_number_to_octets(description->seconds, octets + 10);
    tambolune_part_to_octets(description->port_description, octets + 12);
    tambolune_part_to_octets(description->category, octets + 16);
    tambolune_part_to_octets(description->manufacturer_code, octets + 20);
    tambolune_part_to_octets(description->model_name, octets + 24);
    tambolune_part_to_octets(description->model_number, octets + 28);
    octets[32] = description->link.present;
    tambolune_part_to_octets(description->link.interface_type, octets + 33);
    tambolune_part_to_octets(description->link.port_number, octets + 37);
    tambolune_part_to_octets(description->link.addresses, octets + 41);
    tambolune_optional_to_octets(description->extension, octets + 45);
    tambolune_optional_to_octets(description->address_list, octets + 50);
    tambolune_part_to_octets(description->system_name, octets + 55);
    tambolune_part_to_octets(description->system_description, octets + 59);
    octets[63] = description->capabilities.present;
    tambolune_number_to_octets(description->capabilities.can, octets + 64);
    tambolune_number_to_octets(description->capabilities.enabled, octets + 66);
    octets[68] = description->management.count;
    for (i = 0; i < 4; i++) {
        tambolune_part_to_octets(description->management.addresses[i], octets + 69 + 4 * i);
    }
}

/* An interface type or a port number from its five octets in the answer of who sees (X4). */
static inline tambolune_counted tambolune_counted_from_octets(const uint8_t *octets)
{
    tambolune_counted counted;
    counted.octets = octets[0];
    counted.value = (uint32_t)tambolune_number_from_octets(octets + 1) << 16 | tambolune_number_from_octets(octets + 3);
    return counted;
}

/* ---- The reader and the writer, with structs ----
 *
 * With 0 octets a pointer is not passed on, since it may be NULL: the library gets one of the function's own. */

/* Judges a frame. Refusals: 3 to 6. Parts count from frame + TAMBOLUNE_HEADER_OCTETS. */
static inline uint8_t tambolune_frame_judge(const uint8_t *frame, size_t frame_octets, tambolune_judged *judged)
{
    uint8_t answer[TAMBOLUNE_JUDGED_OCTETS];
    const uint8_t none = 0;
    uint8_t refusal = tambolune_judge(frame_octets > 0 ? frame : &none, frame_octets, answer, sizeof answer);
    if (refusal == TAMBOLUNE_NOT_REFUSED) {
        judged->length = tambolune_number_from_octets(answer);
        judged->htip = answer[2];
        judged->chassis = tambolune_id_from_octets(answer + 3);
        judged->port_id = tambolune_id_from_octets(answer + 8);
        judged->seconds = tambolune_number_from_octets(answer + 13);
    }
    return refusal;
}

/* Reads a frame. Refusals: 3 to 6. Parts count from frame + TAMBOLUNE_HEADER_OCTETS. */
static inline uint8_t tambolune_frame_read(const uint8_t *frame, size_t frame_octets, tambolune_reading *reading)
{
    uint8_t answer[TAMBOLUNE_VERDICT_OCTETS];
    uint8_t description[TAMBOLUNE_DESCRIPTION_OCTETS];
    const uint8_t none = 0;
    uint8_t refusal = tambolune_read(frame_octets > 0 ? frame : &none, frame_octets, answer, sizeof answer,
                                     description, sizeof description);
    if (refusal == TAMBOLUNE_NOT_REFUSED) {
        reading->length = tambolune_number_from_octets(answer);
        reading->htip = answer[2];
        reading->description = tambolune_description_from_octets(description);
    }
    return refusal;
}

/* Reads an LLDPDU, such as a place keeps. Refusals: 4 to 6. Parts count from `lldpdu`. */
static inline uint8_t tambolune_lldpdu_read(const uint8_t *lldpdu, size_t lldpdu_octets, tambolune_reading *reading)
{
    uint8_t answer[TAMBOLUNE_VERDICT_OCTETS];
    uint8_t description[TAMBOLUNE_DESCRIPTION_OCTETS];
    const uint8_t none = 0;
    uint8_t refusal = tambolune_read_lldpdu(lldpdu_octets > 0 ? lldpdu : &none, lldpdu_octets, answer,
                                            sizeof answer, description, sizeof description);
    if (refusal == TAMBOLUNE_NOT_REFUSED) {
        reading->length = tambolune_number_from_octets(answer);
        reading->htip = answer[2];
        reading->description = tambolune_description_from_octets(description);
    }
    return refusal;
}

/* Writes a description as an LLDPDU. Refusals: 9, 10. Parts count from `text`. 1,500 octets of output are always
 * enough (R9). `written` gets how many octets were written. */
static inline uint8_t tambolune_description_write(const tambolune_description *description, const uint8_t *text,
                                                  size_t text_octets, uint8_t *output, size_t output_octets,
                                                  uint16_t *written)
{
    uint8_t octets[TAMBOLUNE_DESCRIPTION_OCTETS];
    uint8_t answer[TAMBOLUNE_WRITTEN_OCTETS];
    const uint8_t no_text = 0;
    uint8_t no_output = 0;
    uint8_t refusal;
    tambolune_description_to_octets(description, octets);
    refusal = tambolune_write(octets, sizeof octets, text_octets > 0 ? text : &no_text, text_octets,
                              output_octets > 0 ? output : &no_output, output_octets, answer, sizeof answer);
    if (refusal == TAMBOLUNE_NOT_REFUSED) {
        *written = tambolune_number_from_octets(answer);
    }
    return refusal;
}

/* ---- The table, with structs ---- */

/* Empties a table. It is due before any other call, and mends a table that is not fit. Refusal: 1 where the library
 * was made for another number of ports. */
static inline uint8_t tambolune_table_start(tambolune_table *table)
{
    return tambolune_start(table->ports, sizeof table->ports, table->seconds, sizeof table->seconds, table->lengths,
                           sizeof table->lengths, table->senders, sizeof table->senders, table->buffer,
                           sizeof table->buffer);
}

/* A frame came in on a port. `reply` gets one of enum tambolune_reply. Refusals: 1 to 8, 13. */
static inline uint8_t tambolune_table_frame(tambolune_table *table, size_t port, const uint8_t *frame,
                                            size_t frame_octets, uint8_t *reply)
{
    uint8_t answer[TAMBOLUNE_REPLY_OCTETS];
    const uint8_t none = 0;
    uint8_t refusal = tambolune_frame_on_port(
        table->ports, sizeof table->ports, table->seconds, sizeof table->seconds, table->lengths,
        sizeof table->lengths, table->senders, sizeof table->senders, table->buffer, sizeof table->buffer, port,
        frame_octets > 0 ? frame : &none, frame_octets, answer, sizeof answer);
    if (refusal == TAMBOLUNE_NOT_REFUSED) {
        *reply = answer[0];
    }
    return refusal;
}

/* So many seconds passed since the last such call; 0 where the clock was set back. Refusal: 1. */
static inline uint8_t tambolune_table_seconds(tambolune_table *table, size_t seconds_gone)
{
    return tambolune_seconds_passed(table->ports, sizeof table->ports, table->seconds, sizeof table->seconds,
                                    table->lengths, sizeof table->lengths, table->senders, sizeof table->senders,
                                    table->buffer, sizeof table->buffer, seconds_gone);
}

/* The link of a port was lost: all its places are freed. Refusals: 1, 2. */
static inline uint8_t tambolune_table_link_lost(tambolune_table *table, size_t port)
{
    return tambolune_link_lost(table->ports, sizeof table->ports, table->seconds, sizeof table->seconds,
                               table->lengths, sizeof table->lengths, table->senders, sizeof table->senders,
                               table->buffer, sizeof table->buffer, port);
}

/* How many neighbours a port holds. Refusals: 1, 2. */
static inline uint8_t tambolune_table_how_many(const tambolune_table *table, size_t port, uint8_t *count)
{
    uint8_t answer[TAMBOLUNE_COUNT_OCTETS];
    uint8_t refusal = tambolune_how_many(table->ports, sizeof table->ports, table->seconds, sizeof table->seconds,
                                         table->lengths, sizeof table->lengths, table->senders,
                                         sizeof table->senders, table->buffer, sizeof table->buffer, port, answer,
                                         sizeof answer);
    if (refusal == TAMBOLUNE_NOT_REFUSED) {
        *count = answer[0];
    }
    return refusal;
}

/* The lowest place at or after `start` whose neighbour sees the address, which has six octets. To find them all, ask
 * again from one behind the place that was seen, until nobody is. Refusal: 1. */
static inline uint8_t tambolune_table_who_sees(const tambolune_table *table, const uint8_t *address, size_t start,
                                               tambolune_sight *sight)
{
    uint8_t answer[TAMBOLUNE_SIGHT_OCTETS];
    uint8_t own[TAMBOLUNE_ADDRESS_OCTETS];
    uint8_t refusal;
    /* A copy, so that the sender of a place may be asked for without an overlap. */
    memcpy(own, address, sizeof own);
    refusal = tambolune_who_sees(table->ports, sizeof table->ports, table->seconds, sizeof table->seconds,
                                 table->lengths, sizeof table->lengths, table->senders, sizeof table->senders,
                                 table->buffer, sizeof table->buffer, own, sizeof own, start, answer, sizeof answer);
    if (refusal == TAMBOLUNE_NOT_REFUSED) {
        sight->seen = answer[0];
        sight->place = tambolune_number_from_octets(answer + 1);
        sight->interface_type = tambolune_counted_from_octets(answer + 3);
        sight->port_number = tambolune_counted_from_octets(answer + 8);
    }
    return refusal;
}

/* What changed from the first table to the second. `entries` has room for `room` of them; TAMBOLUNE_ENTRIES are always
 * enough. It gets them in the order of D2, and `count` how many there are; what is behind them stays as it was. A table
 * may be compared with itself. Refusals: 1, 14. */
static inline uint8_t tambolune_table_compare(const tambolune_table *first, const tambolune_table *second,
                                              tambolune_entry *entries, size_t room, uint16_t *count)
{
    uint8_t list[TAMBOLUNE_LIST_OCTETS];
    uint8_t answer[TAMBOLUNE_COMPARED_OCTETS];
    size_t list_octets = TAMBOLUNE_ENTRY_OCTETS * (room < TAMBOLUNE_ENTRIES ? room : TAMBOLUNE_ENTRIES);
    uint8_t refusal;
    size_t i;
    if (first == second) {
        /* Its slices would overlap (X7). No entry is due if it is fit (D5), and another call says whether it is. */
        uint8_t held;
        refusal = tambolune_table_how_many(first, 0, &held);
        if (refusal == TAMBOLUNE_NOT_REFUSED) {
            *count = 0;
        }
        return refusal;
    }
    refusal = tambolune_compare(
        first->ports, sizeof first->ports, first->seconds, sizeof first->seconds, first->lengths,
        sizeof first->lengths, first->senders, sizeof first->senders, first->buffer, sizeof first->buffer,
        second->ports, sizeof second->ports, second->seconds, sizeof second->seconds, second->lengths,
        sizeof second->lengths, second->senders, sizeof second->senders, second->buffer, sizeof second->buffer, list,
        list_octets, answer, sizeof answer);
    if (refusal == TAMBOLUNE_NOT_REFUSED) {
        *count = tambolune_number_from_octets(answer);
        for (i = 0; i < *count; i++) {
            entries[i].kind = list[TAMBOLUNE_ENTRY_OCTETS * i];
            entries[i].place = list[TAMBOLUNE_ENTRY_OCTETS * i + 1];
        }
    }
    return refusal;
}

/* ---- One place of a table: 0 to TAMBOLUNE_PLACES - 1 ----
 *
 * These look at a table's octets and judge nothing: believe them of a started table that no call has refused with 1.
 * Of a place that is free, or that there is not, they say 0 and NULL. Port 0 is a port too, so ask first whether the
 * place is used. */

/* Octets of the LLDPDU that the place keeps. No fit table has a length above 1,500 (N5); one is taken as 0, so that
 * whoever reads as many octets as this says stays inside the place, whatever the table's octets are. */
static inline uint16_t tambolune_place_length(const tambolune_table *table, size_t place)
{
    uint16_t length = place < TAMBOLUNE_PLACES ? tambolune_number_from_octets(table->lengths + 2 * place) : 0;
    return length <= TAMBOLUNE_PLACE_OCTETS ? length : 0;
}

/* 1 for a used place, 0 for any other. */
static inline uint8_t tambolune_place_used(const tambolune_table *table, size_t place)
{
    return tambolune_place_length(table, place) > 0 ? 1 : 0;
}

static inline uint8_t tambolune_place_port(const tambolune_table *table, size_t place)
{
    return tambolune_place_used(table, place) ? table->ports[place] : 0;
}

/* The seconds left. */
static inline uint16_t tambolune_place_seconds(const tambolune_table *table, size_t place)
{
    return tambolune_place_used(table, place) ? tambolune_number_from_octets(table->seconds + 2 * place) : 0;
}

/* Six octets: the source of the frame that the record came in last (N3). They last until the table is changed. */
static inline const uint8_t *tambolune_place_sender(const tambolune_table *table, size_t place)
{
    return tambolune_place_used(table, place) ? table->senders + TAMBOLUNE_ADDRESS_OCTETS * place : NULL;
}

/* tambolune_place_length octets, to be read by tambolune_lldpdu_read. They last until the table is changed. */
static inline const uint8_t *tambolune_place_lldpdu(const tambolune_table *table, size_t place)
{
    return tambolune_place_used(table, place) ? table->buffer + TAMBOLUNE_PLACE_OCTETS * place : NULL;
}

#ifdef __cplusplus
}
#endif

#endif
