/* controller.c: keeps the neighbours of a cell's ports from the frames of a file, and says who they are.
 * A start for a program of one's own. usage: controller FILE [ADDRESS [LATER]]
 *
 * In FILE stand, frame behind frame: the port (1 octet), the length (2 octets, high first), the frame's octets.
 * LATER is such a file too. Its frames come in after a look at the table, and then it is said what has changed since.
 * Instead of a file, a controller has its ports. It calls tambolune_table_frame when a frame comes in,
 * tambolune_table_seconds once a second, and tambolune_table_link_lost when a link goes down. */
#include <ctype.h>
#include <stdio.h>
#include <stdlib.h>

#include "tambolune.h"

static tambolune_table table, look;
static uint8_t frame[65535];

static void fail(const char *what)
{
    fprintf(stderr, "controller: %s\n", what);
    exit(1);
}

/* For calls that are refused only where something else is broken. */
static void expect_no_refusal(uint8_t refusal, const char *call)
{
    if (refusal != TAMBOLUNE_NOT_REFUSED) {
        fprintf(stderr, "controller: %s was refused with %u\n", call, (unsigned)refusal);
        exit(1);
    }
}

static const char *reply_in_words(uint8_t reply)
{
    switch (reply) {
    case TAMBOLUNE_RECORDED:
        return "recorded";
    case TAMBOLUNE_REFRESHED:
        return "refreshed";
    case TAMBOLUNE_GONE:
        return "gone";
    case TAMBOLUNE_UNKNOWN_GOODBYE:
        return "unknown goodbye";
    default:
        return "a reply that tambolune.h does not have";
    }
}

static const char *change_in_words(uint8_t kind)
{
    switch (kind) {
    case TAMBOLUNE_CHANGE_LEFT:
        return "left";
    case TAMBOLUNE_CHANGE_JOINED:
        return "joined";
    case TAMBOLUNE_CHANGE_SECONDS:
        return "seconds";
    case TAMBOLUNE_CHANGE_ALTERED:
        return "altered";
    default:
        return "a change that tambolune.h does not have";
    }
}

static void take_frames(FILE *file)
{
    uint8_t head[3], refusal, reply;
    size_t got;
    while ((got = fread(head, 1, sizeof head, file)) == sizeof head) {
        size_t length = (size_t)head[1] << 8 | head[2];
        if (fread(frame, 1, length, file) < length) {
            fail("the file ends within a frame");
        }
        refusal = tambolune_table_frame(&table, head[0], frame, length, &reply);
        if (refusal == TAMBOLUNE_NOT_REFUSED) {
            printf("port %u: %s\n", (unsigned)head[0], reply_in_words(reply));
        } else {
            printf("port %u: refused %u\n", (unsigned)head[0], (unsigned)refusal);
        }
    }
    if (got > 0) {
        fail("the file ends within a frame");
    }
}

static void take_file(const char *name)
{
    FILE *file = fopen(name, "rb");
    if (file == NULL) {
        fail("the file cannot be opened");
    }
    take_frames(file);
    if (ferror(file) || fclose(file) != 0) {
        fail("the file cannot be read");
    }
}

static void print_octets(const uint8_t *octets, size_t count)
{
    for (size_t i = 0; i < count; i++) {
        printf("%s%02X", i > 0 ? "-" : "", (unsigned)octets[i]);
    }
}

static void print_id(const uint8_t *lldpdu, tambolune_id id)
{
    printf("%u ", (unsigned)id.subtype);
    print_octets(lldpdu + id.part.start, id.part.octets);
}

static void print_place(const tambolune_table *of, size_t place)
{
    const uint8_t *lldpdu = tambolune_place_lldpdu(of, place);
    tambolune_reading reading;
    expect_no_refusal(tambolune_lldpdu_read(lldpdu, tambolune_place_length(of, place), &reading), "read");
    printf("place %zu: port %u, %u seconds left, chassis ", place, (unsigned)tambolune_place_port(of, place),
           (unsigned)tambolune_place_seconds(of, place));
    print_id(lldpdu, reading.description.chassis);
    printf(", port ID ");
    print_id(lldpdu, reading.description.port_id);
    printf(", sender ");
    print_octets(tambolune_place_sender(of, place), TAMBOLUNE_ADDRESS_OCTETS);
    printf("\n");
}

static void print_who_sees(const uint8_t *address)
{
    tambolune_sight sight;
    printf("who sees ");
    print_octets(address, TAMBOLUNE_ADDRESS_OCTETS);
    expect_no_refusal(tambolune_table_who_sees(&table, address, 0, &sight), "who sees");
    printf(sight.seen == TAMBOLUNE_SOMEBODY ? ":" : ": nobody");
    while (sight.seen == TAMBOLUNE_SOMEBODY) {
        /* Both numbers have as many octets as they say: 0006 is not 06. */
        printf(" place %u (interface type %0*lX, port number %0*lX)", (unsigned)sight.place,
               2 * sight.interface_type.octets, (unsigned long)sight.interface_type.value,
               2 * sight.port_number.octets, (unsigned long)sight.port_number.value);
        expect_no_refusal(tambolune_table_who_sees(&table, address, sight.place + 1u, &sight), "who sees");
    }
    printf("\n");
}

static void print_changes(void)
{
    tambolune_entry entries[TAMBOLUNE_ENTRIES];
    uint16_t count;
    expect_no_refusal(tambolune_table_compare(&look, &table, entries, TAMBOLUNE_ENTRIES, &count), "compare");
    for (size_t i = 0; i < count; i++) {
        printf("%s ", change_in_words(entries[i].kind));
        /* Who left is only in the look; its place may have somebody else by now. */
        print_place(entries[i].kind == TAMBOLUNE_CHANGE_LEFT ? &look : &table, entries[i].place);
    }
}

/* Six pairs of hex digits joined by `-`, and nothing else. */
static int parse_address(const char *text, uint8_t *address)
{
    for (size_t i = 0; i < TAMBOLUNE_ADDRESS_OCTETS; i++, text += 3) {
        char behind = i + 1 < TAMBOLUNE_ADDRESS_OCTETS ? '-' : '\0';
        if (!isxdigit((unsigned char)text[0]) || !isxdigit((unsigned char)text[1]) || text[2] != behind) {
            return 0;
        }
        address[i] = (uint8_t)strtoul(text, NULL, 16);
    }
    return 1;
}

int main(int count, char **words)
{
    uint8_t address[TAMBOLUNE_ADDRESS_OCTETS];
    if (count < 2 || count > 4 || (count >= 3 && !parse_address(words[2], address))) {
        fprintf(stderr, "usage: controller FILE [ADDRESS [LATER]], an address as in 02-00-00-00-00-01\n");
        return 2;
    }
    expect_no_refusal(tambolune_table_start(&table), "start");
    take_file(words[1]);
    for (size_t place = 0; place < TAMBOLUNE_PLACES; place++) {
        if (tambolune_place_used(&table, place)) {
            print_place(&table, place);
        }
    }
    if (count >= 3) {
        print_who_sees(address);
    }
    if (count == 4) {
        look = table;
        take_file(words[3]);
        print_changes();
    }
    if (fflush(stdout) != 0 || ferror(stdout)) {
        fail("the output cannot be written");
    }
    return 0;
}
