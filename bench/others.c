/* Times one reading of a frame by a library, in this process: the proved read, or with -DLLDPD the decoder of lldpd.
 * usage: others FILE, where FILE has the frame. It prints the best and the median of all batches, in nanoseconds. */
#define _GNU_SOURCE
#include <stdint.h>
#include <stdio.h>
#include <stdlib.h>
#include <string.h>
#include <time.h>

#ifdef LLDPD
#include "src/daemon/lldpd.h"
#else
#include "tambolune.h"
#endif

#define BATCHES 10000
#define LONGEST_FRAME 1514

/* A batch is at least so long that the grain of the clock does not matter. */
#define BATCH_NANOSECONDS 60000.0

#ifdef LLDPD
/* What lldpd keeps of a frame is given back, as it would be when the neighbour is gone. */
static int is_read(uint8_t *frame, size_t octets)
{
    static struct lldpd_hardware hardware = {.h_mtu = 1500, .h_ifname = "port"};
    struct lldpd_chassis *chassis = NULL;
    struct lldpd_port *port = NULL;
    if (lldp_decode(NULL, (char *)frame, (int)octets, &hardware, &chassis, &port) == -1) {
        return 0;
    }
    lldpd_port_cleanup(port, 1);
    free(port);
    lldpd_chassis_cleanup(chassis, 1);
    return 1;
}
#else
static int is_read(uint8_t *frame, size_t octets)
{
    tambolune_reading reading;
    int read = tambolune_frame_read(frame, octets, &reading) == TAMBOLUNE_NOT_REFUSED;
    /* The reading has to be made although nobody looks at it. */
    __asm__ volatile("" : : "r"(&reading) : "memory");
    return read;
}
#endif

static double now(void)
{
    struct timespec time;
    clock_gettime(CLOCK_MONOTONIC, &time);
    return 1e9 * (double)time.tv_sec + (double)time.tv_nsec;
}

static double batch(uint8_t *frame, size_t octets, size_t calls)
{
    double start = now();
    for (size_t i = 0; i < calls; i++) {
        if (!is_read(frame, octets)) {
            fprintf(stderr, "others: the frame is not read\n");
            exit(1);
        }
    }
    return now() - start;
}

static int compare(const void *a, const void *b)
{
    double left = *(const double *)a, right = *(const double *)b;
    return (left > right) - (left < right);
}

int main(int count, char **arguments)
{
    static uint8_t frame[LONGEST_FRAME];
    static double times[BATCHES];
    FILE *file = count == 2 ? fopen(arguments[1], "rb") : NULL;
    size_t calls = 1;
    if (file == NULL) {
        fprintf(stderr, "usage: others FILE\n");
        return 2;
    }
    size_t octets = fread(frame, 1, sizeof frame, file);
    fclose(file);
    while (batch(frame, octets, calls) < BATCH_NANOSECONDS) {
        calls *= 2;
    }
    for (size_t i = 0; i < BATCHES; i++) {
        times[i] = batch(frame, octets, calls) / (double)calls;
    }
    qsort(times, BATCHES, sizeof times[0], compare);
    printf("%.0f %.0f\n", times[0], times[BATCHES / 2]);
    return 0;
}
