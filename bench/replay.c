/* Makes large captures for bench/replay, and runs a program for its time and its memory.
 * usage: replay make KIND MEGABYTES FILE, where KIND is announcements (frame A of six neighbours in turn, 51 octets each) or traffic (frames of
 * another protocol, 1,514 octets each, with an announcement before every 99 of them); replay run PROGRAM WORD.. */
#define _GNU_SOURCE
#include <fcntl.h>
#include <stdint.h>
#include <stdio.h>
#include <stdlib.h>
#include <string.h>
#include <sys/resource.h>
#include <sys/wait.h>
#include <time.h>
#include <unistd.h>

#define LONGEST_FRAME 1514
#define FRAMES_A_SECOND 2000
#define NEIGHBOURS 6

/* Frame A (B1) from one of two chassis with one of three port IDs each, so that one port holds all six (N12, N13). */
static const uint8_t frame_a[51] = {
    0xFF, 0xFF, 0xFF, 0xFF, 0xFF, 0xFF, 0x02, 0x00, 0x00, 0x00, 0x00, 0x01, 0x88, 0xCC, 0x02, 0x07, 0x04,
    0x02, 0x00, 0x00, 0x00, 0x00, 0x01, 0x04, 0x02, 0x07, 0x31, 0x06, 0x02, 0x00, 0x78, 0xFE, 0x07, 0xE0,
    0x27, 0x1A, 0x01, 0x01, 0x01, 0x41, 0xFE, 0x07, 0xE0, 0x27, 0x1A, 0x01, 0x04, 0x01, 0x37, 0x00, 0x00,
};

static size_t announcement(uint8_t *frame, unsigned i)
{
    memcpy(frame, frame_a, sizeof frame_a);
    frame[22] = (uint8_t)(1 + i % 2);
    frame[26] = (uint8_t)(0x31 + i % NEIGHBOURS / 2);
    return sizeof frame_a;
}

/* A frame of another protocol: the table refuses it with 3. */
static size_t other_traffic(uint8_t *frame)
{
    memset(frame, 0x55, LONGEST_FRAME);
    frame[0] = 0x02;
    frame[6] = 0x02;
    frame[12] = 0x08;
    frame[13] = 0x00;
    return LONGEST_FRAME;
}

static void put(FILE *file, uint32_t number)
{
    fwrite(&number, sizeof number, 1, file);
}

static int make(const char *kind, const char *megabytes, const char *name)
{
    uint8_t frame[LONGEST_FRAME];
    int alone = strcmp(kind, "announcements") == 0;
    if (!alone && strcmp(kind, "traffic") != 0) {
        fprintf(stderr, "there is no kind %s\n", kind);
        return 2;
    }
    uint64_t due = strtoull(megabytes, NULL, 10) * 1000000, octets = 24;
    FILE *file = fopen(name, "wb");
    if (file == NULL) {
        perror(name);
        return 1;
    }
    put(file, 0xA1B2C3D4);
    put(file, 0x00040002);
    put(file, 0);
    put(file, 0);
    put(file, 65535);
    put(file, 1);
    for (unsigned i = 0; octets < due; i++) {
        size_t n = alone || i % 100 == 0 ? announcement(frame, alone ? i : i / 100) : other_traffic(frame);
        put(file, 1700000000 + i / FRAMES_A_SECOND);
        put(file, i % FRAMES_A_SECOND * (1000000 / FRAMES_A_SECOND));
        put(file, (uint32_t)n);
        put(file, (uint32_t)n);
        fwrite(frame, 1, n, file);
        octets += 16 + n;
    }
    int failed = ferror(file);
    if (fclose(file) != 0 || failed) {
        fprintf(stderr, "%s could not be written\n", name);
        return 1;
    }
    return 0;
}

/* Prints the seconds from start to end and the most memory that was in use, in KiB. What the program prints is dropped. */
static int run(char **words)
{
    struct timespec from, to;
    struct rusage use;
    int status;
    clock_gettime(CLOCK_MONOTONIC, &from);
    pid_t child = fork();
    if (child == 0) {
        int nowhere = open("/dev/null", O_WRONLY);
        dup2(nowhere, 1);
        dup2(nowhere, 2);
        execvp(words[0], words);
        _exit(127);
    }
    if (child < 0 || wait4(child, &status, 0, &use) != child || status != 0) {
        fprintf(stderr, "%s failed\n", words[0]);
        return 1;
    }
    clock_gettime(CLOCK_MONOTONIC, &to);
    printf("%.3f %ld\n", (double)(to.tv_sec - from.tv_sec) + (double)(to.tv_nsec - from.tv_nsec) / 1e9, use.ru_maxrss);
    return 0;
}

int main(int count, char **words)
{
    if (count == 5 && strcmp(words[1], "make") == 0) {
        return make(words[2], words[3], words[4]);
    }
    if (count > 2 && strcmp(words[1], "run") == 0) {
        return run(words + 2);
    }
    fprintf(stderr, "usage: replay make KIND MEGABYTES FILE, or replay run PROGRAM WORD..\n");
    return 2;
}
