/*
 * Times onu_forward: the messages of a script are handed to a unit, and its frames forwarded in turns that each begin at another place.
 * It prints the hundredths of a nanosecond that a frame takes in the fastest of some turns. With `units N` in place of a script it opens N units
 * and prints the bytes of memory that each takes.
 */
#define _POSIX_C_SOURCE 199309L
#include "onu.h"

#include <stdio.h>
#include <stdlib.h>
#include <string.h>
#include <time.h>
#include <unistd.h>

enum { FRAMES = 65536, BYTES = 1 << 24, TURNS = 2000 };

static struct {
    uint16_t port;
    size_t n;
    const uint8_t *bytes;
} frames[FRAMES];

static size_t count;

static size_t put_hex(const char *digits, uint8_t *room) {
    size_t n = 0;
    for (; digits[0] > ' '; digits += 2) {
        char pair[3] = {digits[0], digits[1], 0};
        room[n++] = (uint8_t)strtoul(pair, NULL, 16);
    }
    return n;
}

static int read_script(const char *path, onu *unit) {
    static char line[20002];
    static uint8_t message[10000];
    uint8_t reply[48];
    /* The frames stand one behind another, as those of timings/forward do. */
    uint8_t *bytes = malloc(BYTES), *end = bytes;
    FILE *script = fopen(path, "r");
    if (script == NULL || bytes == NULL)
        return 1;
    while (fgets(line, sizeof line, script) != NULL) {
        if (line[0] == 'o' && onu_message(unit, message, put_hex(line + 2, message), reply) < 0)
            return 1;
        if (line[0] == 'f' && count < FRAMES && end + sizeof line / 2 < bytes + BYTES) {
            char *digits;
            frames[count].port = (uint16_t)strtoul(line + 2, &digits, 10);
            frames[count].n = put_hex(digits + 1, end);
            frames[count].bytes = end;
            end += frames[count++].n;
        }
    }
    return fclose(script);
}

static uint64_t now(void) {
    struct timespec time;
    clock_gettime(CLOCK_MONOTONIC, &time);
    return (uint64_t)time.tv_sec * 1000000000u + (uint64_t)time.tv_nsec;
}

/* A call for each of the frames from one place to another: a number that depends on each verdict. */
static size_t each(onu *unit, size_t from, size_t to, size_t sum) {
    for (size_t i = from; i < to; i++) {
        onu_verdict said;
        onu_forward(unit, frames[i].port, frames[i].bytes, frames[i].n, &said);
        sum += said.gem + said.reason + said.count + said.rest;
    }
    return sum;
}

/* One turn over the frames from a place on; what was found decides where the next begins. */
static size_t turn(onu *unit, size_t place) {
    return each(unit, 0, place, each(unit, place, count, 0));
}

static long resident(void) {
    long pages = 0, held = 0;
    FILE *file = fopen("/proc/self/statm", "r");
    if (file == NULL || fscanf(file, "%ld %ld", &pages, &held) != 2)
        return 0;
    fclose(file);
    return held * sysconf(_SC_PAGESIZE);
}

static int open_units(size_t n) {
    onu *units = calloc(n, sizeof *units);
    long before = resident();
    for (size_t i = 0; i < n; i++)
        if (onu_open(&units[i]) != 0)
            return 1;
    printf("%zu units, %ld bytes a unit\n", n, (resident() - before) / (long)n);
    return 0;
}

int main(int argc, char **argv) {
    onu unit = ONU_CELL;
    if (argc == 3 && strcmp(argv[1], "units") == 0)
        return open_units(strtoul(argv[2], NULL, 10));
    if (argc != 2 || onu_open(&unit) != 0 || read_script(argv[1], &unit) != 0 || count == 0)
        return 1;
    uint64_t least = UINT64_MAX;
    size_t place = 0;
    for (int i = 0; i < TURNS; i++) {
        uint64_t begun = now();
        place = turn(&unit, place) % count;
        uint64_t took = now() - begun;
        if (took < least)
            least = took;
    }
    printf("%.0f\n", (double)least * 100 / (double)count);
    return 0;
}
