// A simulator that prints each field of a line by its own fprintf into the files of document 003, as courses have it: the
// machine of simulate.h. A file says which lines it has, so they are printed without their letters.
#include <stdio.h>

#include "machine.h"

// The files of the lines T, H, L and D: trace, hwregtrace, leds, display7seg.
FILE *printed_files[4];

static uint8_t *put_line_t(uint8_t *p, uint32_t pc, uint64_t word, const uint32_t *r)
{
    FILE *trace = printed_files[0];
    fprintf(trace, "%03X", pc);
    fprintf(trace, " %012llX", (unsigned long long)(word & 0xFFFFFFFFFFFF));
    for (int i = 0; i < 16; i++)
        fprintf(trace, " %08X", r[i]);
    fprintf(trace, "\n");
    return p;
}

static uint8_t *put_line_h(uint8_t *p, uint64_t c, int out, uint32_t a, uint32_t x)
{
    FILE *hwregtrace = printed_files[1];
    fprintf(hwregtrace, "%llu", (unsigned long long)c);
    fprintf(hwregtrace, " %s", out ? "WRITE" : "READ");
    fprintf(hwregtrace, " %s", io_names[a]);
    fprintf(hwregtrace, " %08X\n", x);
    return p;
}

static uint8_t *put_line_ld(uint8_t *p, uint8_t letter, uint64_t c, uint32_t x)
{
    FILE *file = printed_files[letter == 'L' ? 2 : 3];
    fprintf(file, "%llu", (unsigned long long)c);
    fprintf(file, " %08X\n", x);
    return p;
}

// The log is not written, so one that has room for a cycle has room for a run.
#define SIMULATE printed_run
#include "simulate.h"
