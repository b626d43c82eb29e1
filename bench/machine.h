// The machine's sizes, its limit and its I/O registers, for the simulators in C.
#include <stdbool.h>
#include <stddef.h>
#include <stdint.h>
#include <string.h>

enum { IMAGE = 4096, MEMORY = 4096, DISK = 16384, FRAME = 65536, SECTOR = 128, MOST = 231 };

// A disk command takes so many cycles, a word of it so many.
enum { COMMAND_CYCLES = 1024, WORD_CYCLES = COMMAND_CYCLES / SECTOR };

static const uint64_t LIMIT = 0xFFFFFFFFFF; // 2^40 - 1

enum {
    IRQ0ENABLE, IRQ1ENABLE, IRQ2ENABLE, IRQ0STATUS, IRQ1STATUS, IRQ2STATUS, IRQHANDLER, IRQRETURN, CLKS, LEDS,
    DISPLAY7SEG, TIMERENABLE, TIMERCURRENT, TIMERMAX, DISKCMD, DISKSECTOR, DISKBUFFER, DISKSTATUS,
    MONITORADDR = 20, MONITORDATA, MONITORCMD
};

static const char io_names[23][16] = {
    "irq0enable", "irq1enable", "irq2enable",   "irq0status", "irq1status", "irq2status", "irqhandler", "irqreturn",
    "clks",       "leds",       "display7seg",  "timerenable", "timercurrent", "timermax", "diskcmd",   "disksector",
    "diskbuffer", "diskstatus", "",             "",            "monitoraddr", "monitordata", "monitorcmd",
};
