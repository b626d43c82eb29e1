// The proved run beside a simulator in C that was written for speed, from documents 01 and 02 alone.
//
// Both run the same programs and lay their log lines into a buffer of their own; the two logs and the memories must be
// equal. Then each is timed. bench/run builds and runs this file:
//
//     bench/run            runs of 1,000,000, of 100,000 and of 10,000 cycles
//     bench/run 50000      runs of so many; a short log stays in the cache
//
// Then the proved run beside a simulator that prints each field by its own fprintf (printed.c), what a run costs that is
// cut into logs of 64 KiB, and a run with an irq2 list of a million cycles.
//
// The C simulator writes all sixteen registers in each T line and keeps no text from one line to the next.
#include <stdio.h>
#include <stdlib.h>
#include <time.h>

#include "machine.h"

enum { LONG_RUN = 1000000, RUNS = 15, PIECE = 65536, MANY = 1000000, PRINTED_RUN = 100000, PRINTED_RUNS = 5 };

// The proved ones, from the fresh record: one run, which returns the log's length; and runs with this budget in all, each
// lent the log anew, which return the cycles made.
size_t simp_bench_run(const uint64_t *image, size_t image_length, uint32_t *memory, size_t memory_length, uint32_t *disk,
                      size_t disk_length, uint8_t *frame, size_t frame_length, const uint64_t *irq2, size_t irq2_length,
                      uint64_t budget, uint8_t *log, size_t log_length);
uint64_t simp_bench_runs(const uint64_t *image, size_t image_length, uint32_t *memory, size_t memory_length, uint32_t *disk,
                         size_t disk_length, uint8_t *frame, size_t frame_length, const uint64_t *irq2, size_t irq2_length,
                         uint64_t budget, uint8_t *log, size_t log_length);

// The simulator that prints, and its files of the lines T, H, L and D.
size_t printed_run(const uint64_t *image, size_t image_length, uint32_t *memory, size_t memory_length, uint32_t *disk,
                   size_t disk_length, uint8_t *frame, size_t frame_length, const uint64_t *irq2, size_t irq2_length,
                   uint64_t n, uint8_t *log, size_t log_length);
extern FILE *printed_files[4];

// ---- text

// The two hexadecimal digits of each byte and the two decimal digits of each number below 100.
static uint8_t hex_pairs[256][2];
static uint8_t decimal_pairs[100][2];

static void fill_tables(void)
{
    for (int i = 0; i < 256; i++) {
        hex_pairs[i][0] = "0123456789ABCDEF"[i / 16];
        hex_pairs[i][1] = "0123456789ABCDEF"[i % 16];
    }
    for (int i = 0; i < 100; i++) {
        decimal_pairs[i][0] = '0' + i / 10;
        decimal_pairs[i][1] = '0' + i % 10;
    }
}

static inline void put_pair(uint8_t *p, uint32_t byte)
{
    memcpy(p, hex_pairs[byte], 2);
}

// Eight hexadecimal digits.
static inline void put_word(uint8_t *p, uint32_t x)
{
    put_pair(p, x >> 24);
    put_pair(p + 2, x >> 16 & 0xFF);
    put_pair(p + 4, x >> 8 & 0xFF);
    put_pair(p + 6, x & 0xFF);
}

static inline int digit_count(uint64_t v)
{
    static const uint64_t powers[] = { 10,        100,        1000,        10000,        100000,       1000000,     10000000,
                                       100000000, 1000000000, 10000000000, 100000000000, 1000000000000 };
    int n = 1;
    while (n <= 12 && powers[n - 1] <= v)
        n++;
    return n;
}

// A number below 2^40 in decimal; returns the place after it.
static inline uint8_t *put_decimal(uint8_t *p, uint64_t v)
{
    int n = digit_count(v);
    uint8_t *end = p + n;
    uint8_t *q = end;
    while (v > 0xFFFFFFFF) {
        q -= 2;
        memcpy(q, decimal_pairs[v % 100], 2);
        v /= 100;
    }
    uint32_t rest = (uint32_t)v;
    while (rest >= 100) {
        q -= 2;
        memcpy(q, decimal_pairs[rest % 100], 2);
        rest /= 100;
    }
    if (rest >= 10)
        memcpy(q - 2, decimal_pairs[rest], 2);
    else
        q[-1] = '0' + rest;
    return end;
}

// "T", PC, the word and R0 to R15: 163 bytes.
static inline uint8_t *put_line_t(uint8_t *p, uint32_t pc, uint64_t word, const uint32_t *r)
{
    p[0] = 'T';
    p[1] = ' ';
    p[2] = hex_pairs[pc >> 8][1];
    put_pair(p + 3, pc & 0xFF);
    p[5] = ' ';
    put_pair(p + 6, word >> 40 & 0xFF);
    put_pair(p + 8, word >> 32 & 0xFF);
    put_word(p + 10, (uint32_t)word);
    p += 18;
    for (int i = 0; i < 16; i++) {
        p[0] = ' ';
        put_word(p + 1, r[i]);
        p += 9;
    }
    *p = '\n';
    return p + 1;
}

// What stands in an H line between the cycle and the value, for in and for out, with its length in the last byte. All 24
// bytes are copied; the value overwrites those that are too many.
static uint8_t middles[2][23][24];

static void fill_middles(void)
{
    for (int out = 0; out < 2; out++) {
        for (int i = 0; i < 23; i++) {
            char s[64];
            int n = snprintf(s, sizeof s, " %s %s ", out ? "WRITE" : "READ", io_names[i]);
            memcpy(middles[out][i], s, n);
            middles[out][i][23] = n;
        }
    }
}

static inline uint8_t *put_line_h(uint8_t *p, uint64_t c, int out, uint32_t a, uint32_t x)
{
    const uint8_t *middle = middles[out][a];
    p[0] = 'H';
    p[1] = ' ';
    p = put_decimal(p + 2, c);
    memcpy(p, middle, 24);
    p += middle[23];
    put_word(p, x);
    p[8] = '\n';
    return p + 9;
}

static inline uint8_t *put_line_ld(uint8_t *p, uint8_t letter, uint64_t c, uint32_t x)
{
    p[0] = letter;
    p[1] = ' ';
    p = put_decimal(p + 2, c);
    *p = ' ';
    put_word(p + 1, x);
    p[9] = '\n';
    return p + 10;
}

// The same as the proved run. It may write up to 32 bytes beyond the log.
#define SIMULATE c_run
#include "simulate.h"

// ---- the programs

enum { ZERO, IMM1, IMM2, V0, A0, A1, A2, T0, T1, T2, S0, S1, S2, GP, SP, RA };

static uint64_t encode(uint64_t op, uint64_t rd, uint64_t rs, uint64_t rt, uint64_t rm, int imm1, int imm2)
{
    return op << 40 | rd << 36 | rs << 32 | rt << 28 | rm << 24 | (uint64_t)(imm1 & 0xFFF) << 12 | (uint64_t)(imm2 & 0xFFF);
}

// out of imm2 to the I/O register imm1, in from it, and a jump to imm1.
static uint64_t set_io(int a, int x)
{
    return encode(OUT, ZERO, IMM1, ZERO, IMM2, a, x);
}

static uint64_t get_io(int rd, int a)
{
    return encode(IN, rd, IMM1, ZERO, ZERO, a, 0);
}

static uint64_t go_to(int to)
{
    return encode(BEQ, ZERO, ZERO, ZERO, IMM1, to, 0);
}

static void arithmetic(uint64_t *i)
{
    *i++ = encode(ADD, T0, ZERO, IMM1, ZERO, 1, 0);
    *i++ = encode(ADD, T0, T0, IMM1, T1, 3, 0); // 1: the loop
    *i++ = encode(SUB, T1, T0, IMM1, IMM2, 7, -900);
    *i++ = encode(MAC, T2, T0, T1, IMM1, 1103, 0);
    *i++ = encode(SLL, S0, T2, IMM1, ZERO, 3, 0);
    *i++ = encode(SRA, S1, S0, IMM1, ZERO, 5, 0);
    *i++ = encode(SRL, S2, T2, IMM1, ZERO, 9, 0);
    *i++ = encode(XOR, GP, S0, S1, S2, 0, 0);
    *i++ = encode(BGE, ZERO, GP, ZERO, IMM1, 1, 0);
    *i++ = go_to(1);
}

static void loads_and_stores(uint64_t *i)
{
    *i++ = encode(LW, T1, T0, ZERO, ZERO, 0, 0); // 0: the loop
    *i++ = encode(LW, T2, T0, IMM1, IMM2, 2047, 5);
    *i++ = encode(ADD, T1, T1, T2, T0, 0, 0);
    *i++ = encode(SW, T1, T0, ZERO, IMM2, 0, 1);
    *i++ = encode(SW, T2, T0, IMM1, T1, 2047, 0);
    *i++ = encode(ADD, T0, T0, IMM1, ZERO, 1, 0);
    *i++ = encode(AND, T0, T0, IMM1, IMM1, 2047, 0);
    *i++ = go_to(0);
}

static void input_and_output(uint64_t *i)
{
    *i++ = get_io(T0, CLKS);
    *i++ = encode(OUT, ZERO, IMM1, ZERO, T0, LEDS, 0);
    *i++ = encode(OUT, ZERO, IMM1, ZERO, T0, DISPLAY7SEG, 0);
    *i++ = get_io(T1, TIMERCURRENT);
    *i++ = go_to(0);
}

static void timer_interrupts(uint64_t *i)
{
    *i++ = set_io(IRQHANDLER, 16);
    *i++ = set_io(IRQ0ENABLE, 1);
    *i++ = set_io(TIMERMAX, 29);
    *i++ = set_io(TIMERENABLE, 1);
    *i++ = encode(ADD, T0, T0, IMM1, ZERO, 1, 0); // 4: the loop
    *i++ = encode(XOR, T1, T0, T1, IMM1, 1365, 0);
    *i++ = encode(SLL, T2, T1, IMM1, ZERO, 2, 0);
    *i++ = go_to(4);
    i += 8;
    *i++ = encode(ADD, S0, S0, IMM1, ZERO, 1, 0); // 16: the handler
    *i++ = set_io(IRQ0STATUS, 0);
    *i++ = encode(RETI, ZERO, ZERO, ZERO, ZERO, 0, 0);
}

// A command is at work in all but some ten cycles of a thousand.
static void disk_commands(uint64_t *i)
{
    *i++ = set_io(DISKBUFFER, 1024); // 0: the loop
    *i++ = encode(OUT, ZERO, IMM1, ZERO, S0, DISKSECTOR, 0);
    *i++ = set_io(DISKCMD, 1);
    *i++ = get_io(T0, DISKSTATUS);
    *i++ = encode(BNE, ZERO, T0, ZERO, IMM1, 3, 0);
    *i++ = encode(LW, T1, IMM1, ZERO, S0, 1030, 0);
    *i++ = encode(SW, T1, IMM1, ZERO, IMM2, 1031, 77);
    *i++ = encode(ADD, S0, S0, IMM1, ZERO, 1, 0);
    *i++ = encode(OUT, ZERO, IMM1, ZERO, S0, DISKSECTOR, 0);
    *i++ = set_io(DISKCMD, 2);
    *i++ = get_io(T0, DISKSTATUS);
    *i++ = encode(BNE, ZERO, T0, ZERO, IMM1, 10, 0);
    *i++ = go_to(0);
}

static const struct program {
    const char *name;
    void (*write)(uint64_t *);
} programs[] = {
    { "arithmetic", arithmetic },
    { "loads and stores", loads_and_stores },
    { "in and out", input_and_output },
    { "timer interrupts", timer_interrupts },
    { "disk", disk_commands },
};

// ---- both side by side

static uint64_t image[IMAGE];

// The irq2 list of a run.
static uint64_t irq2[MANY];
static size_t irq2_length;

// What one of the two runs on.
typedef size_t simulator(const uint64_t *, size_t, uint32_t *, size_t, uint32_t *, size_t, uint8_t *, size_t, const uint64_t *, size_t, uint64_t, uint8_t *, size_t);

struct side {
    simulator *run;
    uint32_t memory[MEMORY], disk[DISK];
    uint8_t frame[FRAME];
    uint8_t *log;
    size_t length;
    double best;
};

static struct side proved = { .run = simp_bench_run }, plain = { .run = c_run }, printed = { .run = printed_run };

static double now(void)
{
    struct timespec t;
    clock_gettime(CLOCK_PROCESS_CPUTIME_ID, &t);
    return t.tv_sec * 1e9 + t.tv_nsec;
}

static uint32_t disk_word(uint32_t i)
{
    return i * 40503u;
}

static void fill_memories(struct side *s)
{
    for (uint32_t i = 0; i < MEMORY; i++)
        s->memory[i] = i * 2654435761u;
    for (uint32_t i = 0; i < DISK; i++)
        s->disk[i] = disk_word(i);
    memset(s->frame, 0, FRAME);
}

// One run on fresh memories; returns its nanoseconds.
static double run(struct side *s, uint64_t n, size_t room)
{
    fill_memories(s);
    double from = now();
    s->length = s->run(image, IMAGE, s->memory, MEMORY, s->disk, DISK, s->frame, FRAME, irq2, irq2_length, n, s->log, room);
    return now() - from;
}

// The proved run cut into logs of 64 KiB; returns its nanoseconds.
static double run_cut(uint64_t n)
{
    fill_memories(&proved);
    double from = now();
    if (simp_bench_runs(image, IMAGE, proved.memory, MEMORY, proved.disk, DISK, proved.frame, FRAME, irq2, irq2_length, n, proved.log, PIECE) != n)
        printf("a cut run made fewer cycles\n");
    return now() - from;
}

static void print_line(const char *who, const struct side *s, size_t from)
{
    printf("  %-7s ", who);
    while (from < s->length && s->log[from] != '\n')
        putchar(s->log[from++]);
    putchar('\n');
}

// Compares logs and memories; prints the first line that differs.
static bool are_equal(const char *name)
{
    size_t shorter = proved.length < plain.length ? proved.length : plain.length, at = 0, line = 0, number = 1;
    while (at < shorter && proved.log[at] == plain.log[at]) {
        if (proved.log[at++] == '\n') {
            line = at;
            number++;
        }
    }
    if (at < proved.length || at < plain.length) {
        printf("%s: the logs differ in line %zu (%zu and %zu bytes):\n", name, number, proved.length, plain.length);
        print_line("proved:", &proved, line);
        print_line("C:", &plain, line);
        return false;
    }
    if (memcmp(proved.memory, plain.memory, sizeof plain.memory) || memcmp(proved.disk, plain.disk, sizeof plain.disk) || memcmp(proved.frame, plain.frame, sizeof plain.frame)) {
        printf("%s: the logs are equal and the memories differ\n", name);
        return false;
    }
    return true;
}

// ---- the run that prints

// Whether it prints the lines of the log, each without its letter in the file of its letter.
static bool are_printed(uint64_t n, size_t room)
{
    char *texts[4];
    size_t lengths[4], at[4] = { 0 };
    for (int i = 0; i < 4; i++)
        printed_files[i] = open_memstream(&texts[i], &lengths[i]);
    run(&printed, n, room);
    run(&plain, n, room);
    for (int i = 0; i < 4; i++)
        fclose(printed_files[i]);
    bool same = true;
    for (size_t from = 0, next; same && from < plain.length; from = next) {
        const uint8_t *line = plain.log + from, *end = memchr(line, '\n', plain.length - from);
        int i = line[0] == 'T' ? 0 : line[0] == 'H' ? 1 : line[0] == 'L' ? 2 : 3;
        size_t length = (size_t)(end - line) - 1;
        same = at[i] + length <= lengths[i] && memcmp(texts[i] + at[i], line + 2, length) == 0;
        at[i] += length;
        next = from + length + 2;
    }
    for (int i = 0; i < 4; i++) {
        same = same && at[i] == lengths[i];
        free(texts[i]);
    }
    return same;
}

// Times the proved run beside the one that prints, to files that keep nothing.
static bool compare_printed(uint64_t n, size_t room)
{
    bool equal = true;
    printf("%llu cycles a run beside one fprintf a field to /dev/null, the best of %d runs\n", (unsigned long long)n, PRINTED_RUNS);
    printf("%-18s %8s %8s %8s  %s\n", "program", "proved", "printed", "ratio", "lines");
    for (size_t k = 0; k < sizeof programs / sizeof *programs; k++) {
        memset(image, 0, sizeof image);
        programs[k].write(image);
        bool same = are_printed(n, room);
        equal = equal && same;
        for (int i = 0; i < 4; i++)
            printed_files[i] = fopen("/dev/null", "w");
        proved.best = printed.best = 1e300;
        for (int i = 0; i < PRINTED_RUNS; i++) {
            double a = run(&proved, n, room), b = run(&printed, n, room);
            proved.best = a < proved.best ? a : proved.best;
            printed.best = b < printed.best ? b : printed.best;
        }
        for (int i = 0; i < 4; i++)
            fclose(printed_files[i]);
        printf("%-18s %8.2f %8.2f %8.4f  %s\n", programs[k].name, proved.best / n, printed.best / n, proved.best / printed.best, same ? "equal" : "DIFFER");
    }
    return equal;
}

// ---- random programs, compared and not timed

static uint32_t seed = 1;

static uint32_t random_below(uint32_t n)
{
    seed ^= seed << 13;
    seed ^= seed >> 17;
    seed ^= seed << 5;
    return seed % n;
}

// Any instruction, the addresses mostly in range and the branches near, so that a program does not stop at once. One out in two
// is to a disk register, busy or not, and most stores lie where the buffers do, so that they meet words before and after these
// move.
static uint64_t random_word(void)
{
    uint32_t op = random_below(100) == 0 ? random_below(26) : random_below(HALT);
    uint32_t rd = random_below(16), rs = random_below(16), rt = random_below(16), rm = random_below(16);
    int imm1 = random_below(4096), imm2 = random_below(4096);
    if (op == RETI && random_below(8) != 0)
        op = OUT;
    if (op >= LW && op <= OUT && random_below(50) != 0) {
        rs = IMM1;
        rt = ZERO;
        rm = random_below(2) == 0 ? IMM2 : rm;
        imm1 = op <= SW ? random_below(random_below(4) == 0 ? 2048 : 256) : random_below(23);
        if (op >= IN && (imm1 == 18 || imm1 == 19))
            imm1 = DISKCMD;
        if (op == OUT && random_below(2) == 0)
            imm1 = DISKCMD + random_below(3);
        if (op >= IN && imm1 == DISKBUFFER) {
            rm = IMM2;
            imm2 = random_below(8) == 0 ? 3966 + random_below(4) : random_below(256);
        } else if (random_below(4) != 0)
            imm2 = random_below(64);
    }
    if (op >= BEQ && op <= JAL && random_below(50) != 0) {
        rm = IMM2;
        imm2 = random_below(200);
    }
    return encode(op, rd, rs, rt, rm, imm1, imm2) | (uint64_t)random_below(65536) << 48;
}

// How many words of the disk differ from those that a run began with.
static size_t written_words(const struct side *s)
{
    size_t n = 0;
    for (uint32_t i = 0; i < DISK; i++)
        n += s->disk[i] != disk_word(i);
    return n;
}

static bool compare_random(int count, size_t room)
{
    uint64_t cycles = room / MOST < 3000 ? room / MOST : 3000;
    size_t bytes = 0, words = 0;
    for (int k = 0; k < count; k++) {
        for (int i = 0; i < IMAGE; i++)
            image[i] = random_word();
        // Three in four begin with a disk command.
        if (random_below(4) != 0) {
            image[0] = set_io(DISKSECTOR, random_below(128));
            image[1] = set_io(DISKBUFFER, random_below(256));
            image[2] = set_io(DISKCMD, 1 + random_below(2));
        }
        irq2_length = 0;
        for (uint64_t c = random_below(50); c < cycles; c += 1 + random_below(400))
            irq2[irq2_length++] = c;
        // One in four meets the end of its log.
        size_t log_length = k % 4 == 0 ? cycles * MOST / 4 : cycles * MOST;
        run(&proved, cycles, log_length);
        run(&plain, cycles, log_length);
        if (!are_equal("random program"))
            return false;
        bytes += plain.length;
        words += written_words(&plain);
    }
    irq2_length = 0;
    printf("%d random programs: logs and memories equal, %zu bytes of log, %zu disk words written\n", count, bytes, words);
    return true;
}

int main(int argc, char **argv)
{
    uint64_t n = argc > 1 ? strtoull(argv[1], 0, 10) : LONG_RUN;
    if (n == 0) {
        fprintf(stderr, "usage: run [CYCLES]\n");
        return 2;
    }
    // Shorter runs are repeated more often, so that the timing takes as long.
    uint64_t runs = n < LONG_RUN ? RUNS * (LONG_RUN / n) : RUNS;
    size_t room = n * MOST;
    bool equal = true;
    fill_tables();
    fill_middles();
    room = room < PIECE ? PIECE : room;
    proved.log = malloc(room);
    plain.log = malloc(room + 32);
    if (!proved.log || !plain.log) {
        fprintf(stderr, "no memory for two logs of %zu bytes\n", room);
        return 2;
    }
    // Each page is touched before a run is timed.
    memset(proved.log, 1, room);
    memset(plain.log, 2, room);

    equal = compare_random(2000, room);
    printf("%llu cycles a run, ns a cycle, the best of %llu runs\n", (unsigned long long)n, (unsigned long long)runs);
    printf("%-18s %8s %8s %8s %10s  %s\n", "program", "proved", "C", "ratio", "log bytes", "logs");
    for (size_t k = 0; k < sizeof programs / sizeof *programs; k++) {
        memset(image, 0, sizeof image);
        programs[k].write(image);
        proved.best = plain.best = 1e300;
        for (uint64_t i = 0; i < runs; i++) {
            double a = run(&proved, n, room), b = run(&plain, n, room);
            proved.best = a < proved.best ? a : proved.best;
            plain.best = b < plain.best ? b : plain.best;
        }
        bool same = are_equal(programs[k].name);
        equal = equal && same;
        printf("%-18s %8.2f %8.2f %8.2f %10zu  %s\n", programs[k].name, proved.best / n, plain.best / n, proved.best / plain.best, plain.length, same ? "equal" : "DIFFER");
    }

    equal = compare_printed(n < PRINTED_RUN ? n : PRINTED_RUN, room) && equal;

    printf("the proved run cut into logs of 64 KiB\n");
    for (size_t k = 0; k < sizeof programs / sizeof *programs; k++) {
        memset(image, 0, sizeof image);
        programs[k].write(image);
        double whole = 1e300, cut = 1e300;
        for (uint64_t i = 0; i < runs; i++) {
            double a = run(&proved, n, room), b = run_cut(n);
            whole = a < whole ? a : whole;
            cut = b < cut ? b : cut;
        }
        printf("%-18s %8.2f uncut %8.2f cut %8.3f\n", programs[k].name, whole / n, cut / n, cut / whole);
    }

    for (size_t i = 0; i < MANY; i++)
        irq2[i] = 2 * i;
    printf("a run of one cycle, microseconds (proved, C): ");
    for (irq2_length = 0; irq2_length <= MANY; irq2_length += MANY) {
        double a = 1e300, b = 1e300;
        for (int i = 0; i < 50; i++) {
            double x = run(&proved, 1, room), y = run(&plain, 1, room);
            a = x < a ? x : a;
            b = y < b ? y : b;
        }
        printf("%s%.2f, %.2f %s", irq2_length ? "; " : "", a / 1000, b / 1000, irq2_length ? "with an irq2 list of a million cycles\n" : "with none");
    }
    return equal ? 0 : 1;
}
