// The proved saving and reading of a record beside a plain packer in C, from documents 01 and 02 alone, and the save beside
// the one before change (iii).
//
// "Before" is the proved save as it was before it built words of 32 bits, of edition 2 like the others: it builds the bytes
// one at a time, and its test of widths asks all 45 fields. The library no longer has it; crate bench_saved keeps it, in
// by_bytes.rt, for this file.
//
// All three save random records, sound and unsound; the library and C read what was saved, records of edition 1, and random
// bytes. Bytes and answers must be equal. Then each is timed, with its test of soundness. bench/saved builds and runs this
// file:
//
//     bench/saved            runs of 100,000 saves and of as many readings
//     bench/saved 5000       runs of so many
//
// The C packer goes through a table of widths with an accumulator.
#include <stdbool.h>
#include <stdint.h>
#include <stdio.h>
#include <stdlib.h>
#include <string.h>
#include <time.h>

// The bytes of edition 2 and of edition 1.
enum { BYTES = 94, OLD_BYTES = 91, ROOM = BYTES + 1, REGISTERS = 13, IO = 23, RUNS = 200, RECORDS = 400000 };

// The proved ones. Saves a record at its age and at each after it below `to`, and returns how many saves were accepted.
// by_bytes chooses the save before change (iii).
uint64_t simp_bench_saves(uint32_t status, uint32_t handler, uint32_t pc, uint64_t age, uint32_t left, uint32_t sector, uint32_t buffer,
                          const uint32_t *regs, const uint32_t *io, bool by_bytes, uint64_t to, uint8_t *bytes, size_t bytes_length);
// Reads bytes n times, saves the record that was read last to `out`, and returns how many readings were accepted.
uint64_t simp_bench_loads(const uint8_t *bytes, size_t bytes_length, uint64_t n, uint8_t *out, size_t out_length);

// ---- the packer in C

struct record {
    uint32_t status, handler, pc, left, sector, buffer;
    uint64_t age;
    uint32_t regs[REGISTERS], io[IO];
};

enum { EDITION, STATUS, HANDLER, PC, AGE, LEFT, SECTOR, BUFFER, REGS, IOS = REGS + REGISTERS, LAST = IOS + IO, FIELDS };
enum { DISKCMD = 14, DISKSTATUS = 17 };

// The fields' bits: edition, status, flag, PC, age, left, sector, buffer, R3 to R15, the I/O registers, the bits at the end. 18, 19
// and 22 hold 0 and have none.
static const uint8_t widths[FIELDS] = {
    8, 3, 1, 12, 40, 11, 7, 12,
    32, 32, 32, 32, 32, 32, 32, 32, 32, 32, 32, 32, 32,
    1, 1, 1, 1, 1, 1, 12, 12, 32, 32, 32, 1, 32, 32, 2, 7, 12, 1, 0, 0, 16, 8, 0,
    5,
};

// Those of edition 1, which has no sector, no buffer and no bits at the end.
static const uint8_t old_widths[FIELDS] = {
    8, 3, 1, 12, 40, 11, 0, 0,
    32, 32, 32, 32, 32, 32, 32, 32, 32, 32, 32, 32, 32,
    1, 1, 1, 1, 1, 1, 12, 12, 32, 32, 32, 1, 32, 32, 2, 7, 12, 1, 0, 0, 16, 8, 0,
    0,
};

static inline bool is_sound(const uint64_t *f)
{
    for (int i = 0; i < FIELDS; i++)
        if (f[i] >> widths[i])
            return false;
    uint64_t command = f[IOS + DISKCMD];
    bool busy = f[LEFT] > 0;
    if (busy ? f[BUFFER] > 3968 : (f[SECTOR] | f[BUFFER]) != 0)
        return false;
    return f[STATUS] <= 5 && f[LEFT] <= 1024 && busy == (f[IOS + DISKSTATUS] == 1) && busy == (command == 1 || command == 2) && command != 3 && f[LAST] == 0;
}

static inline void pack(const uint64_t *f, const uint8_t *bits, uint8_t *bytes)
{
    uint64_t held = 0;
    unsigned count = 0;
    for (int i = 0; i < FIELDS; i++) {
        held = held << bits[i] | f[i];
        count += bits[i];
        while (count >= 8) {
            count -= 8;
            *bytes++ = held >> count;
        }
    }
}

static inline void unpack(const uint8_t *bytes, const uint8_t *bits, uint64_t *f)
{
    uint64_t held = 0;
    unsigned count = 0;
    for (int i = 0; i < FIELDS; i++) {
        while (count < bits[i]) {
            held = held << 8 | *bytes++;
            count += 8;
        }
        count -= bits[i];
        f[i] = held >> count & (((uint64_t)1 << bits[i]) - 1);
    }
}

static inline void fields_of(const struct record *r, uint64_t edition, uint64_t *f)
{
    f[EDITION] = edition;
    f[STATUS] = r->status;
    f[HANDLER] = r->handler;
    f[PC] = r->pc;
    f[AGE] = r->age;
    f[LEFT] = r->left;
    f[SECTOR] = r->sector;
    f[BUFFER] = r->buffer;
    for (int i = 0; i < REGISTERS; i++)
        f[REGS + i] = r->regs[i];
    for (int i = 0; i < IO; i++)
        f[IOS + i] = r->io[i];
    f[LAST] = 0;
}

static inline bool c_save(const struct record *r, uint8_t *bytes, size_t length)
{
    uint64_t f[FIELDS];
    if (length != BYTES)
        return false;
    fields_of(r, 2, f);
    if (!is_sound(f))
        return false;
    pack(f, widths, bytes);
    return true;
}

// The fresh record, with a no.
static inline bool refuse(struct record *r)
{
    memset(r, 0, sizeof *r);
    return false;
}

static inline bool c_load(const uint8_t *bytes, size_t length, struct record *r)
{
    uint64_t f[FIELDS];
    if (length == BYTES) {
        unpack(bytes, widths, f);
        if (f[EDITION] != 2 || !is_sound(f))
            return refuse(r);
    } else if (length == OLD_BYTES) {
        unpack(bytes, old_widths, f);
        if (f[EDITION] != 1 || !is_sound(f) || f[LEFT] > 0)
            return refuse(r);
    } else {
        return refuse(r);
    }
    r->status = f[STATUS];
    r->handler = f[HANDLER];
    r->pc = f[PC];
    r->age = f[AGE];
    r->left = f[LEFT];
    r->sector = f[SECTOR];
    r->buffer = f[BUFFER];
    for (int i = 0; i < REGISTERS; i++)
        r->regs[i] = f[REGS + i];
    for (int i = 0; i < IO; i++)
        r->io[i] = f[IOS + i];
    return true;
}

// As the proved functions do: n saves, each of a record a cycle older, and n readings.
__attribute__((noinline)) uint64_t c_saves(const struct record *first, uint64_t n, uint8_t *bytes, size_t length)
{
    struct record r = *first;
    uint64_t to = r.age + n, done = 0;
    for (; r.age < to; r.age++)
        done += c_save(&r, bytes, length);
    return done;
}

__attribute__((noinline)) uint64_t c_loads(const uint8_t *bytes, size_t bytes_length, uint64_t n, uint8_t *out, size_t out_length)
{
    struct record r = { 0 };
    uint64_t done = 0;
    for (uint64_t i = 0; i < n; i++)
        done += c_load(bytes, bytes_length, &r);
    c_save(&r, out, out_length);
    return done;
}

// ---- random records

static uint64_t seed = 1;

static uint64_t draw(void)
{
    seed ^= seed << 13;
    seed ^= seed >> 7;
    seed ^= seed << 17;
    return seed;
}

static uint64_t random_below(uint64_t n)
{
    return (draw() >> 8) % n;
}

// At most `width` bits, often few.
static uint64_t random_bits(unsigned width)
{
    return width == 0 ? 0 : draw() >> (64 - width) >> (random_below(2) ? random_below(width) : 0);
}

static void random_sound(struct record *r)
{
    bool busy = random_below(2);
    r->status = random_below(6);
    r->handler = random_bits(1);
    r->pc = random_bits(12);
    r->age = random_bits(40);
    r->left = busy ? 1 + random_below(1024) : 0;
    r->sector = busy ? random_below(128) : 0;
    r->buffer = busy ? random_below(3969) : 0;
    for (int i = 0; i < REGISTERS; i++)
        r->regs[i] = random_bits(32);
    for (int i = 0; i < IO; i++)
        r->io[i] = random_bits(widths[IOS + i]);
    r->io[DISKCMD] = busy ? 1 + random_below(2) : 0;
    r->io[DISKSTATUS] = busy;
}

// Changes one thing, mostly to what is not sound.
static void spoil(struct record *r)
{
    int i = random_below(IO);
    switch (random_below(13)) {
    case 0: r->status = 4 + random_below(5); break;
    case 1: r->handler ^= 1u << random_below(32); break;
    case 2: r->pc ^= 1u << random_below(32); break;
    case 3: r->age ^= (uint64_t)1 << random_below(64); break;
    case 4: r->left = 1020 + random_below(10); break;
    case 5: r->left ^= 1u << random_below(32); break;
    case 6: r->io[DISKCMD] = random_below(5); break;
    case 7: r->io[DISKSTATUS] = random_below(3); break;
    case 8: r->sector = 126 + random_below(4); break;
    case 9: r->sector ^= 1u << random_below(32); break;
    case 10: r->buffer = 3966 + random_below(5); break;
    case 11: r->buffer ^= 1u << random_below(32); break;
    default: r->io[i] ^= 1u << random_below(32);
    }
}

// ---- all side by side

// Save a record n times, each time a cycle older, or read bytes n times; return how many times were accepted.
typedef uint64_t saver(const struct record *r, uint64_t n, uint8_t *bytes, size_t length);
typedef uint64_t loader(const uint8_t *bytes, size_t length, uint64_t n, uint8_t *out, size_t out_length);

static uint64_t proved_saves(const struct record *r, uint64_t n, uint8_t *bytes, size_t length)
{
    return simp_bench_saves(r->status, r->handler, r->pc, r->age, r->left, r->sector, r->buffer, r->regs, r->io, false, r->age + n, bytes, length);
}

static uint64_t before_saves(const struct record *r, uint64_t n, uint8_t *bytes, size_t length)
{
    return simp_bench_saves(r->status, r->handler, r->pc, r->age, r->left, r->sector, r->buffer, r->regs, r->io, true, r->age + n, bytes, length);
}

static bool differ(const char *what, uint64_t number)
{
    printf("%s, random record %llu: bytes or answers DIFFER\n", what, (unsigned long long)number);
    return false;
}

// Random bytes.
static void fill(uint8_t *bytes)
{
    for (int i = 0; i < ROOM; i++)
        bytes[i] = draw() >> 8;
}

// Whether a saver answers as C did, and makes of the bytes `from` what C made of them.
static bool saves_alike(saver *f, const struct record *r, size_t length, const uint8_t *from, uint64_t done, const uint8_t *bytes)
{
    uint8_t a[ROOM];
    memcpy(a, from, ROOM);
    return f(r, 1, a, length) == done && !memcmp(a, bytes, ROOM);
}

// Saves a random record, every other one spoiled; leaves the bytes.
static bool compare_saving(uint64_t number, size_t length, uint8_t *bytes, uint64_t *saved)
{
    struct record r;
    uint8_t from[ROOM];
    random_sound(&r);
    if (number % 2)
        spoil(&r);
    fill(from);
    memcpy(bytes, from, ROOM);
    uint64_t done = c_saves(&r, 1, bytes, length);
    *saved += done;
    if (!saves_alike(proved_saves, &r, length, from, done, bytes))
        return differ("saving, proved and C", number);
    return saves_alike(before_saves, &r, length, from, done, bytes) || differ("saving, before and C", number);
}

// The bytes of a record in edition 1, whose sector and buffer are left out.
static void save_old(const struct record *r, uint8_t *bytes)
{
    uint64_t f[FIELDS];
    fields_of(r, 1, f);
    f[SECTOR] = f[BUFFER] = 0;
    pack(f, old_widths, bytes);
}

// Makes bytes to be read of those that were saved, and gives their length. Of eight, three are as they were saved, one has a
// bit changed, one is random behind the edition. Three are records of edition 1, half of them busy: two as they are, one with
// a bit changed or random behind the edition. Some have the other edition's length, some another edition's mark.
static size_t make_readable(uint64_t number, size_t length, uint8_t *bytes)
{
    struct record r;
    uint8_t noise[ROOM];
    fill(noise);
    if (number % 8 >= 5) {
        random_sound(&r);
        save_old(&r, bytes);
        length = length == BYTES ? OLD_BYTES : length;
    }
    if (number % 8 == 3 || number % 16 == 7)
        bytes[random_below(length)] ^= 1u << random_below(8);
    if (number % 8 == 4 || number % 16 == 15)
        memcpy(bytes + 1, noise, ROOM - 1);
    if (random_below(30) == 0)
        bytes[0] = random_below(4);
    if (random_below(30) == 0)
        length = length == BYTES ? OLD_BYTES : BYTES;
    return length;
}

// Reads such bytes.
static bool compare_reading(uint64_t number, size_t length, uint8_t *bytes, uint64_t read[2])
{
    uint8_t a[ROOM], b[ROOM];
    fill(a);
    memcpy(b, a, ROOM);
    length = make_readable(number, length, bytes);
    uint64_t done = c_loads(bytes, length, 1, b, BYTES);
    read[length == OLD_BYTES] += done;
    return (simp_bench_loads(bytes, length, 1, a, BYTES) == done && !memcmp(a, b, ROOM)) || differ("reading, proved and C", number);
}

static bool compare_random(void)
{
    uint64_t saved = 0, read[2] = { 0 };
    for (uint64_t k = 0; k < RECORDS; k++) {
        // Some lengths are too few or one too many.
        size_t length = random_below(50) ? BYTES : BYTES - 4 + random_below(6);
        uint8_t bytes[ROOM];
        if (!compare_saving(k, length, bytes, &saved) || !compare_reading(k, length, bytes, read))
            return false;
    }
    printf("%d random records, bytes and answers equal: %llu saved, %llu refused\n", RECORDS, (unsigned long long)saved, (unsigned long long)(RECORDS - saved));
    printf("%d times random bytes, bytes and answers equal: %llu read, %llu of edition 1 read, %llu refused\n", RECORDS, (unsigned long long)read[0],
           (unsigned long long)read[1], (unsigned long long)(RECORDS - read[0] - read[1]));
    return true;
}

static double now(void)
{
    struct timespec t;
    clock_gettime(CLOCK_PROCESS_CPUTIME_ID, &t);
    return t.tv_sec * 1e9 + t.tv_nsec;
}

static double time_saves(saver *f, const struct record *r, uint64_t n, uint8_t *bytes)
{
    double from = now();
    if (f(r, n, bytes, BYTES) != n)
        printf("a save was refused\n");
    return now() - from;
}

static double time_loads(loader *f, const uint8_t *bytes, size_t length, uint64_t n, uint8_t *out)
{
    double from = now();
    if (f(bytes, length, n, out, BYTES) != n)
        printf("a reading was refused\n");
    return now() - from;
}

static double least(double a, double b)
{
    return a < b ? a : b;
}

static void print_header(uint64_t n)
{
    printf("%llu turns a run, ns a turn, the best of %d runs\n", (unsigned long long)n, RUNS);
    printf("proved: the library; before: the save as it was before change (iii)\n");
    printf("goals of a save: proved/before at most 0.50, proved/C at most 0.80\n");
    printf("%-8s %8s %8s %8s %14s %9s  %s\n", "", "proved", "before", "C", "proved/before", "proved/C", "bytes");
}

static const char *equal(bool same)
{
    return same ? "equal" : "DIFFER";
}

// Times the three saves, prints their row and leaves the bytes.
static bool measure_saves(const struct record *r, uint64_t n, uint8_t *bytes)
{
    uint8_t a[BYTES] = { 0 }, b[BYTES] = { 0 };
    double proved = 1e300, before = 1e300, plain = 1e300;
    for (int i = 0; i < RUNS; i++) {
        proved = least(proved, time_saves(proved_saves, r, n, a));
        before = least(before, time_saves(before_saves, r, n, b));
        plain = least(plain, time_saves(c_saves, r, n, bytes));
    }
    bool same = !memcmp(a, bytes, BYTES) && !memcmp(b, bytes, BYTES);
    printf("%-8s %8.2f %8.2f %8.2f %14.2f %9.2f  %s\n", "save", proved / n, before / n, plain / n, proved / before, proved / plain, equal(same));
    return same;
}

// Times the two readings and prints their row; it has no time before.
static bool measure_loads(const char *name, const uint8_t *bytes, size_t length, uint64_t n)
{
    uint8_t a[BYTES] = { 0 }, b[BYTES] = { 0 };
    double proved = 1e300, plain = 1e300;
    for (int i = 0; i < RUNS; i++) {
        proved = least(proved, time_loads(simp_bench_loads, bytes, length, n, a));
        plain = least(plain, time_loads(c_loads, bytes, length, n, b));
    }
    bool same = !memcmp(a, b, BYTES) && (length != BYTES || !memcmp(b, bytes, BYTES));
    printf("%-8s %8.2f %8s %8.2f %14s %9.2f  %s\n", name, proved / n, "", plain / n, "", proved / plain, equal(same));
    return same;
}

int main(int argc, char **argv)
{
    uint64_t n = argc > 1 ? strtoull(argv[1], 0, 10) : 100000;
    if (n == 0) {
        fprintf(stderr, "usage: saved [TURNS]\n");
        return 2;
    }
    if (!compare_random())
        return 1;

    // Both busy and free are sound; edition 1 is read where the disk is free.
    struct record r, old;
    uint8_t bytes[BYTES] = { 0 }, old_bytes[ROOM] = { 0 };
    do
        random_sound(&r);
    while (r.left == 0);
    do
        random_sound(&old);
    while (old.left > 0);
    r.age = 1000000;
    save_old(&old, old_bytes);
    print_header(n);
    bool same = measure_saves(&r, n, bytes);
    same = measure_loads("load", bytes, BYTES, n) && same;
    same = measure_loads("load 91", old_bytes, OLD_BYTES, n) && same;
    return same ? 0 : 1;
}
