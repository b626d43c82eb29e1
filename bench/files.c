// Times the proved readers and writers of memory files, of the irq2 file and of Intel HEX beside loops in C with table look-ups, and compares what they read and write. The C loops
// check each line for its digits and its LF in a first pass and fill in a second one, as a reader has to that changes nothing where it refuses; the one for Intel HEX reads once, into
// bytes of its own, which is faster there.
#include "../include/simp.h"
#include <stdio.h>
#include <stdlib.h>
#include <string.h>
#include <time.h>

enum { WORDS = 4096, DISK = 16384, FRAME = 65536, CYCLES = 100000 };

static uint8_t digit_of[256];
static char pairs[256][2];

static void tables(void) {
    memset(digit_of, 16, 256);
    for (int i = 0; i < 16; i++) digit_of[(unsigned char)"0123456789ABCDEF"[i]] = digit_of[(unsigned char)"0123456789abcdef"[i]] = (uint8_t)i;
    for (int i = 0; i < 256; i++) pairs[i][0] = "0123456789ABCDEF"[i / 16], pairs[i][1] = "0123456789ABCDEF"[i % 16];
}

// ---- C loops over the digit count; a word is w bytes wide in memory

static uint32_t c_read(const uint8_t *text, size_t n, void *memory, size_t words, size_t k, size_t w, uint64_t *place) {
    size_t p = 0, line = 0;
    *place = 0;
    while (p < n) {
        line++;
        if (line > words) return *place = line, 10;
        for (size_t i = 0; i < k; i++)
            if (p + i >= n || digit_of[text[p + i]] > 15) return *place = line, 9;
        p += k;
        if (p < n && text[p++] != '\n') return *place = line, 9;
    }
    for (size_t i = 0, at = 0; i < words; i++, at += k + 1) {
        uint64_t v = 0;
        if (at < n)
            for (size_t j = 0; j < k; j++) v = v << 4 | digit_of[text[at + j]];
        if (w == 8) ((uint64_t *)memory)[i] = v;
        else if (w == 4) ((uint32_t *)memory)[i] = (uint32_t)v;
        else ((uint8_t *)memory)[i] = (uint8_t)v;
    }
    return 0;
}

static uint32_t c_write(const void *memory, size_t words, uint8_t *text, size_t room, size_t k, size_t w, uint64_t *count) {
    *count = 0;
    if (room < (k + 1) * words) return 15;
    uint8_t *p = text;
    for (size_t i = 0; i < words; i++) {
        uint64_t v = w == 8 ? ((const uint64_t *)memory)[i] : w == 4 ? ((const uint32_t *)memory)[i] : ((const uint8_t *)memory)[i];
        for (size_t j = k; j; j -= 2, v >>= 8) memcpy(p + j - 2, pairs[v & 255], 2);
        p[k] = '\n', p += k + 1;
    }
    *count = (uint64_t)(p - text);
    return 0;
}

static uint32_t c_irq2(const uint8_t *text, size_t n, uint64_t *cycles, size_t room, uint64_t *count, uint64_t *place) {
    for (int pass = 0; pass < 2; pass++) {
        size_t p = 0, line = 0;
        uint64_t last = 0;
        *count = *place = 0;
        while (p < n) {
            line++;
            if (line > room) return *place = line, 10;
            uint64_t v = 0;
            size_t d = 0;
            for (; p < n && text[p] != '\n'; p++, d++) {
                if (d == 13 || digit_of[text[p]] > 9) return *place = line, 11;
                v = v * 10 + digit_of[text[p]];
            }
            if (d == 0 || v >= (1ull << 40) - 1) return *place = line, 11;
            if (line > 1 && v <= last) return *place = line, 12;
            last = v, p++;
            if (pass) cycles[line - 1] = v;
        }
        *count = line;
    }
    return 0;
}

// ---- C loops for Intel HEX: 44 bytes for 16 data bytes, then the end record

static uint32_t c_write_hex(const uint32_t *memory, size_t words, uint8_t *text, size_t room, uint64_t *count) {
    *count = 0;
    if (room < 11 * words + 12) return 15;
    uint8_t *p = text;
    for (size_t i = 0; i < words; i += 4) {
        unsigned address = (unsigned)(4 * i), sum = 16 + (address >> 8) + (address & 255);
        memcpy(p, ":10", 3), memcpy(p + 3, pairs[address >> 8], 2), memcpy(p + 5, pairs[address & 255], 2), memcpy(p + 7, "00", 2), p += 9;
        for (size_t k = i; k < i + 4; k++, p += 8) {
            uint32_t v = memory[k];
            memcpy(p, pairs[v >> 24], 2), memcpy(p + 2, pairs[v >> 16 & 255], 2), memcpy(p + 4, pairs[v >> 8 & 255], 2), memcpy(p + 6, pairs[v & 255], 2);
            // Two sums at once, the other in the upper half.
            sum += (v & 0xFF00FF) + (v >> 8 & 0xFF00FF);
        }
        sum += sum >> 16;
        memcpy(p, pairs[-sum & 255], 2), p[2] = '\n', p += 3;
    }
    memcpy(p, ":00000001FF\n", 12);
    *count = (uint64_t)(p + 12 - text);
    return 0;
}

static uint32_t c_read_hex(const uint8_t *text, size_t n, uint32_t *memory, size_t words, uint64_t *place) {
    static uint8_t bytes[65536 + 255];
    size_t p = 0, line = 0, next = 0;
    *place = 0;
    memset(bytes, 0, 4 * words);
    while (p < n) {
        const uint8_t *at = text + p;
        size_t left = n - p, head = 0;
        line++;
        if (left < 11 || at[0] != ':') return *place = line, 17;
        for (size_t i = 1; i < 9; i++) {
            if (digit_of[at[i]] > 15) return *place = line, 17;
            head = head << 4 | digit_of[at[i]];
        }
        size_t data = head >> 24, address = head >> 8 & 65535, type = head & 255, end = 2 * data + 11;
        if (left < end) return *place = line, 17;
        // A byte that is no digit counts 16, which is asked once for all of them.
        unsigned high = digit_of[at[end - 2]], low = digit_of[at[end - 1]], digits = high | low;
        unsigned sum = (unsigned)(data + (address >> 8) + (address & 255) + type) + (high << 4 | low);
        for (size_t i = 0; i < data; i++) {
            high = digit_of[at[9 + 2 * i]], low = digit_of[at[10 + 2 * i]];
            digits |= high | low;
            sum += bytes[address + i] = (uint8_t)(high << 4 | low);
        }
        if (digits > 15 || sum & 255) return *place = line, 17;
        if (end < left && at[end] == '\r') end++;
        if (end < left && at[end] != '\n') return *place = line, 17;
        if (type == 1) {
            if (data || end + 1 < left) return *place = line, 17;
            for (size_t i = 0; i < words; i++) memory[i] = (uint32_t)bytes[4 * i] << 24 | (uint32_t)bytes[4 * i + 1] << 16 | (uint32_t)bytes[4 * i + 2] << 8 | bytes[4 * i + 3];
            return 0;
        }
        if (type) return *place = line, 18;
        if (data && (address < next || address + data > 4 * words)) return *place = line, 19;
        if (data) next = address + data;
        p += end + 1;
    }
    return *place = line + 1, 18;
}

// Where it sees the memories behind these two, gcc makes slower code of them, the writer's by a third: they are called by pointers that it can't see through.
static uint32_t (*volatile write_hex)(const uint32_t *, size_t, uint8_t *, size_t, uint64_t *) = c_write_hex;
static uint32_t (*volatile read_hex)(const uint8_t *, size_t, uint32_t *, size_t, uint64_t *) = c_read_hex;

// ---- timed

static double now(void) {
    struct timespec t;
    clock_gettime(CLOCK_MONOTONIC, &t);
    return (double)t.tv_sec * 1e6 + (double)t.tv_nsec * 1e-3;
}

// What is written and read: the memories, then what the proved library and what C reads.
static uint64_t image[3][WORDS], cycles[3][CYCLES];
static uint32_t words[3][DISK];
static uint8_t frame[3][FRAME], text[2][14 * CYCLES];
static uint64_t count[2], place[2];

static const char *const names[] = {"write image", "read image", "write data", "read data", "write disk", "read disk", "write frame", "read frame",
                                    "write HEX data", "read HEX data", "write HEX disk", "read HEX disk", "read irq2, 100,000 cycles"};
enum { CALLS = sizeof names / sizeof *names, IRQ2 = CALLS - 1 };

// Call i of the proved library, c = 0, or in C, c = 1.
static uint32_t call(int i, int c, size_t n) {
    switch (i) {
    case 0: return c ? c_write(image[0], WORDS, text[1], sizeof *text, 12, 8, &count[1]) : simp_write_image(image[0], WORDS, text[0], sizeof *text, &count[0]);
    case 1: return c ? c_read(text[0], n, image[2], WORDS, 12, 8, &place[1]) : simp_read_image(text[0], n, image[1], WORDS, &place[0]);
    case 2: return c ? c_write(words[0], WORDS, text[1], sizeof *text, 8, 4, &count[1]) : simp_write_data(words[0], WORDS, text[0], sizeof *text, &count[0]);
    case 3: return c ? c_read(text[0], n, words[2], WORDS, 8, 4, &place[1]) : simp_read_data(text[0], n, words[1], WORDS, &place[0]);
    case 4: return c ? c_write(words[0], DISK, text[1], sizeof *text, 8, 4, &count[1]) : simp_write_disk(words[0], DISK, 0, 128, text[0], sizeof *text, &count[0]);
    case 5: return c ? c_read(text[0], n, words[2], DISK, 8, 4, &place[1]) : simp_read_disk(text[0], n, words[1], DISK, &place[0]);
    case 6: return c ? c_write(frame[0], FRAME, text[1], sizeof *text, 2, 1, &count[1]) : simp_write_frame(frame[0], FRAME, text[0], sizeof *text, &count[0]);
    case 7: return c ? c_read(text[0], n, frame[2], FRAME, 2, 1, &place[1]) : simp_read_frame(text[0], n, frame[1], FRAME, &place[0]);
    case 8: return c ? write_hex(words[0], WORDS, text[1], sizeof *text, &count[1]) : simp_write_hex_data(words[0], WORDS, text[0], sizeof *text, &count[0]);
    case 9: return c ? read_hex(text[0], n, words[2], WORDS, &place[1]) : simp_read_hex_data(text[0], n, words[1], WORDS, &place[0]);
    case 10: return c ? write_hex(words[0], DISK, text[1], sizeof *text, &count[1]) : simp_write_hex_disk(words[0], DISK, text[0], sizeof *text, &count[0]);
    case 11: return c ? read_hex(text[0], n, words[2], DISK, &place[1]) : simp_read_hex_disk(text[0], n, words[1], DISK, &place[0]);
    default: return c ? c_irq2(text[0], n, cycles[2], CYCLES, &count[1], &place[1]) : simp_read_irq2(text[0], n, cycles[1], CYCLES, &count[0], &place[0]);
    }
}

// Fills what call i is to write with a pattern.
static void forget(int i) {
    if (i != IRQ2 && i % 2 == 0) memset(text, '?', sizeof text);
    memset(image[1], 0xA5, 2 * sizeof *image), memset(words[1], 0xA5, 2 * sizeof *words), memset(frame[1], 0xA5, 2 * sizeof *frame), memset(cycles[1], 0xA5, 2 * sizeof *cycles);
}

// Whether one of two memories of so many bytes that were read is not the one that was written.
static int differs(const void *written, const void *read, const void *read_in_c, size_t bytes) {
    return memcmp(written, read, bytes) != 0 || memcmp(written, read_in_c, bytes) != 0;
}

// 1 where the two texts that call i wrote differ, or where a memory that it read is not the one that was written; else 0.
static int compare(int i) {
    switch (i) {
    case 1: return differs(image[0], image[1], image[2], sizeof *image);
    case 3: case 9: return differs(words[0], words[1], words[2], WORDS * sizeof **words);
    case 5: case 11: return differs(words[0], words[1], words[2], sizeof *words);
    case 7: return differs(frame[0], frame[1], frame[2], sizeof *frame);
    case IRQ2: return count[0] != CYCLES || count[1] != CYCLES || differs(cycles[0], cycles[1], cycles[2], sizeof *cycles);
    default: return count[0] != count[1] || memcmp(text[0], text[1], sizeof *text) != 0;
    }
}

int main(void) {
    int bad = 0;
    size_t n = 0;
    uint64_t x = 88172645463325252u;
    tables();
    for (size_t i = 0; i < FRAME; i++) {
        x ^= x << 13, x ^= x >> 7, x ^= x << 17;
        frame[0][i] = (uint8_t)x;
        if (i < DISK) words[0][i] = (uint32_t)(x >> 8);
        if (i < WORDS) image[0][i] = x & 0xFFFFFFFFFFFF;
    }
    printf("%-28s %12s %12s %6s\n", "call", "proved", "C", "ratio");
    for (int i = 0; i < CALLS; i++) {
        double least[2] = {1e9, 1e9};
        forget(i);
        if (i == IRQ2) {
            n = 0;
            for (uint64_t k = 0; k < CYCLES; k++) n += (size_t)sprintf((char *)text[0] + n, "%llu\n", (unsigned long long)(cycles[0][k] = k * 1234567 + k % 7));
        }
        for (int turn = 0; turn < 60; turn++)
            for (int c = 0; c < 2; c++) {
                double t = now();
                bad += call(i, c, n) != 0;
                t = now() - t;
                if (t < least[c]) least[c] = t;
            }
        bad += compare(i);
        n = count[0];
        printf("%-28s %9.1f us %9.1f us %6.2f\n", names[i], least[0], least[1], least[0] / least[1]);
    }
    printf("%d differences\n", bad);
    return bad != 0;
}
