// Times the proved assembler and lister beside an assembler and a lister in C, on full programs and on the worst texts that we could think of, and
// compares their answers, images, data memories and listings on these and on random texts. The C side is written for speed from the papers alone: byte
// classes in a table, each line split once, names and labels by hashing, one buffer.
#include <stdint.h>
#include <stdio.h>
#include <stdlib.h>
#include <string.h>
#include <time.h>

uint32_t simp_assemble(const uint8_t *source, size_t n, uint64_t *image, size_t, uint32_t *memory, size_t, uint64_t *place);
uint32_t simp_list(const uint64_t *words, size_t n, uint8_t *text, size_t room, uint64_t *count, uint64_t *place);

enum { WORDS = 4096, MOST = 262144, LABELS = 87383, BUCKETS = 4096 };

// ---- the assembler in C

enum { BLANK = 1, LETTER = 2, DIGIT = 4, GRAPH = 8 };
static uint8_t class_of[256], digit_of[256];

static const char *const ops[22] = {"add", "sub", "mac", "and", "or",  "xor", "sll", "sra",  "srl", "beq", "bne",
                                    "blt", "bgt", "ble", "bge", "jal", "lw",  "sw",  "reti", "in",  "out", "halt"};
static const char *const regs[16] = {"$zero", "$imm1", "$imm2", "$v0", "$a0", "$a1", "$a2", "$t0", "$t1", "$t2", "$s0", "$s1", "$s2", "$gp", "$sp", "$ra"};
static int8_t op_slot[1024], reg_slot[1024];

static unsigned name_slot(const uint8_t *t, size_t n) {
    return (t[n > 1 ? 1 : 0] * 7u + t[n - 1] * 31u + t[n > 2 ? 2 : 0] * 5u + (unsigned)n) % 1024;
}

static int fill(int8_t *slot, const char *const *names, int count) {
    memset(slot, -1, 1024);
    for (int i = 0; i < count; i++) {
        unsigned h = name_slot((const uint8_t *)names[i], strlen(names[i]));
        while (slot[h] >= 0) h = (h + 1) % 1024;
        slot[h] = (int8_t)i;
    }
    return count;
}

static int find_name(const int8_t *slot, const char *const *names, const uint8_t *t, size_t n) {
    for (unsigned h = name_slot(t, n); slot[h] >= 0; h = (h + 1) % 1024)
        if (strlen(names[slot[h]]) == n && memcmp(names[slot[h]], t, n) == 0) return slot[h];
    return -1;
}

static void tables(void) {
    for (int c = 33; c < 127; c++) class_of[c] |= GRAPH;
    for (int c = 'a'; c <= 'z'; c++) class_of[c] |= LETTER;
    for (int c = 'A'; c <= 'Z'; c++) class_of[c] |= LETTER;
    memset(digit_of, 16, 256);
    for (int c = 0; c < 10; c++) class_of['0' + c] |= DIGIT, digit_of['0' + c] = (uint8_t)c;
    for (int c = 0; c < 6; c++) digit_of['a' + c] = digit_of['A' + c] = (uint8_t)(10 + c);
    class_of[' '] |= BLANK, class_of['\t'] |= BLANK, class_of['\r'] |= BLANK;
    fill(op_slot, ops, 22);
    fill(reg_slot, regs, 16);
}

typedef struct {
    const uint8_t *at;
    unsigned size;
} Token;

typedef struct {
    int sign;   // 0 no number, 1 without a sign, -1 with a minus
    unsigned base;
    uint64_t v;
} Number;

static Number read_number(Token t) {
    const uint8_t *p = t.at;
    unsigned n = t.size, base = 10, most = 10;
    int sign = 1;
    if (*p == '-') sign = -1, p++, n--;
    else if (n > 2 && p[0] == '0' && p[1] == 'x') base = 16, most = 8, p += 2, n -= 2;
    else if (n > 2 && p[0] == '0' && p[1] == 'b') base = 2, most = 32, p += 2, n -= 2;
    if (n < 1 || n > most) return (Number){0, 0, 0};
    uint64_t v = 0;
    for (unsigned i = 0; i < n; i++) {
        if (digit_of[p[i]] >= base) return (Number){0, 0, 0};
        v = v * base + digit_of[p[i]];
    }
    return (Number){sign, base, v};
}

// The greatest value, without its sign, of an immediate with the sign and base of this number.
static uint64_t greatest(Number n) { return n.sign < 0 ? 2048 : n.base == 10 ? 2047 : 4095; }

static int alnum(const uint8_t *p, unsigned n) {
    for (unsigned i = 0; i < n; i++)
        if (!(class_of[p[i]] & (LETTER | DIGIT))) return 0;
    return 1;
}

static int is_name(Token t) { return t.size >= 1 && t.size <= 50 && (class_of[t.at[0]] & LETTER) && alnum(t.at, t.size); }
static int is_label(Token t) { return t.size >= 2 && t.at[t.size - 1] == ':' && is_name((Token){t.at, t.size - 1}); }
static int is_reg(Token t) { return t.size >= 2 && t.at[0] == '$' && alnum(t.at + 1, t.size - 1); }
static int is_comma(Token t) { return t.size == 1 && t.at[0] == ','; }

enum { NOTHING, LABEL, CODE, LABELLED, WORD, WRONG, BAD };

static int split(const uint8_t *p, const uint8_t *e, Token *t) {
    int n = 0;
    while (n < 14) {
        while (p < e && (class_of[*p] & BLANK)) p++;
        if (p == e || *p == '#') return n;
        const uint8_t *a = p++;
        if (*a != ',')
            while (p < e && p[-1] != ':' && !(class_of[*p] & BLANK) && *p != ',' && *p != '#') p++;
        t[n++] = (Token){a, (unsigned)(p - a)};
    }
    return n;
}

static int is_code(const Token *t) {
    return is_name(t[0]) && is_reg(t[1]) && is_comma(t[2]) && is_reg(t[3]) && is_comma(t[4]) && is_reg(t[5]) && is_comma(t[6]) && is_reg(t[7]) && is_comma(t[8])
           && (read_number(t[9]).sign || is_name(t[9])) && is_comma(t[10]) && (read_number(t[11]).sign || is_name(t[11]));
}

static int form(const uint8_t *p, const uint8_t *e, Token *t) {
    if (e - p > 500) return BAD;
    for (const uint8_t *q = p; q < e; q++)
        if (!(class_of[*q] & (BLANK | GRAPH))) return BAD;
    switch (split(p, e, t)) {
    case 0: return NOTHING;
    case 1: return is_label(t[0]) ? LABEL : WRONG;
    case 3: return t[0].size == 5 && memcmp(t[0].at, ".word", 5) == 0 && read_number(t[1]).sign && read_number(t[2]).sign ? WORD : WRONG;
    case 12: return is_code(t) ? CODE : WRONG;
    case 13: return is_label(t[0]) && is_code(t + 1) ? LABELLED : WRONG;
    default: return WRONG;
    }
}

typedef struct {
    uint32_t next, key, size, value;
    const uint8_t *at;
} Symbol;
static Symbol symbols[LABELS];
static uint32_t heads[BUCKETS];

static uint32_t key_of(const uint8_t *p, unsigned n) {
    uint32_t k = 0;
    for (unsigned i = 0; i < n; i++) k = k * 75 + p[i];
    return k;
}

static uint32_t find_label(Token t, uint32_t below) {
    uint32_t key = key_of(t.at, t.size);
    for (uint32_t l = heads[key % BUCKETS]; l; l = symbols[l - 1].next) {
        Symbol *s = &symbols[l - 1];
        if (s->key == key && s->size == t.size && l - 1 < below && memcmp(s->at, t.at, t.size) == 0) return l - 1;
    }
    return below;
}

static uint32_t c_assemble(const uint8_t *source, size_t n, uint64_t *image, uint32_t *memory, uint64_t *place) {
    static uint64_t words[WORDS];
    static uint32_t data[WORDS];
    const uint8_t *end = source + n, *e;
    Token t[14];
    uint32_t count = 0, code = 0, seen = 0;
    *place = 0;
    if (n > MOST) return 1;
    memset(heads, 0, sizeof heads);
    for (const uint8_t *p = source; p < end; p = e + 1) {
        e = memchr(p, '\n', (size_t)(end - p));
        if (!e) e = end;
        int f = form(p, e, t);
        if (f == LABEL || f == LABELLED) {
            uint32_t key = key_of(t[0].at, t[0].size - 1);
            symbols[count] = (Symbol){heads[key % BUCKETS], key, t[0].size - 1, code, t[0].at};
            heads[key % BUCKETS] = ++count;
        }
        code += f == CODE || f == LABELLED;
    }
    memset(words, 0, sizeof words);
    memset(data, 0, sizeof data);
    code = 0;
    uint64_t line = 0;
    for (const uint8_t *p = source; p < end; p = e + 1) {
        e = memchr(p, '\n', (size_t)(end - p));
        if (!e) e = end;
        line++;
        int f = form(p, e, t);
        *place = line;
        if (f == BAD) return 2;
        if (f == WRONG) return 3;
        int has_code = f == CODE || f == LABELLED, has_label = f == LABEL || f == LABELLED;
        const Token *o = t + (f == LABELLED);
        Number a = {0, 0, 0}, b = {0, 0, 0};
        uint64_t w = 0;
        if (has_code) {
            int op = find_name(op_slot, ops, o[0].at, o[0].size);
            if (op < 0) return 4;
            w = (uint64_t)op;
            for (int i = 1; i < 8; i += 2) {
                int r = find_name(reg_slot, regs, o[i].at, o[i].size);
                if (r < 0) return 4;
                w = w << 4 | (uint64_t)r;
            }
            a = read_number(o[9]), b = read_number(o[11]);
            if (a.sign && a.v > greatest(a)) return 5;
            if (b.sign && b.v > greatest(b)) return 5;
        } else if (f == WORD) {
            a = read_number(t[1]), b = read_number(t[2]);
            if (a.v > (a.sign < 0 ? 0 : 4095)) return 5;
            if (b.v > (b.sign < 0 ? 0x80000000u : 0xFFFFFFFFu)) return 5;
            data[a.v] = (uint32_t)(b.sign < 0 ? -b.v : b.v);
        }
        if (has_label && find_label((Token){t[0].at, t[0].size - 1}, seen) < seen) return 6;
        if (has_code) {
            Number *x[2] = {&a, &b};
            for (int i = 0; i < 2; i++) {
                uint64_t v;
                if (x[i]->sign) v = x[i]->sign < 0 ? -x[i]->v : x[i]->v;
                else {
                    uint32_t k = find_label(o[9 + 2 * i], count);
                    if (k == count) return 7;
                    v = symbols[k].value;
                }
                w = w << 12 | (v & 0xFFF);
            }
        }
        if ((has_code || has_label) && code > 4095) return 8;
        if (has_label && seen >= 1024) return 8;
        seen += (uint32_t)has_label;
        if (has_code) words[code++] = w;
    }
    *place = 0;
    memcpy(image, words, sizeof words);
    memcpy(memory, data, sizeof data);
    return 0;
}

// ---- the lister in C

static size_t put(uint8_t *to, const char *s) {
    size_t n = strlen(s);
    memcpy(to, s, n);
    return n;
}

static size_t put_signed(uint8_t *to, unsigned v) {
    uint8_t *p = to, d[4];
    int n = 0;
    if (v & 0x800) *p++ = '-', v = 0x1000 - v;
    do d[n++] = (uint8_t)('0' + v % 10), v /= 10;
    while (v);
    while (n) *p++ = d[--n];
    return (size_t)(p - to);
}

static size_t c_list(const uint64_t *words, size_t n, uint8_t *text) {
    uint8_t *p = text;
    for (size_t i = 0; i < n; i++) {
        uint64_t w = words[i];
        p += put(p, ops[w >> 40 & 255]);
        *p++ = ' ';
        for (int s = 36; s >= 24; s -= 4) p += put(p, regs[w >> s & 15]), *p++ = ',', *p++ = ' ';
        p += put_signed(p, (unsigned)(w >> 12 & 0xFFF)), *p++ = ',', *p++ = ' ';
        p += put_signed(p, (unsigned)(w & 0xFFF)), *p++ = '\n';
    }
    return (size_t)(p - text);
}

// ---- texts

static uint8_t text[MOST + 64];
static size_t size;

static void add(const char *s) {
    size_t n = strlen(s);
    if (size + n <= MOST) memcpy(text + size, s, n), size += n;
}

static void repeat(const char *s) {
    while (size + strlen(s) <= MOST) add(s);
}

static const char letters[] = "abcdefghijklmnopqrstuvwxyzABCDEFGHIJKLMNOPQRSTUVWXYZ0123456789";

// The next name of so many letters after this one.
static int next_name(char *name, int n) {
    for (int i = n - 1; i >= 0; i--) {
        const char *l = strchr(letters, name[i]);
        if (l[1] && (i > 0 || name[i] != 'Z')) {
            name[i] = l[1];
            return 1;
        }
        name[i] = 'a';
    }
    return 0;
}

// 4,096 instructions, which use these two labels each.
static void uses(const char *a, const char *b) {
    char line[96];
    snprintf(line, sizeof line, "in $ra,$ra,$ra,$ra,%s,%s\n", a, b);
    for (int i = 0; i < WORDS; i++) add(line);
}

// The first two names of so many letters in the bucket of another name, defined and used; then as many more labels of that bucket as fit, or these lines again and again.
static void in_bucket(int n, const char *other, const char *again) {
    char name[8] = "aaaaaaa", first[2][8], line[16];
    int found = 0;
    uint32_t bucket = key_of((const uint8_t *)other, (unsigned)strlen(other)) % BUCKETS;
    name[n] = 0;
    do {
        if (key_of((uint8_t *)name, (unsigned)n) % BUCKETS != bucket || strcmp(name, other) == 0) continue;
        snprintf(line, sizeof line, "%s:\n", name);
        add(line);
        if (found < 2) strcpy(first[found], name);
        if (++found == 2) {
            uses(first[0], first[1]);
            if (again) break;
        }
    } while (size + 16 <= MOST && next_name(name, n));
    if (again) repeat(again);
}

static void full_program(int labels) {
    char line[96];
    for (int i = 0; i < WORDS; i++) {
        if (labels && i % 4 == 0) snprintf(line, sizeof line, "label%d:\n", i / 4), add(line);
        if (labels) snprintf(line, sizeof line, "add $t0, $t1, $t2, $s0, label%d, %d\n", i * 7 % 1024, i % 2048);
        else snprintf(line, sizeof line, "%s %s, %s, %s, %s, %d, 0x%X\n", ops[i % 22], regs[i % 16], regs[i / 3 % 16], regs[i / 5 % 16], regs[i / 7 % 16], i - 2048, i);
        add(line);
    }
}

// 4,096 instructions that use 8,192 labels, and after them as many labels as fit, those among them.
static void late_labels(void) {
    char a[4] = "aaa", b[4], line[64];
    for (int i = 0; i < WORDS; i++) {
        strcpy(b, a), next_name(b, 3);
        snprintf(line, sizeof line, "in $ra,$ra,$ra,$ra,%s,%s\n", a, b), add(line);
        strcpy(a, b), next_name(a, 3);
    }
    strcpy(a, "aaa");
    do snprintf(line, sizeof line, "%s:\n", a), add(line);
    while (size + 8 <= MOST && next_name(a, 3));
}

static void long_line(char c, int lf) {
    char line[512];
    memset(line, c, 500);
    line[500] = '\n', line[501] = 0;
    if (lf) repeat(line);
    else memset(text, c, MOST), size = MOST;
}

static const char *const names[] = {"full program, numbers", "full program, 1,024 labels", "1 label 87,381 times", "262,144 empty lines", "131,072 comments", "one line", "lines of 500 bytes: comment", "lines of 500 bytes: blanks",
                                    ".word on every line", "8,192 late labels used", "labels in one bucket", "one label again, in the bucket of those used",
                                    "two labels in turn, keys alike, in that bucket", "unknown label at the end", "every label unknown"};
enum { TEXTS = sizeof names / sizeof *names };

static void make(int i) {
    size = 0;
    switch (i) {
    case 0: full_program(0); break;
    case 1: full_program(1); break;
    case 2: repeat("a:\n"); break;
    case 3: repeat("\n"); break;
    case 4: repeat("#\n"); break;
    case 5: long_line('a', 0); break;
    case 6: long_line('#', 1); break;
    case 7: long_line(' ', 1); break;
    case 8: repeat(".word 4095 4294967295\n"); break;
    case 9: late_labels(); break;
    case 10: in_bucket(5, "aaaaa", NULL); break;
    case 11: in_bucket(3, "a", "a:\n"); break;
    case 12: in_bucket(3, "A12n", "A12n:\nhja3:\n"); break;
    case 13: full_program(1), add("in $ra,$ra,$ra,$ra,zz,0\n"); break;
    case 14: repeat("in $ra,$ra,$ra,$ra,a,b\n"); break;
    }
}

static uint32_t seed = 1;
static uint32_t draw(uint32_t n) {
    seed ^= seed << 13, seed ^= seed >> 17, seed ^= seed << 5;
    return seed % n;
}

// A random text of some lines: each number is out of range, each label repeated or unknown, each name wrong now and then; then some bytes are damaged now and then.
static const char *a_number(int rare) {
    static const char *const good[] = {"0", "-1", "0x800", "-2048", "0xFFF", "0x7ff", "-0", "00012", "2047", "0b1010", "0b111111111111", "0b00000000000000000000000000000001"};
    static const char *const wide[] = {"2147483648", "-2147483648", "4294967295", "0b11111111111111111111111111111111", "2048", "4095", "4096", "-2049", "0x1000", "0b1000000000000", "4294967296", "-2147483649",
                                       "0X1", "12345678901", "0x123456789", "+1", "0b", "0b2", "0B1", "-0b1", "0b000000000000000000000000000000001"};
    return draw(60) ? good[draw(12)] : wide[draw(rare ? 21 : 6)];
}

static const char *an_immediate(char *a, uint32_t labels) {
    if (labels && draw(2)) sprintf(a, "L%u", draw(80) ? draw(labels) : labels);
    else strcpy(a, a_number(1));
    return a;
}

static void random_text(void) {
    static const char *const addresses[] = {"0x7F", "4095", "0b1111110"};
    static const char damage[] = " \t\r,:#$-0xb12aL.\n";
    char line[200], a[40], b[40];
    uint32_t labels = draw(8), next = 0, n = draw(24);
    size = 0;
    for (uint32_t i = 0; i < n; i++) {
        const char *op = draw(60) ? ops[draw(22)] : "foo", *rd = draw(60) ? regs[draw(16)] : "$t3";
        const char *rs = regs[draw(16)], *rt = regs[draw(16)], *rm = regs[draw(16)];
        an_immediate(a, labels), an_immediate(b, labels);
        switch (draw(6)) {
        case 0: snprintf(line, sizeof line, ".word %s %s%s\n", addresses[draw(3)], a_number(0), draw(2) ? "" : " # c"); break;
        case 1: snprintf(line, sizeof line, "%s\n", draw(2) ? "" : "\t # only a comment"); break;
        case 2: snprintf(line, sizeof line, "%s\t%s ,%s,%s, %s,%s ,%s%s\n", op, rd, rs, rt, rm, a, b, draw(3) ? "" : "#c\r"); break;
        default: snprintf(line, sizeof line, "%s %s, %s, %s, %s, %s, %s\n", op, rd, rs, rt, rm, a, b); break;
        }
        if (next < labels && !draw(3)) {
            char label[16];
            snprintf(label, sizeof label, "L%u:%s", draw(60) ? next++ : 0, draw(2) ? "\n" : " ");
            add(label);
        }
        add(line);
    }
    for (; next < labels; next++) snprintf(line, sizeof line, "L%u:\n", next), add(line);
    if (size && !draw(4))
        for (uint32_t k = draw(3) + 1; k; k--) text[draw((uint32_t)size)] = draw(4) ? (uint8_t)damage[draw(sizeof damage - 1)] : (uint8_t)draw(256);
    if (size && !draw(4)) size--;
}

// ---- both, compared and timed

static uint64_t image[2][WORDS];
static uint32_t memory[2][WORDS];
static uint64_t place[2];
static uint32_t number[2];

static int differ(void) {
    for (int i = 0; i < WORDS; i++) image[0][i] = image[1][i] = 0xA5A5A5A5A5A5A5A5u, memory[0][i] = memory[1][i] = 0xA5A5A5A5u;
    number[0] = simp_assemble(text, size, image[0], WORDS, memory[0], WORDS, &place[0]);
    number[1] = c_assemble(text, size, image[1], memory[1], &place[1]);
    return number[0] != number[1] || place[0] != place[1] || memcmp(image[0], image[1], sizeof *image) || memcmp(memory[0], memory[1], sizeof *memory);
}

static double now(void) {
    struct timespec t;
    clock_gettime(CLOCK_MONOTONIC, &t);
    return (double)t.tv_sec * 1e3 + (double)t.tv_nsec * 1e-6;
}

static double best(int c) {
    double least = 1e9, sum = 0;
    for (int i = 0; i < 200 && sum < 400; i++) {
        double t = now();
        if (c) c_assemble(text, size, image[1], memory[1], &place[1]);
        else simp_assemble(text, size, image[0], WORDS, memory[0], WORDS, &place[0]);
        t = now() - t, sum += t;
        if (t < least) least = t;
    }
    return least;
}

static int lists(void) {
    static uint8_t out[2][WORDS * 46];
    uint64_t count = 0, at;
    double least[3] = {1e9, 1e9, 1e9};
    size = 0, full_program(0);
    simp_assemble(text, size, image[0], WORDS, memory[0], WORDS, &at);
    size_t n = c_list(image[0], WORDS, out[1]);
    for (int i = 0; i < 200; i++)
        for (int k = 0; k < 3; k++) {
            double t = now();
            if (k == 2) c_list(image[0], WORDS, out[1]);
            else simp_list(image[0], WORDS, out[0], k ? n : sizeof *out, &count, &at);
            t = now() - t;
            if (t < least[k]) least[k] = t;
        }
    printf("%-46s %8zu bytes %9.3f ms %9.3f ms %6.2f\n", "list, ample room", n, least[0], least[2], least[0] / least[2]);
    printf("%-46s %8zu bytes %9.3f ms %9.3f ms %6.2f\n", "list, exact room", n, least[1], least[2], least[1] / least[2]);
    return count != n || memcmp(out[0], out[1], n) != 0;
}

int main(int argc, char **argv) {
    long turns = argc > 1 ? atol(argv[1]) : 200000, bad = 0, refused = 0;
    tables();
    printf("%-46s %14s %12s %12s %6s  %s\n", "text", "", "proved", "C", "ratio", "answer");
    for (int i = 0; i < TEXTS; i++) {
        make(i);
        bad += differ();
        double a = best(0), b = best(1);
        printf("%-46s %8zu bytes %9.3f ms %9.3f ms %6.2f  N %u %lu\n", names[i], size, a, b, a / b, number[0], (unsigned long)place[0]);
        if (a > 1000) puts("more than a second"), bad++;
    }
    bad += lists();
    for (long i = 0; i < turns; i++) {
        random_text();
        if (differ()) {
            if (!bad) printf("differ: %u %lu and %u %lu of\n%.*s\n", number[0], (unsigned long)place[0], number[1], (unsigned long)place[1], (int)size, text);
            bad++;
        }
        refused += number[0] != 0;
    }
    printf("%ld random texts, %ld of them refused; %ld texts with other answers\n", turns, refused, bad);
    return bad != 0;
}
