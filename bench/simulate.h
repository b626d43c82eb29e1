// The machine of document 01 with document 02's slow disk as a function SIMULATE: a run of n cycles from the fresh record on an
// image, memories and an irq2 list. Who includes this file says how a line is written, by put_line_t, put_line_h and
// put_line_ld, which return the place after it. Returns the log's length.

// The bits that an out keeps.
static const uint32_t masks[23] = {
    1, 1, 1, 1, 1, 1, 0xFFF, 0xFFF, 0xFFFFFFFF, 0xFFFFFFFF, 0xFFFFFFFF, 1, 0xFFFFFFFF, 0xFFFFFFFF, 3, 0x7F, 0xFFF, 1,
    0, 0, 0xFFFF, 0xFF, 1,
};

static inline bool is_listed(uint32_t a)
{
    return a < 18 || a - 20 < 3;
}

static inline uint32_t sign_extend(uint32_t imm)
{
    return (uint32_t)((int32_t)(imm << 20) >> 20);
}

enum {
    ADD, SUB, MAC, AND, OR, XOR, SLL, SRA, SRL, BEQ, BNE, BLT, BGT, BLE, BGE, JAL, LW, SW, RETI, IN, OUT, HALT
};

static bool is_asked(const uint32_t *io)
{
    return (io[IRQ0ENABLE] & io[IRQ0STATUS]) | (io[IRQ1ENABLE] & io[IRQ1STATUS]) | (io[IRQ2ENABLE] & io[IRQ2STATUS]);
}

// How many bytes the next cycle logs, where the log has fewer left than a cycle may log.
static size_t lines_length(const uint64_t *image, const uint32_t *registers, const uint32_t *io_before, uint32_t pc, bool handler, uint64_t age, bool hit)
{
    uint32_t r[16], io[23];
    uint8_t lines[MOST + 32], *p = lines + 163;
    memcpy(r, registers, sizeof r);
    memcpy(io, io_before, sizeof io);
    if (hit)
        io[IRQ2STATUS] = 1;
    if (!handler && is_asked(io)) {
        io[IRQRETURN] = pc;
        pc = io[IRQHANDLER];
    }
    uint64_t word = image[pc];
    uint32_t op = word >> 40 & 0xFF;
    r[1] = sign_extend((uint32_t)word >> 12 & 0xFFF);
    r[2] = sign_extend((uint32_t)word & 0xFFF);
    uint32_t a = r[word >> 32 & 15] + r[word >> 28 & 15], m = r[word >> 24 & 15];
    if ((op == IN || op == OUT) && is_listed(a)) {
        p = put_line_h(p, age, op == OUT, a, 0);
        if (op == OUT && (a == LEDS || a == DISPLAY7SEG) && io[a] != m)
            p = put_line_ld(p, 'L', age, m);
    }
    return (size_t)(p - lines);
}

__attribute__((noinline)) size_t SIMULATE(const uint64_t *image, size_t image_length, uint32_t *memory, size_t memory_length,
                                          uint32_t *disk, size_t disk_length, uint8_t *frame, size_t frame_length,
                                          const uint64_t *irq2, size_t irq2_length, uint64_t n, uint8_t *log, size_t log_length)
{
    if (image_length != IMAGE || memory_length != MEMORY || disk_length != DISK || frame_length != FRAME)
        return 0;
    for (size_t i = 1; i < irq2_length; i++)
        if (irq2[i] <= irq2[i - 1])
            return 0;
    size_t place = 0;
    uint32_t r[16] = { 0 };
    uint32_t io[23] = { 0 };
    uint32_t status = 0, pc = 0, left = 0;
    const uint32_t *from = disk; // The disk command's next word, ..
    uint32_t *to = memory;       // .. and where it goes.
    bool handler = false;
    uint64_t age = 0;
    uint8_t *p = log;
    const uint8_t *end = log + log_length;

    for (uint64_t i = 0; i < n; i++) {
        if (status != 0 || age == LIMIT)
            break;
        bool hit = place < irq2_length && irq2[place] == age;
        size_t room = (size_t)(end - p);
        if (room < MOST && room < lines_length(image, r, io, pc, handler, age, hit))
            break;
        uint32_t began = left;

        // Steps 1 and 2.
        if (hit) {
            io[IRQ2STATUS] = 1;
            place++;
        }
        if (!handler && is_asked(io)) {
            io[IRQRETURN] = pc;
            pc = io[IRQHANDLER];
            handler = true;
        }

        // Step 3.
        uint64_t word = image[pc];
        uint32_t high = (uint32_t)(word >> 24);
        uint32_t op = high >> 16 & 0xFF, rd = high >> 12 & 15;
        r[1] = sign_extend((uint32_t)word >> 12 & 0xFFF);
        r[2] = sign_extend((uint32_t)word & 0xFFF);
        uint32_t s = r[high >> 8 & 15], t = r[high >> 4 & 15], m = r[high & 15], d = r[rd];
        p = put_line_t(p, pc, word, r);

        // Step 4. A write to R0 is undone below; R1 and R2 are set before they are read.
        uint32_t next = (pc + 1) & 0xFFF, a = s + t;
        switch (op) {
        case ADD: r[rd] = s + t + m; pc = next; break;
        case SUB: r[rd] = s - t - m; pc = next; break;
        case MAC: r[rd] = s * t + m; pc = next; break;
        case AND: r[rd] = s & t & m; pc = next; break;
        case OR: r[rd] = s | t | m; pc = next; break;
        case XOR: r[rd] = s ^ t ^ m; pc = next; break;
        case SLL: r[rd] = s << (t & 31); pc = next; break;
        case SRA: r[rd] = (uint32_t)((int32_t)s >> (t & 31)); pc = next; break;
        case SRL: r[rd] = s >> (t & 31); pc = next; break;
        case BEQ: pc = s == t ? m & 0xFFF : next; break;
        case BNE: pc = s != t ? m & 0xFFF : next; break;
        case BLT: pc = (int32_t)s < (int32_t)t ? m & 0xFFF : next; break;
        case BGT: pc = (int32_t)s > (int32_t)t ? m & 0xFFF : next; break;
        case BLE: pc = (int32_t)s <= (int32_t)t ? m & 0xFFF : next; break;
        case BGE: pc = (int32_t)s >= (int32_t)t ? m & 0xFFF : next; break;
        case JAL: r[rd] = next; pc = m & 0xFFF; break;
        case LW:
            if (a >= MEMORY) {
                status = 3;
                break;
            }
            r[rd] = memory[a] + m;
            pc = next;
            break;
        case SW:
            if (a >= MEMORY) {
                status = 3;
                break;
            }
            memory[a] = m + d;
            pc = next;
            break;
        case RETI:
            pc = io[IRQRETURN];
            handler = false;
            break;
        case IN:
            if (!is_listed(a)) {
                status = 4;
                break;
            }
            p = put_line_h(p, age, 0, a, io[a]);
            r[rd] = io[a];
            pc = next;
            break;
        case OUT:
            if (!is_listed(a)) {
                status = 4;
                break;
            }
            p = put_line_h(p, age, 1, a, m);
            switch (a) {
            case LEDS:
            case DISPLAY7SEG:
                if (io[a] != m)
                    p = put_line_ld(p, a == LEDS ? 'L' : 'D', age, m);
                io[a] = m;
                break;
            case DISKCMD: {
                uint32_t command = m & 3;
                if (io[DISKSTATUS] != 0)
                    break;
                if (command == 0 || command == 3) {
                    io[DISKCMD] = 0;
                    break;
                }
                if (io[DISKBUFFER] > MEMORY - SECTOR) {
                    status = 5;
                    break;
                }
                uint32_t *buffer = memory + io[DISKBUFFER], *sector = disk + SECTOR * io[DISKSECTOR];
                from = command == 1 ? sector : buffer;
                to = command == 1 ? buffer : sector;
                io[DISKCMD] = command;
                io[DISKSTATUS] = 1;
                left = COMMAND_CYCLES;
                break;
            }
            case DISKSTATUS:
                break;
            case MONITORCMD:
                if (m & 1)
                    frame[io[MONITORADDR]] = (uint8_t)io[MONITORDATA];
                break;
            default:
                io[a] = m & masks[a];
            }
            if (status == 0)
                pc = next;
            break;
        case HALT: status = 1; break;
        default: status = 2; break;
        }
        r[0] = 0;

        // Steps 5 to 7.
        if (io[TIMERENABLE]) {
            if (io[TIMERCURRENT] == io[TIMERMAX]) {
                io[IRQ0STATUS] = 1;
                io[TIMERCURRENT] = 0;
            } else {
                io[TIMERCURRENT]++;
            }
        }
        if (began > 0 && --left % WORD_CYCLES == 0) {
            *to++ = *from++;
            if (left == 0) {
                io[DISKCMD] = 0;
                io[DISKSTATUS] = 0;
                io[IRQ1STATUS] = 1;
            }
        }
        io[CLKS]++;
        age++;
    }
    return (size_t)(p - log);
}
