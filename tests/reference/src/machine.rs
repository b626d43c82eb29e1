//! The machine: record, one cycle of the plain machine, the log's lines.

use crate::names::*;
use crate::record::Record;
use crate::{AGE_LIMIT, LOW_48_BITS, SECTOR_WORDS};

/// "left = 1024"; a command is the disk's work for so many cycles.
pub const DISK_CYCLES: u32 = 1024;
/// "moves word k of the sector … in the disk's step of cycle c+8(k+1)"
pub const CYCLES_A_WORD: u32 = 8;
/// "While busy the buffer is at most 3968"
pub const LAST_DISKBUFFER: u32 = 3968;

/// "Status: 0 running, 1 halted, 2 opcode above 21, 3 data address above 4095, 4 I/O number not
/// listed, 5 diskbuffer above 3968 at a disk command, which is then not accepted."
pub const RUNNING: u32 = 0;
pub const HALTED: u32 = 1;
pub const BAD_OPCODE: u32 = 2;
pub const BAD_ADDRESS: u32 = 3;
pub const BAD_IO_NUMBER: u32 = 4;
pub const BAD_DISKBUFFER: u32 = 5;

/// "An instruction, high bits first: opcode 8, rd 4, rs 4, rt 4, rm 4, imm1 12, imm2 12."
/// The immediates stand here as 12 bits, not yet sign-extended.
#[derive(Clone, Copy, Debug, PartialEq, Eq)]
pub struct Instruction {
    pub opcode: u32,
    pub rd: usize,
    pub rs: usize,
    pub rt: usize,
    pub rm: usize,
    pub imm1: u32,
    pub imm2: u32,
}

/// Takes a word apart; "bits above 47 are not read".
pub fn decode(word: u64) -> Instruction {
    Instruction {
        opcode: ((word >> 40) & 0xFF) as u32,
        rd: ((word >> 36) & 0xF) as usize,
        rs: ((word >> 32) & 0xF) as usize,
        rt: ((word >> 28) & 0xF) as usize,
        rm: ((word >> 24) & 0xF) as usize,
        imm1: ((word >> 12) & 0xFFF) as u32,
        imm2: (word & 0xFFF) as u32,
    }
}

/// Puts a word together.
pub fn encode(i: Instruction) -> u64 {
    (i.opcode as u64) << 40
        | (i.rd as u64) << 36
        | (i.rs as u64) << 32
        | (i.rt as u64) << 28
        | (i.rm as u64) << 24
        | (i.imm1 as u64) << 12
        | i.imm2 as u64
}

/// "Immediates are sign-extended", from 12 bits.
pub fn sign_extended(immediate: u32) -> i32 {
    if immediate >= 0x800 {
        immediate as i32 - 0x1000
    } else {
        immediate as i32
    }
}

/// The one change that step 4 makes to data memory or frame.
#[derive(Clone, Copy, Debug, PartialEq, Eq)]
pub enum MemoryChange {
    Nothing,
    /// sw
    DataWord {
        address: usize,
        value: u32,
    },
    /// "writing an odd value sets frame[monitoraddr] to monitordata"
    Pixel {
        address: usize,
        value: u8,
    },
}

/// The one word that step 6 moves, between a place of the disk and an address of the data memory.
#[derive(Clone, Copy, Debug, PartialEq, Eq)]
pub enum DiskMove {
    Nothing,
    /// a read command's
    ToData {
        disk: usize,
        address: usize,
    },
    /// a write command's
    ToDisk {
        disk: usize,
        address: usize,
    },
}

/// What one cycle gives: the record after it, its log lines, and what it does to the memories:
/// step 4's change, and after it step 6's word (D2).
#[derive(Clone, Debug, PartialEq, Eq)]
pub struct Cycle {
    pub record: Record,
    pub lines: String,
    pub change: MemoryChange,
    pub moved: DiskMove,
}

/// "T: PC (3 digits), word (12), R0 to R15 (8 each) before execution."
fn line_t(pc: u32, word: u64, r: &[u32; 16]) -> String {
    let mut line = format!("T {:03X} {:012X}", pc, word);
    for value in r {
        line += &format!(" {:08X}", value);
    }
    line + "\n"
}

/// "H: cycle c in decimal, READ or WRITE, register name, value read or R[rm] (8)."
fn line_h(c: u64, direction: &str, name: &str, value: u32) -> String {
    format!("H {} {} {} {:08X}\n", c, direction, name, value)
}

/// "L and D: cycle, new value (8). The letter stands first."
fn line_l_or_d(letter: &str, c: u64, value: u32) -> String {
    format!("{} {} {:08X}\n", letter, c, value)
}

/// "Writes to these three change nothing": R0, R1 and R2.
fn set_register(record: &mut Record, number: usize, value: u32) {
    if number >= 3 {
        record.r[number - 3] = value;
    }
}

/// "One cycle of the plain machine, c being the age before it". The memories stay as they are;
/// `change` and `moved` say what the cycle does to them, and `apply` does it.
pub fn one_cycle(before: &Record, image: &[u64], data: &[u32], irq2: &[u64]) -> Cycle {
    let c = before.age;
    let left_when_the_cycle_began = before.left;
    let mut m = before.clone();
    let mut lines = String::new();
    let mut change = MemoryChange::Nothing;

    // 1. "If c is in the irq2 list, irq2status becomes 1." (The list rises strictly.)
    if irq2.binary_search(&c).is_ok() {
        m.io[IRQ2STATUS] = 1;
    }

    // 2. "If some enable and its status are both 1 and the handler flag is down: irqreturn = PC,
    // PC = irqhandler, the flag rises."
    let asked = (m.io[IRQ0ENABLE] == 1 && m.io[IRQ0STATUS] == 1)
        || (m.io[IRQ1ENABLE] == 1 && m.io[IRQ1STATUS] == 1)
        || (m.io[IRQ2ENABLE] == 1 && m.io[IRQ2STATUS] == 1);
    if asked && m.flag == 0 {
        m.io[IRQRETURN] = m.pc;
        m.pc = m.io[IRQHANDLER];
        m.flag = 1;
    }

    // 3. "Fetch; log line T."
    let word = image[m.pc as usize] & LOW_48_BITS;
    let i = decode(word);
    // "R0 is 0. R1 and R2 are the two immediates."
    let mut r = [0u32; 16];
    r[1] = sign_extended(i.imm1) as u32;
    r[2] = sign_extended(i.imm2) as u32;
    r[3..16].copy_from_slice(&m.r);
    lines += &line_t(m.pc, word, &r);

    // 4. "Execute; PC becomes (PC+1) mod 4096 unless a jump or reti set it. halt sets status 1; a
    // fault sets its status. Either leaves PC and, for a fault, everything else as step 3 left it;
    // steps 5 to 7 still follow."
    let rs = r[i.rs];
    let rt = r[i.rt];
    let rm = r[i.rm];
    let rd = r[i.rd];
    let next_pc = (m.pc + 1) % 4096;
    // "jump to the low 12 bits of R[rm]"
    let jump_target = rm & 0xFFF;
    // "Here a = R[rs]+R[rt] wrapped"
    let a = rs.wrapping_add(rt);
    // "Shifts move R[rs] by the low five bits of R[rt]"
    let shift = rt & 31;
    match i.opcode {
        // "add, and, or, xor join R[rs], R[rt] and R[rm]; sub is rs-rt-rm; mac is rs×rt+rm; the
        // result goes to R[rd]. Arithmetic wraps at 2^32 and never traps."
        0..=8 => {
            let result = match i.opcode {
                0 => rs.wrapping_add(rt).wrapping_add(rm),
                1 => rs.wrapping_sub(rt).wrapping_sub(rm),
                2 => rs.wrapping_mul(rt).wrapping_add(rm),
                3 => rs & rt & rm,
                4 => rs | rt | rm,
                5 => rs ^ rt ^ rm,
                6 => rs << shift,
                // "sra copies the sign"
                7 => ((rs as i32) >> shift) as u32,
                _ => rs >> shift,
            };
            set_register(&mut m, i.rd, result);
            m.pc = next_pc;
        }
        // "Branches compare R[rs] with R[rt] as signed numbers and jump to the low 12 bits of
        // R[rm]."
        9..=14 => {
            let left = rs as i32;
            let right = rt as i32;
            let jumps = match i.opcode {
                9 => left == right,
                10 => left != right,
                11 => left < right,
                12 => left > right,
                13 => left <= right,
                _ => left >= right,
            };
            m.pc = if jumps { jump_target } else { next_pc };
        }
        // "jal puts (PC+1) mod 4096 into R[rd] and jumps to the low 12 bits of R[rm] as it was
        // before."
        15 => {
            set_register(&mut m, i.rd, next_pc);
            m.pc = jump_target;
        }
        // "lw: R[rd] = M[a] + R[rm]."
        16 => {
            if a > 4095 {
                m.status = BAD_ADDRESS;
            } else {
                set_register(&mut m, i.rd, data[a as usize].wrapping_add(rm));
                m.pc = next_pc;
            }
        }
        // "sw: M[a] = R[rm] + R[rd]."
        17 => {
            if a > 4095 {
                m.status = BAD_ADDRESS;
            } else {
                change = MemoryChange::DataWord {
                    address: a as usize,
                    value: rm.wrapping_add(rd),
                };
                m.pc = next_pc;
            }
        }
        // "reti: PC = irqreturn; the handler flag falls."
        18 => {
            m.pc = m.io[IRQRETURN];
            m.flag = 0;
        }
        // "in: R[rd] = IO[a]." "in and out log line H, before their effect; status 4 logs none"
        19 => match io_register(a) {
            None => m.status = BAD_IO_NUMBER,
            Some((name, _)) => {
                let value = m.io[a as usize];
                lines += &line_h(c, "READ", name, value);
                set_register(&mut m, i.rd, value);
                m.pc = next_pc;
            }
        },
        // "out: IO[a] = R[rm]."
        20 => match io_register(a) {
            None => m.status = BAD_IO_NUMBER,
            Some((name, bits)) => {
                lines += &line_h(c, "WRITE", name, rm);
                execute_out(&mut m, &mut lines, &mut change, a as usize, bits, rm);
                // Only status 5 leaves PC.
                if m.status == RUNNING {
                    m.pc = next_pc;
                }
            }
        },
        // "halt sets status 1"
        21 => m.status = HALTED,
        // "2 opcode above 21"
        _ => m.status = BAD_OPCODE,
    }

    // 5. "Timer, if enabled now: where timercurrent = timermax, irq0status = 1 and timercurrent =
    // 0; else timercurrent + 1, wrapping."
    if m.io[TIMERENABLE] == 1 {
        if m.io[TIMERCURRENT] == m.io[TIMERMAX] {
            m.io[IRQ0STATUS] = 1;
            m.io[TIMERCURRENT] = 0;
        } else {
            m.io[TIMERCURRENT] = m.io[TIMERCURRENT].wrapping_add(1);
        }
    }

    // 6. "If left was above 0 when the cycle began, it falls by one; on reaching 0, diskcmd = 0,
    // diskstatus = 0, irq1status = 1." A halt or a fault doesn't keep its word from moving (D6).
    let mut moved = DiskMove::Nothing;
    if left_when_the_cycle_began > 0 {
        m.left -= 1;
        moved = word_moved(&m);
        if m.left == 0 {
            m.io[DISKCMD] = 0;
            m.io[DISKSTATUS] = 0;
            m.io[IRQ1STATUS] = 1;
            // "both zero when free"
            m.sector = 0;
            m.buffer = 0;
        }
    }

    // 7. "clks + 1, wrapping; age + 1."
    m.io[CLKS] = m.io[CLKS].wrapping_add(1);
    m.age += 1;

    Cycle {
        record: m,
        lines,
        change,
        moved,
    }
}

/// "A command accepted in cycle c moves word k of the sector, k from 0 to 127, in the disk's step
/// of cycle c+8(k+1)." The record is the one in that step, left having fallen: 1024 - left cycles
/// have passed since cycle c.
fn word_moved(m: &Record) -> DiskMove {
    let passed = DISK_CYCLES - m.left;
    if passed % CYCLES_A_WORD != 0 {
        return DiskMove::Nothing;
    }
    let k = (passed / CYCLES_A_WORD - 1) as usize;
    let disk = m.sector as usize * SECTOR_WORDS + k;
    let address = m.buffer as usize + k;
    // diskcmd holds the command while the disk is busy, in the last cycle too (D5).
    if m.io[DISKCMD] == 1 {
        DiskMove::ToData { disk, address }
    } else {
        DiskMove::ToDisk { disk, address }
    }
}

/// "out keeps the low bits of that width, with these exceptions."
fn execute_out(
    m: &mut Record,
    lines: &mut String,
    change: &mut MemoryChange,
    number: usize,
    bits: u32,
    value: u32,
) {
    let c = m.age;
    match number {
        // "diskstatus ignores writes."
        DISKSTATUS => {}
        // "diskcmd ignores writes while diskstatus is 1; free, it takes 1 (read) or 2 (write) as a
        // command and stores 0 for 0 or 3." Only the low two bits count (M4).
        DISKCMD => {
            if m.io[DISKSTATUS] == 1 {
                return;
            }
            let command = low_bits(value, bits);
            if command == 0 || command == 3 {
                m.io[DISKCMD] = 0;
                return;
            }
            // "5 diskbuffer above 3968 at a disk command, which is then not accepted"
            if m.io[DISKBUFFER] > LAST_DISKBUFFER {
                m.status = BAD_DISKBUFFER;
                return;
            }
            // "left = 1024, diskstatus = 1." "Sector and buffer are taken at acceptance."
            m.io[DISKCMD] = command;
            m.left = DISK_CYCLES;
            m.io[DISKSTATUS] = 1;
            m.sector = m.io[DISKSECTOR];
            m.buffer = m.io[DISKBUFFER];
        }
        // "monitorcmd always holds 0; writing an odd value sets frame[monitoraddr] to monitordata."
        MONITORCMD => {
            if value % 2 == 1 {
                *change = MemoryChange::Pixel {
                    address: m.io[MONITORADDR] as usize,
                    value: m.io[MONITORDATA] as u8,
                };
            }
        }
        _ => {
            let old = m.io[number];
            let new = low_bits(value, bits);
            m.io[number] = new;
            // "An out that changes leds logs L, one that changes display7seg logs D."
            if number == LEDS && new != old {
                *lines += &line_l_or_d("L", c, new);
            }
            if number == DISPLAY7SEG && new != old {
                *lines += &line_l_or_d("D", c, new);
            }
        }
    }
}

/// Does to the memories what a cycle does: step 4's change, then step 6's word (D2).
pub fn apply(cycle: &Cycle, data: &mut [u32], disk: &mut [u32], frame: &mut [u8]) {
    match cycle.change {
        MemoryChange::Nothing => {}
        MemoryChange::DataWord { address, value } => data[address] = value,
        MemoryChange::Pixel { address, value } => frame[address] = value,
    }
    match cycle.moved {
        DiskMove::Nothing => {}
        DiskMove::ToData { disk: at, address } => data[address] = disk[at],
        DiskMove::ToDisk { disk: at, address } => disk[at] = data[address],
    }
}

/// "The plain machine starts as the list does and knows no calls". Demand 3's other side.
#[derive(Clone, Debug, PartialEq, Eq)]
pub struct PlainMachine {
    pub record: Record,
    pub image: Vec<u64>,
    pub data: Vec<u32>,
    pub disk: Vec<u32>,
    pub frame: Vec<u8>,
    pub irq2: Vec<u64>,
    pub log: Vec<u8>,
}

impl PlainMachine {
    /// Starts from the fresh record.
    pub fn new(
        image: &[u64],
        data: &[u32],
        disk: &[u32],
        frame: &[u8],
        irq2: &[u64],
    ) -> PlainMachine {
        PlainMachine {
            record: Record::fresh(),
            image: image.to_vec(),
            data: data.to_vec(),
            disk: disk.to_vec(),
            frame: frame.to_vec(),
            irq2: irq2.to_vec(),
            log: Vec::new(),
        }
    }

    /// "it has stopped when its status is not 0"
    pub fn has_stopped(&self) -> bool {
        self.record.status != RUNNING
    }

    /// "is at the cycle limit when its age is 2^40-1"
    pub fn is_at_the_cycle_limit(&self) -> bool {
        self.record.age == AGE_LIMIT
    }

    /// One cycle; "makes no cycle after either". Answers whether a cycle was made.
    pub fn step(&mut self) -> bool {
        if self.has_stopped() || self.is_at_the_cycle_limit() {
            return false;
        }
        let cycle = one_cycle(&self.record, &self.image, &self.data, &self.irq2);
        apply(&cycle, &mut self.data, &mut self.disk, &mut self.frame);
        self.record = cycle.record;
        self.log.extend_from_slice(cycle.lines.as_bytes());
        true
    }
}
