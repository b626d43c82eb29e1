//! The names of document 01: registers, ops and I/O registers.

/// "Registers R0 to R15 are 32 bits: $zero $imm1 $imm2 $v0 $a0 $a1 $a2 $t0 $t1 $t2 $s0 $s1 $s2
/// $gp $sp $ra."
pub const REGISTERS: [&str; 16] = [
    "$zero", "$imm1", "$imm2", "$v0", "$a0", "$a1", "$a2", "$t0", "$t1", "$t2", "$s0", "$s1",
    "$s2", "$gp", "$sp", "$ra",
];

/// "Opcodes from 0: add sub mac and or xor sll sra srl beq bne blt bgt ble bge jal lw sw reti in
/// out halt (21)."
pub const OPS: [&str; 22] = [
    "add", "sub", "mac", "and", "or", "xor", "sll", "sra", "srl", "beq", "bne", "blt", "bgt",
    "ble", "bge", "jal", "lw", "sw", "reti", "in", "out", "halt",
];

/// The highest opcode, halt.
pub const LAST_OPCODE: u32 = 21;

pub const IRQ0ENABLE: usize = 0;
pub const IRQ1ENABLE: usize = 1;
pub const IRQ2ENABLE: usize = 2;
pub const IRQ0STATUS: usize = 3;
pub const IRQ1STATUS: usize = 4;
pub const IRQ2STATUS: usize = 5;
pub const IRQHANDLER: usize = 6;
pub const IRQRETURN: usize = 7;
pub const CLKS: usize = 8;
pub const LEDS: usize = 9;
pub const DISPLAY7SEG: usize = 10;
pub const TIMERENABLE: usize = 11;
pub const TIMERCURRENT: usize = 12;
pub const TIMERMAX: usize = 13;
pub const DISKCMD: usize = 14;
pub const DISKSECTOR: usize = 15;
pub const DISKBUFFER: usize = 16;
pub const DISKSTATUS: usize = 17;
pub const MONITORADDR: usize = 20;
pub const MONITORDATA: usize = 21;
pub const MONITORCMD: usize = 22;

/// How many places the table of I/O registers has: the numbers 0 to 22.
pub const IO_PLACES: usize = 23;

/// "I/O registers, number name (bits)"; the numbers 18 and 19 are not listed.
pub const IO: [Option<(&str, u32)>; IO_PLACES] = [
    Some(("irq0enable", 1)),
    Some(("irq1enable", 1)),
    Some(("irq2enable", 1)),
    Some(("irq0status", 1)),
    Some(("irq1status", 1)),
    Some(("irq2status", 1)),
    Some(("irqhandler", 12)),
    Some(("irqreturn", 12)),
    Some(("clks", 32)),
    Some(("leds", 32)),
    Some(("display7seg", 32)),
    Some(("timerenable", 1)),
    Some(("timercurrent", 32)),
    Some(("timermax", 32)),
    Some(("diskcmd", 2)),
    Some(("disksector", 7)),
    Some(("diskbuffer", 12)),
    Some(("diskstatus", 1)),
    None,
    None,
    Some(("monitoraddr", 16)),
    Some(("monitordata", 8)),
    Some(("monitorcmd", 1)),
];

/// Name and width of the I/O register `number`, all 32 bits of which count (M15).
pub fn io_register(number: u32) -> Option<(&'static str, u32)> {
    if (number as usize) < IO_PLACES {
        IO[number as usize]
    } else {
        None
    }
}

/// The value's low `bits` bits.
pub fn low_bits(value: u32, bits: u32) -> u32 {
    if bits == 32 {
        value
    } else {
        value & ((1 << bits) - 1)
    }
}
