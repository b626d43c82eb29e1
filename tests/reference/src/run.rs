//! Run calls.

use crate::machine::{apply, one_cycle, RUNNING};
use crate::record::{is_sound, Record};
use crate::{Refusal, AGE_LIMIT, DATA_WORDS, DISK_WORDS, FRAME_BYTES, IMAGE_WORDS};

/// The reasons for which a run returns.
pub const BUDGET_SPENT: u32 = 0;
pub const STATUS_NOT_0: u32 = 1;
pub const LOG_FULL: u32 = 2;
pub const AGE_AT_LIMIT: u32 = 3;

/// "It returns record, cycles done, log bytes written and reason". Refused, "a run hands its
/// record back, … every count and reason 0".
#[derive(Clone, Debug, PartialEq, Eq)]
pub struct RunAnswer {
    pub refusal: Option<Refusal>,
    pub record: Record,
    pub cycles: u64,
    pub log_bytes: usize,
    pub reason: u32,
}

/// "Run: irq2 list strictly rising? 12." No more is asked of the list (R1).
fn strictly_rising(list: &[u64]) -> bool {
    for at in 1..list.len() {
        if list[at] <= list[at - 1] {
            return false;
        }
    }
    true
}

/// One run call. `log` is the room for the log; bytes beyond those written keep their contents.
#[allow(clippy::too_many_arguments)]
pub fn run(
    record: &Record,
    image: &[u64],
    data: &mut [u32],
    disk: &mut [u32],
    frame: &mut [u8],
    irq2: &[u64],
    budget: u64,
    log: &mut [u8],
) -> RunAnswer {
    let refused = |number| RunAnswer {
        refusal: Some(Refusal::new(number, 0)),
        record: record.clone(),
        cycles: 0,
        log_bytes: 0,
        reason: 0,
    };
    // "All: are the lent lengths those above? 1." "An irq2 list, a log … have any length."
    if image.len() != IMAGE_WORDS
        || data.len() != DATA_WORDS
        || disk.len() != DISK_WORDS
        || frame.len() != FRAME_BYTES
    {
        return refused(1);
    }
    // "Run: irq2 list strictly rising? 12. Record sound? 13."
    if !strictly_rising(irq2) {
        return refused(12);
    }
    if !is_sound(record) {
        return refused(13);
    }

    let mut now = record.clone();
    let mut cycles = 0;
    let mut log_bytes = 0;
    let reason;
    loop {
        // "Before each cycle a run asks in this order: status not 0 (reason 1); age = 2^40-1
        // (reason 3); budget spent (reason 0); the cycle's lines don't fit the rest of the log
        // (reason 2)."
        if now.status != RUNNING {
            reason = STATUS_NOT_0;
            break;
        }
        if now.age == AGE_LIMIT {
            reason = AGE_AT_LIMIT;
            break;
        }
        if cycles == budget {
            reason = BUDGET_SPENT;
            break;
        }
        let cycle = one_cycle(&now, image, data, irq2);
        let lines = cycle.lines.as_bytes();
        // "Lines fit that have no more bytes than the run's log has left."
        if lines.len() > log.len() - log_bytes {
            reason = LOG_FULL;
            break;
        }
        log[log_bytes..log_bytes + lines.len()].copy_from_slice(lines);
        log_bytes += lines.len();
        apply(&cycle, data, disk, frame);
        now = cycle.record;
        cycles += 1;
    }
    RunAnswer {
        refusal: None,
        record: now,
        cycles,
        log_bytes,
        reason,
    }
}
