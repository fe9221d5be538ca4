//! The sweep (rules 18.3-18.5).

use crate::commands::close_row;
use crate::state::{Memory, Row, LAST_SWEEP, ROWS, RUNNING};

const SWEEP_SECONDS: u64 = 60;
const STALE_SECONDS: u64 = 600;

/// Sweeps if a sweep is due.
pub fn sweep(clock: u32, memory: &mut Memory) {
    if !is_due(clock, memory.value(LAST_SWEEP)) {
        return;
    }
    for row in 0..ROWS {
        if memory.row_used(row) && is_stale(clock, &memory.row(row)) {
            close_row(row, memory);
        }
    }
    memory.set_value(LAST_SWEEP, clock);
}

pub fn is_due(clock: u32, last_sweep: u32) -> bool {
    u64::from(clock) >= u64::from(last_sweep).saturating_add(SWEEP_SECONDS)
}

fn is_stale(clock: u32, row: &Row) -> bool {
    u64::from(clock) > u64::from(row.stamp).saturating_add(STALE_SECONDS) && row.status != RUNNING
}
