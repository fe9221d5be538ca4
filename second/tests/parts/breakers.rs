//! Named breakers: each breaks one clause of soundness alone. A breaker gives `false` if the state offers no place for
//! it; another state is tried then.

use second::harness::{new_row, region, OwnedMemory, Random};
use second::names::{pad, Flash};
use second::state::{
    Row, COMMITTED_LENGTHS, FLAGS_FLASH, FLAGS_READ, FLAGS_READ_WRITE, HASH_LENGTH, IMAGE_LENGTH, NEXT_IDENTIFIER,
    PHASE, ROWS_USED, SLOTS_COMMITTED, SLOTS_USED, SLOT_CAPACITY, STAGED_LENGTHS,
};

pub type Breaker = fn(&mut Random, &mut OwnedMemory) -> bool;

pub const BREAKERS: &[(&str, Breaker)] = &[
    // Rule 6.2, and the phase.
    ("rows mask too large", |r, m| high_bit(r, &mut m.control[ROWS_USED])),
    ("slots mask too large", |r, m| high_bit(r, &mut m.control[SLOTS_USED])),
    ("committed mask too large", |r, m| {
        high_bit(r, &mut m.control[SLOTS_COMMITTED])
    }),
    ("next identifier too large", |r, m| {
        high_bit(r, &mut m.control[NEXT_IDENTIFIER])
    }),
    ("phase unknown", phase_unknown),
    // Lengths above the capacity (rules 6.3 and 6.11).
    ("committed length too large", |r, m| {
        at_slot(r, m, OwnedMemory::slot_committed, |r, m, slot| {
            too_long(r, &mut m.control[COMMITTED_LENGTHS + slot], 4096)
        })
    }),
    ("staged length too large", |r, m| {
        at_slot(r, m, has_writing_row, |r, m, slot| {
            too_long(r, &mut m.control[STAGED_LENGTHS + slot], 4096)
        })
    }),
    ("image length too large", |r, m| {
        m.control[PHASE] != 0 && too_long(r, &mut m.control[IMAGE_LENGTH], 16_384)
    }),
    ("hash length too large", |r, m| {
        m.control[PHASE] != 0 && too_long(r, &mut m.control[HASH_LENGTH], 64)
    }),
    // Something left in an unused row or slot (rules 6.4 and 6.10).
    ("unused row with identifier", |r, m| unused_row(r, m, 0)),
    ("unused row with blob", |r, m| unused_row(r, m, 1)),
    ("unused row with bits", |r, m| unused_row(r, m, 2)),
    ("unused row with stamp", |r, m| unused_row(r, m, 3)),
    ("unused slot with name", |r, m| {
        at_free_slot(r, m, |r, m, slot| nonzero(r, m.name_mut(slot)))
    }),
    ("unused slot with whole name", |r, m| {
        at_free_slot(r, m, |_, m, slot| set_name(m, slot, b"/scan/free"))
    }),
    ("unused slot committed", |r, m| {
        at_free_slot(r, m, |_, m, slot| {
            set(&mut m.control[SLOTS_COMMITTED], |mask| mask | 1 << slot)
        })
    }),
    ("unused slot with committed length", |r, m| {
        at_free_slot(r, m, some_committed_length)
    }),
    ("unused slot with staged length", |r, m| {
        at_free_slot(r, m, some_staged_length)
    }),
    ("unused slot with committed byte", |r, m| {
        at_free_slot(r, m, |r, m, slot| nonzero(r, &mut m.committed[region(slot)]))
    }),
    ("unused slot with staged byte", |r, m| {
        at_free_slot(r, m, |r, m, slot| nonzero(r, &mut m.staged[region(slot)]))
    }),
    ("unused slot with last staged byte", |r, m| {
        at_free_slot(r, m, |_, m, slot| {
            set(&mut m.staged[region(slot)][SLOT_CAPACITY - 1], |_| 1)
        })
    }),
    // Names of used slots (rules 6.11 and 6.13).
    ("name all zero", |r, m| rename(r, m, b"")),
    ("name is the base", |r, m| rename(r, m, b"/scan/")),
    ("name is flash", |r, m| rename(r, m, b"/flash/image")),
    ("name with other prefix", |r, m| rename(r, m, b"/scam/abc")),
    ("name with other case of prefix", |r, m| rename(r, m, b"/Scan/abc")),
    ("name without slash", |r, m| rename(r, m, b"/scanabc")),
    ("name with a slash within", |r, m| rename(r, m, b"/scan/a/b")),
    ("name with a sign below 0", |r, m| rename(r, m, b"/scan/a/")),
    ("name with a sign above 9", |r, m| rename(r, m, b"/scan/a:")),
    ("name with a sign below A", |r, m| rename(r, m, b"/scan/a@")),
    ("name with a sign above Z", |r, m| rename(r, m, b"/scan/a[")),
    ("name with a sign below a", |r, m| rename(r, m, b"/scan/a`")),
    ("name with a sign above z", |r, m| rename(r, m, b"/scan/a{")),
    ("name with a byte over 127", |r, m| rename(r, m, b"/scan/a\xE1")),
    ("name of 26 without NUL", |r, m| {
        rename(r, m, b"/scan/abcdefghijklmnopqrstuvwxyz")
    }),
    ("rubbish behind the NUL", rubbish_behind_name),
    ("two slots with the same name", same_names),
    // Identifiers and blobs of used rows, and their slots (rules 6.5, 6.6 and 6.9).
    ("identifier too large", |r, m| {
        change_row(r, m, any_row, |r, row| row.identifier += 65_536 << r.below(15))
    }),
    ("two rows with the same identifier", same_identifiers),
    ("blob too large", |r, m| {
        change_row(r, m, is_flash, |r, row| {
            row.blob = r
                .clone()
                .pick(&[21, 22, 31, 32, 255, 256 + row.blob, 65_536 + row.blob, u32::MAX]);
        })
    }),
    ("two rows with the same slot", same_slots),
    ("row of an unused slot", |r, m| row_of_unused_slot(r, m, FLAGS_READ)),
    ("writing row of an unused slot", |r, m| {
        row_of_unused_slot(r, m, FLAGS_READ_WRITE)
    }),
    // A second flash row (rule 6.9), also of the same kind (reading 17: that breaks two clauses).
    ("image and hash rows", |r, m| {
        two_flash(r, m, 1, (Flash::Image, 0), (Flash::Hash, 0))
    }),
    ("verify and cleanup rows", |r, m| {
        two_flash(r, m, 1, (Flash::Verify, 2), (Flash::Cleanup, 0))
    }),
    ("verify and update rows", |r, m| {
        two_flash(r, m, 2, (Flash::Verify, 0), (Flash::Update, 3))
    }),
    ("two cleanup rows", |r, m| {
        two_flash(r, m, 0, (Flash::Cleanup, 0), (Flash::Cleanup, 0))
    }),
    // Flags (rules 6.6 and 6.7).
    ("store row with flags 0", |r, m| set_flags(r, m, is_store, 0)),
    ("read-only row with flags 2", |r, m| set_flags(r, m, is_read_only, 2)),
    ("writing row with flags 2", |r, m| set_flags(r, m, is_writing, 2)),
    ("store row with more flags", |r, m| more_flags(r, m, is_store)),
    ("flash row with flags 0", |r, m| set_flags(r, m, is_flash, 0)),
    ("flash row with flags 1", |r, m| set_flags(r, m, is_flash, 1)),
    ("flash row with flags 3", |r, m| set_flags(r, m, is_flash, 3)),
    ("flash row with more flags", |r, m| more_flags(r, m, is_flash)),
    // A status that the blob has not (rules 6.6 and 6.8).
    ("status on a store row", |r, m| {
        change_row(r, m, is_store, |r, row| row.status = r.between(1, 3) as u32)
    }),
    ("status on an image row", |r, m| {
        status_on(r, m, Flash::Image, &[1, 2, 3])
    }),
    ("status on a hash row", |r, m| status_on(r, m, Flash::Hash, &[1, 2, 3])),
    ("cleanup running", |r, m| status_on(r, m, Flash::Cleanup, &[1])),
    ("cleanup failed", |r, m| status_on(r, m, Flash::Cleanup, &[3])),
    // A bit above clean (rule 6.5).
    ("remaining bits", |r, m| {
        change_row(r, m, any_row, |r, row| row.remaining = 1 << r.below(13))
    }),
    // Slots and their writers (rule 6.12).
    ("committed length of a new slot", |r, m| {
        at_slot(r, m, is_new_slot, some_committed_length)
    }),
    ("new slot without row", |r, m| at_row_of_new_slot(r, m, free_row)),
    ("new slot with a read-only row, clean", |r, m| {
        new_slot_read_only(r, m, true)
    }),
    ("new slot with a read-only row, not clean", |r, m| {
        new_slot_read_only(r, m, false)
    }),
    ("slot without row, not committed", |r, m| {
        at_slot(r, m, has_no_row, |_, m, slot| {
            m.control[COMMITTED_LENGTHS + slot] = 0;
            set(&mut m.control[SLOTS_COMMITTED], |mask| mask & !(1 << slot))
        })
    }),
    ("staged length without row", |r, m| {
        at_slot(r, m, has_no_row, some_staged_length)
    }),
    ("staged length with a read-only row", |r, m| {
        at_slot(r, m, has_read_only_row, some_staged_length)
    }),
    // Clean (rules 6.6 and 6.7).
    ("clean flash row", |r, m| set_clean(r, m, is_flash, true)),
    ("clean row of a new slot", |r, m| set_clean(r, m, is_of_new_slot, true)),
    ("read-only row not clean", |r, m| set_clean(r, m, is_read_only, false)),
    // Status against phase (rule 6.8).
    ("image row in Idle", |r, m| flash_row(r, m, 0, Flash::Image, 0)),
    ("image row in Verified", |r, m| flash_row(r, m, 2, Flash::Image, 0)),
    ("hash row in Idle", |r, m| flash_row(r, m, 0, Flash::Hash, 0)),
    ("hash row in Verified", |r, m| flash_row(r, m, 2, Flash::Hash, 0)),
    ("verify row in Idle", |r, m| flash_row(r, m, 0, Flash::Verify, 0)),
    ("verify row running in Verified", |r, m| {
        flash_row(r, m, 2, Flash::Verify, 1)
    }),
    ("verify row succeeded in Verified", |r, m| {
        flash_row(r, m, 2, Flash::Verify, 2)
    }),
    ("verify row failed in Verified", |r, m| {
        flash_row(r, m, 2, Flash::Verify, 3)
    }),
    ("update row in Idle", |r, m| any_status(r, m, 0, Flash::Update)),
    ("update row in Uploading", |r, m| any_status(r, m, 1, Flash::Update)),
    ("cleanup row at 2 in Uploading", |r, m| {
        flash_row(r, m, 1, Flash::Cleanup, 2)
    }),
    ("cleanup row at 2 in Verified", |r, m| {
        flash_row(r, m, 2, Flash::Cleanup, 2)
    }),
    // Lengths in Idle (rule 6.3).
    ("image length in Idle", |r, m| {
        m.control[PHASE] == 0 && some_length(r, &mut m.control[IMAGE_LENGTH])
    }),
    ("hash length in Idle", |r, m| {
        m.control[PHASE] == 0 && set(&mut m.control[HASH_LENGTH], |_| r.between(1, 64) as u32)
    }),
];

fn set<T: Copy>(place: &mut T, change: impl FnOnce(T) -> T) -> bool {
    *place = change(*place);
    true
}

fn high_bit(random: &mut Random, word: &mut u32) -> bool {
    set(word, |word| word | 65_536 << random.below(16))
}

fn phase_unknown(random: &mut Random, memory: &mut OwnedMemory) -> bool {
    let phase = memory.control[PHASE];
    let numbers = [3, 4, 255, 256, 256 + phase, 65_536 + phase, u32::MAX];
    set(&mut memory.control[PHASE], |_| random.pick(&numbers))
}

fn too_long(random: &mut Random, length: &mut u32, capacity: u32) -> bool {
    let more = random.below(1000) as u32;
    let numbers = [
        capacity + 1,
        capacity + 1,
        capacity + 1 + more,
        1 << 31,
        65_536,
        u32::MAX,
    ];
    set(length, |_| random.pick(&numbers))
}

fn some_length(random: &mut Random, length: &mut u32) -> bool {
    set(length, |_| random.between(1, 4096) as u32)
}

fn some_committed_length(random: &mut Random, memory: &mut OwnedMemory, slot: usize) -> bool {
    some_length(random, &mut memory.control[COMMITTED_LENGTHS + slot])
}

fn some_staged_length(random: &mut Random, memory: &mut OwnedMemory, slot: usize) -> bool {
    some_length(random, &mut memory.control[STAGED_LENGTHS + slot])
}

fn nonzero(random: &mut Random, bytes: &mut [u8]) -> bool {
    let place = random.below(bytes.len() as u64) as usize;
    set(&mut bytes[place], |_| 1 << random.below(8))
}

// ---- Choosing slots and rows ----

/// Breaks the state at a used slot that is as wanted.
fn at_slot(
    random: &mut Random,
    memory: &mut OwnedMemory,
    wanted: fn(&OwnedMemory, usize) -> bool,
    break_at: impl FnOnce(&mut Random, &mut OwnedMemory, usize) -> bool,
) -> bool {
    let mut slots = memory.used_slots();
    slots.retain(|slot| wanted(memory, *slot));
    let slot = random.pick_if_any(&slots);
    slot.is_some_and(|slot| break_at(random, memory, slot))
}

fn at_free_slot(
    random: &mut Random,
    memory: &mut OwnedMemory,
    break_at: impl FnOnce(&mut Random, &mut OwnedMemory, usize) -> bool,
) -> bool {
    let slot = random.pick_if_any(&memory.free_slots());
    slot.is_some_and(|slot| break_at(random, memory, slot))
}

fn two_of(random: &mut Random, mut places: Vec<usize>) -> Option<(usize, usize)> {
    random.shuffle(&mut places);
    Some((*places.first()?, *places.get(1)?))
}

fn any_slot(_: &OwnedMemory, _: usize) -> bool {
    true
}

fn is_new_slot(memory: &OwnedMemory, slot: usize) -> bool {
    !memory.slot_committed(slot)
}

fn has_no_row(memory: &OwnedMemory, slot: usize) -> bool {
    memory.row_of_slot(slot).is_none()
}

fn has_writing_row(memory: &OwnedMemory, slot: usize) -> bool {
    has_row_with(memory, slot, FLAGS_READ_WRITE)
}

fn has_read_only_row(memory: &OwnedMemory, slot: usize) -> bool {
    has_row_with(memory, slot, FLAGS_READ)
}

fn has_row_with(memory: &OwnedMemory, slot: usize, flags: u32) -> bool {
    memory
        .row_of_slot(slot)
        .is_some_and(|row| memory.row(row).flags == flags)
}

type RowTest = fn(&OwnedMemory, &Row) -> bool;

fn any_row(_: &OwnedMemory, _: &Row) -> bool {
    true
}

fn is_store(_: &OwnedMemory, row: &Row) -> bool {
    row.slot().is_some()
}

fn is_flash(_: &OwnedMemory, row: &Row) -> bool {
    row.flash().is_some()
}

fn is_writing(_: &OwnedMemory, row: &Row) -> bool {
    row.is_writing_store()
}

fn is_read_only(_: &OwnedMemory, row: &Row) -> bool {
    row.slot().is_some() && row.flags == FLAGS_READ
}

fn is_of_new_slot(memory: &OwnedMemory, row: &Row) -> bool {
    row.slot().is_some_and(|slot| is_new_slot(memory, slot))
}

fn change_row(
    random: &mut Random,
    memory: &mut OwnedMemory,
    wanted: RowTest,
    change: impl FnOnce(&mut Random, &mut Row),
) -> bool {
    let mut rows = memory.used_rows();
    rows.retain(|row| wanted(memory, &memory.row(*row)));
    let Some(place) = random.pick_if_any(&rows) else {
        return false;
    };
    let mut row = memory.row(place);
    change(random, &mut row);
    memory.set_row(place, &row);
    true
}

fn set_flags(random: &mut Random, memory: &mut OwnedMemory, wanted: RowTest, flags: u32) -> bool {
    change_row(random, memory, wanted, |_, row| row.flags = flags)
}

fn more_flags(random: &mut Random, memory: &mut OwnedMemory, wanted: RowTest) -> bool {
    change_row(random, memory, wanted, |random, row| row.flags |= 4 << random.below(14))
}

fn set_clean(random: &mut Random, memory: &mut OwnedMemory, wanted: RowTest, clean: bool) -> bool {
    change_row(random, memory, wanted, |_, row| row.clean = clean)
}

fn unused_row(random: &mut Random, memory: &mut OwnedMemory, word: usize) -> bool {
    let Some(row) = random.pick_if_any(&memory.free_rows()) else {
        return false;
    };
    set(&mut memory.table[row * 4 + word], |_| 1 << random.below(32))
}

// ---- Names ----

fn set_name(memory: &mut OwnedMemory, slot: usize, name: &[u8]) -> bool {
    memory.name_mut(slot).copy_from_slice(&pad(name));
    true
}

fn rename(random: &mut Random, memory: &mut OwnedMemory, name: &[u8]) -> bool {
    at_slot(random, memory, any_slot, |_, memory, slot| set_name(memory, slot, name))
}

fn rubbish_behind_name(random: &mut Random, memory: &mut OwnedMemory) -> bool {
    let has_space = |memory: &OwnedMemory, slot| memory.name(slot)[30] == 0;
    at_slot(random, memory, has_space, |random, memory, slot| {
        let name = memory.name_mut(slot);
        let nul = name.iter().position(|byte| *byte == 0).expect("a NUL");
        let place = random.between(nul as u64 + 1, 31) as usize;
        set(&mut name[place], |_| b'a')
    })
}

fn same_names(random: &mut Random, memory: &mut OwnedMemory) -> bool {
    let Some((one, other)) = two_of(random, memory.used_slots()) else {
        return false;
    };
    let name = memory.name(one).to_vec();
    memory.name_mut(other).copy_from_slice(&name);
    true
}

// ---- Rows ----

fn same_identifiers(random: &mut Random, memory: &mut OwnedMemory) -> bool {
    let Some((one, other)) = two_of(random, memory.used_rows()) else {
        return false;
    };
    memory.table[one * 4] = memory.table[other * 4];
    true
}

/// Fills a free row with an identifier that no row has.
fn add_row(random: &mut Random, memory: &mut OwnedMemory, row: Row) -> bool {
    let Some(place) = random.pick_if_any(&memory.free_rows()) else {
        return false;
    };
    let identifier = (0..65_536)
        .find(|number| memory.session(*number).is_none())
        .expect("an unused identifier");
    memory.set_row(
        place,
        &Row {
            identifier,
            stamp: 7,
            ..row
        },
    );
    memory.control[ROWS_USED] |= 1 << place;
    true
}

fn same_slots(random: &mut Random, memory: &mut OwnedMemory) -> bool {
    at_slot(random, memory, has_read_only_row, |random, memory, slot| {
        add_row(random, memory, new_row(slot as u32, FLAGS_READ, 0, true))
    })
}

fn row_of_unused_slot(random: &mut Random, memory: &mut OwnedMemory, flags: u32) -> bool {
    at_free_slot(random, memory, |random, memory, slot| {
        add_row(random, memory, new_row(slot as u32, flags, 0, false))
    })
}

/// Breaks the state at the row of a new slot, after the staged length went to 0.
fn at_row_of_new_slot(
    random: &mut Random,
    memory: &mut OwnedMemory,
    break_at: impl FnOnce(&mut OwnedMemory, usize) -> bool,
) -> bool {
    at_slot(random, memory, is_new_slot, |_, memory, slot| {
        memory.control[STAGED_LENGTHS + slot] = 0;
        let row = memory.row_of_slot(slot).expect("a new slot has a row");
        break_at(memory, row)
    })
}

fn new_slot_read_only(random: &mut Random, memory: &mut OwnedMemory, clean: bool) -> bool {
    at_row_of_new_slot(random, memory, |memory, place| {
        let row = memory.row(place);
        memory.set_row(
            place,
            &Row {
                flags: FLAGS_READ,
                clean,
                ..row
            },
        );
        true
    })
}

fn free_row(memory: &mut OwnedMemory, row: usize) -> bool {
    memory.table[row * 4..row * 4 + 4].fill(0);
    memory.control[ROWS_USED] &= !(1 << row);
    true
}

// ---- Flash rows ----

fn status_on(random: &mut Random, memory: &mut OwnedMemory, flash: Flash, statuses: &[u32]) -> bool {
    let phase = if flash == Flash::Cleanup {
        memory.control[PHASE]
    } else {
        1
    };
    let status = random.pick(statuses);
    flash_row(random, memory, phase, flash, status)
}

fn any_status(random: &mut Random, memory: &mut OwnedMemory, phase: u32, flash: Flash) -> bool {
    let status = random.below(4) as u32;
    flash_row(random, memory, phase, flash, status)
}

/// Makes this the only flash row, in this phase, with lengths that fit the phase.
fn flash_row(random: &mut Random, memory: &mut OwnedMemory, phase: u32, flash: Flash, status: u32) -> bool {
    if let Some(row) = memory.flash_row() {
        free_row(memory, row);
    }
    memory.control[PHASE] = phase;
    if phase == 0 {
        memory.control[IMAGE_LENGTH] = 0;
        memory.control[HASH_LENGTH] = 0;
    }
    add_row(random, memory, new_row(flash.blob(), FLAGS_FLASH, status, false))
}

fn two_flash(
    random: &mut Random,
    memory: &mut OwnedMemory,
    phase: u32,
    one: (Flash, u32),
    other: (Flash, u32),
) -> bool {
    flash_row(random, memory, phase, one.0, one.1)
        && add_row(random, memory, new_row(other.0.blob(), FLAGS_FLASH, other.1, false))
}
