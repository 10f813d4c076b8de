//! The C functions, each behind a safe function over slices. This is the only module of this crate with `unsafe` in it.
#![allow(unsafe_code)]

use u32_table_sys as c;

// SAFETY, for every call below: each pointer and length is those of a slice that is borrowed for the time of the call, so the pointer is not
// null and is aligned, its elements are there, and what the call may write overlaps nothing else. The functions ask nothing more: they
// are proved to stay within these slices for all numbers and contents, to end, and they keep no pointer.

pub fn record(
    [capacity, used]: [usize; 2],
    keys: &mut [u64],
    multiplicities: &mut [u64],
    holds: &mut [u64],
    [other_multiplicities, other_holds]: [&mut [u64]; 2],
    [opcode, left_operand, right_operand]: [u64; 3],
    answers: &mut [u64; 2],
) -> u64 {
    unsafe {
        c::u32_table_record(
            capacity,
            used,
            keys.as_mut_ptr(),
            keys.len(),
            multiplicities.as_mut_ptr(),
            multiplicities.len(),
            holds.as_mut_ptr(),
            holds.len(),
            other_multiplicities.as_mut_ptr(),
            other_multiplicities.len(),
            other_holds.as_mut_ptr(),
            other_holds.len(),
            opcode,
            left_operand,
            right_operand,
            answers.as_mut_ptr(),
            answers.len(),
        )
    }
}

pub fn hold(
    [capacity, used]: [usize; 2],
    keys: &mut [u64],
    multiplicities: &mut [u64],
    holds: &mut [u64],
    [other_multiplicities, other_holds]: [&mut [u64]; 2],
    [opcode, left_operand, right_operand]: [u64; 3],
    answers: &mut [u64; 2],
) -> u64 {
    unsafe {
        c::u32_table_hold(
            capacity,
            used,
            keys.as_mut_ptr(),
            keys.len(),
            multiplicities.as_mut_ptr(),
            multiplicities.len(),
            holds.as_mut_ptr(),
            holds.len(),
            other_multiplicities.as_mut_ptr(),
            other_multiplicities.len(),
            other_holds.as_mut_ptr(),
            other_holds.len(),
            opcode,
            left_operand,
            right_operand,
            answers.as_mut_ptr(),
            answers.len(),
        )
    }
}

pub fn confirm(
    [capacity, used]: [usize; 2],
    keys: &[u64],
    multiplicities: &mut [u64],
    holds: &mut [u64],
    position: usize,
) -> u64 {
    unsafe {
        c::u32_table_confirm(
            capacity,
            used,
            keys.as_ptr(),
            keys.len(),
            multiplicities.as_mut_ptr(),
            multiplicities.len(),
            holds.as_mut_ptr(),
            holds.len(),
            position,
        )
    }
}

pub fn drop_hold([capacity, used]: [usize; 2], keys: &[u64], multiplicities: &[u64], holds: &mut [u64], position: usize) -> u64 {
    unsafe {
        c::u32_table_drop(
            capacity,
            used,
            keys.as_ptr(),
            keys.len(),
            multiplicities.as_ptr(),
            multiplicities.len(),
            holds.as_mut_ptr(),
            holds.len(),
            position,
        )
    }
}

pub fn replay(
    [capacity, used]: [usize; 2],
    keys: &mut [u64],
    multiplicities: &mut [u64],
    holds: &mut [u64],
    [other_multiplicities, other_holds]: [&mut [u64]; 2],
    trace: &[u64],
    answers: &mut [u64; 2],
) -> u64 {
    unsafe {
        c::u32_table_replay(
            capacity,
            used,
            keys.as_mut_ptr(),
            keys.len(),
            multiplicities.as_mut_ptr(),
            multiplicities.len(),
            holds.as_mut_ptr(),
            holds.len(),
            other_multiplicities.as_mut_ptr(),
            other_multiplicities.len(),
            other_holds.as_mut_ptr(),
            other_holds.len(),
            trace.as_ptr(),
            trace.len(),
            answers.as_mut_ptr(),
            answers.len(),
        )
    }
}

pub fn compare(entry: [u64; 3], other: [u64; 3], answers: &mut [u64; 1]) -> u64 {
    unsafe {
        c::u32_table_compare(entry[0], entry[1], entry[2], other[0], other[1], other[2], answers.as_mut_ptr(), answers.len())
    }
}

pub fn plan([capacity, used]: [usize; 2], keys: &[u64], multiplicities: &[u64], holds: &[u64], answers: &mut [u64; 2]) -> u64 {
    unsafe {
        c::u32_table_plan(
            capacity,
            used,
            keys.as_ptr(),
            keys.len(),
            multiplicities.as_ptr(),
            multiplicities.len(),
            holds.as_ptr(),
            holds.len(),
            answers.as_mut_ptr(),
            answers.len(),
        )
    }
}

pub fn read(
    bytes: &[u8],
    [capacity, used]: [usize; 2],
    keys: &mut [u64],
    multiplicities: &mut [u64],
    holds: &mut [u64],
    [other_multiplicities, other_holds]: [&mut [u64]; 2],
    answers: &mut [u64; 1],
) -> u64 {
    unsafe {
        c::u32_table_read(
            bytes.as_ptr(),
            bytes.len(),
            capacity,
            used,
            keys.as_mut_ptr(),
            keys.len(),
            multiplicities.as_mut_ptr(),
            multiplicities.len(),
            holds.as_mut_ptr(),
            holds.len(),
            other_multiplicities.as_mut_ptr(),
            other_multiplicities.len(),
            other_holds.as_mut_ptr(),
            other_holds.len(),
            answers.as_mut_ptr(),
            answers.len(),
        )
    }
}

pub fn write(
    [capacity, used]: [usize; 2],
    keys: &[u64],
    multiplicities: &[u64],
    holds: &[u64],
    out: &mut [u8],
    answers: &mut [u64; 1],
) -> u64 {
    unsafe {
        c::u32_table_write(
            capacity,
            used,
            keys.as_ptr(),
            keys.len(),
            multiplicities.as_ptr(),
            multiplicities.len(),
            holds.as_ptr(),
            holds.len(),
            out.as_mut_ptr(),
            out.len(),
            answers.as_mut_ptr(),
            answers.len(),
        )
    }
}

pub fn fill(
    [capacity, used]: [usize; 2],
    keys: &[u64],
    multiplicities: &[u64],
    holds: &[u64],
    table: &mut [u64],
    answers: &mut [u64; 1],
) -> u64 {
    unsafe {
        c::u32_table_fill(
            capacity,
            used,
            keys.as_ptr(),
            keys.len(),
            multiplicities.as_ptr(),
            multiplicities.len(),
            holds.as_ptr(),
            holds.len(),
            table.as_mut_ptr(),
            table.len(),
            answers.as_mut_ptr(),
            answers.len(),
        )
    }
}

pub fn pad(table: &mut [u64], filled: usize) -> u64 {
    unsafe { c::u32_table_pad(table.as_mut_ptr(), table.len(), filled) }
}

pub fn extend(table: &[u64], aux: &mut [u64], challenges: &[u64], answers: &mut [u64; 3]) -> u64 {
    unsafe {
        c::u32_table_extend(
            table.as_ptr(),
            table.len(),
            aux.as_mut_ptr(),
            aux.len(),
            challenges.as_ptr(),
            challenges.len(),
            answers.as_mut_ptr(),
            answers.len(),
        )
    }
}

pub fn check(table: &[u64], aux: &[u64], challenges: &[u64], answers: &mut [u64; 7]) -> u64 {
    unsafe {
        c::u32_table_check(
            table.as_ptr(),
            table.len(),
            aux.as_ptr(),
            aux.len(),
            challenges.as_ptr(),
            challenges.len(),
            answers.as_mut_ptr(),
            answers.len(),
        )
    }
}

pub fn client_sum(requests: &[u64], challenges: &[u64], answers: &mut [u64; 3]) -> u64 {
    unsafe {
        c::u32_table_client_sum(
            requests.as_ptr(),
            requests.len(),
            challenges.as_ptr(),
            challenges.len(),
            answers.as_mut_ptr(),
            answers.len(),
        )
    }
}

pub fn batches(jobs: &[u64], setting: u64, results: &mut [u64], answers: &mut [u64; 2]) -> u64 {
    unsafe {
        c::u32_table_batches(
            jobs.as_ptr(),
            jobs.len(),
            setting,
            results.as_mut_ptr(),
            results.len(),
            answers.as_mut_ptr(),
            answers.len(),
        )
    }
}

pub fn look_up(
    [capacity, used]: [usize; 2],
    keys: &mut [u16],
    multiplicities: &mut [u64],
    byte_multiplicities: &mut [u64],
    value: u16,
    answers: &mut [u64; 1],
) -> u64 {
    unsafe {
        c::u32_table_look_up(
            capacity,
            used,
            keys.as_mut_ptr(),
            keys.len(),
            multiplicities.as_mut_ptr(),
            multiplicities.len(),
            byte_multiplicities.as_mut_ptr(),
            byte_multiplicities.len(),
            value,
            answers.as_mut_ptr(),
            answers.len(),
        )
    }
}

pub fn byte_lookup(byte: u8, answers: &mut [u64; 1]) -> u64 {
    unsafe { c::u32_table_byte_lookup(byte, answers.as_mut_ptr(), answers.len()) }
}

pub fn cascade_lookup(value: u16, answers: &mut [u64; 1]) -> u64 {
    unsafe { c::u32_table_cascade_lookup(value, answers.as_mut_ptr(), answers.len()) }
}

pub fn byte_sum(byte_multiplicities: &[u64], challenges: &[u64], aux: &mut [u64], answers: &mut [u64; 3]) -> u64 {
    unsafe {
        c::u32_table_byte_sum(
            byte_multiplicities.as_ptr(),
            byte_multiplicities.len(),
            challenges.as_ptr(),
            challenges.len(),
            aux.as_mut_ptr(),
            aux.len(),
            answers.as_mut_ptr(),
            answers.len(),
        )
    }
}

pub fn cascade_sum(
    [capacity, used]: [usize; 2],
    keys: &[u16],
    multiplicities: &[u64],
    challenges: &[u64],
    aux: &mut [u64],
    answers: &mut [u64; 3],
) -> u64 {
    unsafe {
        c::u32_table_cascade_sum(
            capacity,
            used,
            keys.as_ptr(),
            keys.len(),
            multiplicities.as_ptr(),
            multiplicities.len(),
            challenges.as_ptr(),
            challenges.len(),
            aux.as_mut_ptr(),
            aux.len(),
            answers.as_mut_ptr(),
            answers.len(),
        )
    }
}

pub fn archive(table: &[u64], aux: &[u64], out: &mut [u8]) -> u64 {
    unsafe { c::u32_table_archive(table.as_ptr(), table.len(), aux.as_ptr(), aux.len(), out.as_mut_ptr(), out.len()) }
}

pub fn restore(bytes: &[u8], table: &mut [u64], aux: &mut [u64]) -> u64 {
    unsafe { c::u32_table_restore(bytes.as_ptr(), bytes.len(), table.as_mut_ptr(), table.len(), aux.as_mut_ptr(), aux.len()) }
}
