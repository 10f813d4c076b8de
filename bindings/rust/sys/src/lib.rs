//! The C functions of `include/u32_table.h`, which describes each: their only declarations in Rust. `u32-table` is the safe interface to them.
//!
//! Each function here passes [`tie`], which makes the linker ask for the symbol with the number of these signatures. A library of other
//! signatures has another symbol, so a program does not link with it.
#![no_std]
#![deny(missing_docs)]
#![allow(clippy::too_many_arguments)]

#[macro_use]
mod symbol;

/// Hands the twenty-two declarations to the macro that is named.
#[macro_export]
macro_rules! functions {
    ($to:ident) => {
        $to! {
            fn u32_table_record(
                capacity: usize,
                used: usize,
                keys: *mut u64,
                key_words: usize,
                multiplicities: *mut u64,
                places: usize,
                holds: *mut u64,
                hold_places: usize,
                other_multiplicities: *mut u64,
                other_places: usize,
                other_holds: *mut u64,
                other_hold_places: usize,
                opcode: u64,
                left_operand: u64,
                right_operand: u64,
                answers: *mut u64,
                answer_words: usize,
            );
            fn u32_table_hold(
                capacity: usize,
                used: usize,
                keys: *mut u64,
                key_words: usize,
                multiplicities: *mut u64,
                places: usize,
                holds: *mut u64,
                hold_places: usize,
                other_multiplicities: *mut u64,
                other_places: usize,
                other_holds: *mut u64,
                other_hold_places: usize,
                opcode: u64,
                left_operand: u64,
                right_operand: u64,
                answers: *mut u64,
                answer_words: usize,
            );
            fn u32_table_confirm(
                capacity: usize,
                used: usize,
                keys: *const u64,
                key_words: usize,
                multiplicities: *mut u64,
                places: usize,
                holds: *mut u64,
                hold_places: usize,
                position: usize,
            );
            fn u32_table_drop(
                capacity: usize,
                used: usize,
                keys: *const u64,
                key_words: usize,
                multiplicities: *const u64,
                places: usize,
                holds: *mut u64,
                hold_places: usize,
                position: usize,
            );
            fn u32_table_replay(
                capacity: usize,
                used: usize,
                keys: *mut u64,
                key_words: usize,
                multiplicities: *mut u64,
                places: usize,
                holds: *mut u64,
                hold_places: usize,
                other_multiplicities: *mut u64,
                other_places: usize,
                other_holds: *mut u64,
                other_hold_places: usize,
                trace: *const u64,
                trace_words: usize,
                answers: *mut u64,
                answer_words: usize,
            );
            fn u32_table_compare(
                opcode: u64,
                left_operand: u64,
                right_operand: u64,
                other_opcode: u64,
                other_left_operand: u64,
                other_right_operand: u64,
                answers: *mut u64,
                answer_words: usize,
            );
            fn u32_table_plan(
                capacity: usize,
                used: usize,
                keys: *const u64,
                key_words: usize,
                multiplicities: *const u64,
                places: usize,
                holds: *const u64,
                hold_places: usize,
                answers: *mut u64,
                answer_words: usize,
            );
            fn u32_table_read(
                bytes: *const u8,
                byte_count: usize,
                capacity: usize,
                used: usize,
                keys: *mut u64,
                key_words: usize,
                multiplicities: *mut u64,
                places: usize,
                holds: *mut u64,
                hold_places: usize,
                other_multiplicities: *mut u64,
                other_places: usize,
                other_holds: *mut u64,
                other_hold_places: usize,
                answers: *mut u64,
                answer_words: usize,
            );
            fn u32_table_write(
                capacity: usize,
                used: usize,
                keys: *const u64,
                key_words: usize,
                multiplicities: *const u64,
                places: usize,
                holds: *const u64,
                hold_places: usize,
                out: *mut u8,
                byte_count: usize,
                answers: *mut u64,
                answer_words: usize,
            );
            fn u32_table_fill(
                capacity: usize,
                used: usize,
                keys: *const u64,
                key_words: usize,
                multiplicities: *const u64,
                places: usize,
                holds: *const u64,
                hold_places: usize,
                table: *mut u64,
                table_words: usize,
                answers: *mut u64,
                answer_words: usize,
            );
            fn u32_table_pad(table: *mut u64, table_words: usize, filled: usize);
            fn u32_table_extend(
                table: *const u64,
                table_words: usize,
                aux: *mut u64,
                aux_words: usize,
                challenges: *const u64,
                challenge_words: usize,
                answers: *mut u64,
                answer_words: usize,
            );
            fn u32_table_check(
                table: *const u64,
                table_words: usize,
                aux: *const u64,
                aux_words: usize,
                challenges: *const u64,
                challenge_words: usize,
                answers: *mut u64,
                answer_words: usize,
            );
            fn u32_table_client_sum(
                requests: *const u64,
                request_words: usize,
                challenges: *const u64,
                challenge_words: usize,
                answers: *mut u64,
                answer_words: usize,
            );
            fn u32_table_batches(
                jobs: *const u64,
                job_count: usize,
                setting: u64,
                results: *mut u64,
                result_words: usize,
                answers: *mut u64,
                answer_words: usize,
            );
            fn u32_table_look_up(
                capacity: usize,
                used: usize,
                keys: *mut u16,
                key_count: usize,
                multiplicities: *mut u64,
                places: usize,
                byte_multiplicities: *mut u64,
                byte_count: usize,
                value: u16,
                answers: *mut u64,
                answer_words: usize,
            );
            fn u32_table_byte_lookup(byte: u8, answers: *mut u64, answer_words: usize);
            fn u32_table_cascade_lookup(value: u16, answers: *mut u64, answer_words: usize);
            fn u32_table_byte_sum(
                byte_multiplicities: *const u64,
                byte_count: usize,
                challenges: *const u64,
                challenge_words: usize,
                aux: *mut u64,
                aux_words: usize,
                answers: *mut u64,
                answer_words: usize,
            );
            fn u32_table_cascade_sum(
                capacity: usize,
                used: usize,
                keys: *const u16,
                key_count: usize,
                multiplicities: *const u64,
                places: usize,
                challenges: *const u64,
                challenge_words: usize,
                aux: *mut u64,
                aux_words: usize,
                answers: *mut u64,
                answer_words: usize,
            );
            fn u32_table_archive(
                table: *const u64,
                table_words: usize,
                aux: *const u64,
                aux_words: usize,
                out: *mut u8,
                byte_count: usize,
            );
            fn u32_table_restore(
                bytes: *const u8,
                byte_count: usize,
                table: *mut u64,
                table_words: usize,
                aux: *mut u64,
                aux_words: usize,
            );
        }
    };
}

extern "C" {
    #[link_name = symbol!()]
    fn abi() -> u64;
}

/// Makes the linker need the symbol with the number of these signatures. It is a load that no compiler leaves out, and does nothing else.
#[inline(always)]
pub fn tie() {
    static ABI: unsafe extern "C" fn() -> u64 = abi;
    // SAFETY: it reads a static
    unsafe { core::ptr::read_volatile(&ABI) };
}

macro_rules! tied {
    ($(fn $name:ident($($argument:ident: $type:ty),* $(,)?);)*) => {
        mod c {
            extern "C" {
                $(pub fn $name($($argument: $type),*) -> u64;)*
            }
        }
        $(
            /// See `include/u32_table.h`. The answer is 0 for done, or the number of a reason to decline.
            ///
            /// # Safety
            ///
            /// Each pointer is aligned and as many elements are there as the number behind it says (a pointer to none may be null), and no array
            /// that the function may write overlaps another one.
            #[inline(always)]
            pub unsafe fn $name($($argument: $type),*) -> u64 {
                tie();
                c::$name($($argument),*)
            }
        )*
    };
}

functions!(tied);

/// The C functions of crates/probes, of which the contracts there say what they do. Each answers 0, or 1 where an array has not the length that
/// is asked for; `probe_chain` answers the product.
#[cfg(feature = "probes")]
#[allow(missing_docs)]
pub mod probes {
    extern "C" {
        pub fn probe_constraints(
            rows: *const u64,
            row_words: usize,
            aux: *const u64,
            aux_words: usize,
            challenges: *const u64,
            challenge_words: usize,
            values: *mut u64,
            value_words: usize,
        ) -> u64;
        pub fn probe_products(
            left: *const u64,
            left_words: usize,
            right: *const u64,
            right_words: usize,
            out: *mut u64,
            out_words: usize,
        ) -> u64;
        pub fn probe_chain(start: u64, factor: u64, times: u64) -> u64;
        pub fn probe_inverses(words: *const u64, word_count: usize, out: *mut u64, out_words: usize) -> u64;
        pub fn probe_ext_inverses(words: *const u64, word_count: usize, out: *mut u64, out_words: usize) -> u64;
        pub fn probe_ext_sums(
            left: *const u64,
            left_words: usize,
            right: *const u64,
            right_words: usize,
            out: *mut u64,
            out_words: usize,
        ) -> u64;
        pub fn probe_ext_differences(
            left: *const u64,
            left_words: usize,
            right: *const u64,
            right_words: usize,
            out: *mut u64,
            out_words: usize,
        ) -> u64;
        pub fn probe_ext_products(
            left: *const u64,
            left_words: usize,
            right: *const u64,
            right_words: usize,
            out: *mut u64,
            out_words: usize,
        ) -> u64;
    }
}
