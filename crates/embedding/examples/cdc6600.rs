//! The library's functions and structures, as include/cdc6600.h declares them. That file has the rules for the caller.
#![allow(dead_code)]

use std::ffi::c_void;

/// The outcome of a call. The bytes are counted even if they didn't fit.
#[repr(C)]
pub struct Outcome {
    pub printed: usize,
    pub told: usize,
    pub status: u8,
}

/// A machine, or none. Its members belong to the library.
#[repr(C)]
pub struct Machine {
    address: *mut c_void,
    has_machine: bool,
}

impl Machine {
    /// A handle without a machine, for `cdc6600_boot`.
    pub const NONE: Machine = Machine {
        address: std::ptr::null_mut(),
        has_machine: false,
    };
}

/// The registers of a machine. B0 is 0.
#[repr(C)]
#[derive(Clone, Copy, Default)]
pub struct Registers {
    pub x: [u64; 8],
    pub a: [u32; 8],
    pub b: [u32; 8],
    pub p: u32,
    pub ra: u32,
    pub fl: u32,
    pub em: u32,
    pub parcel: u8,
    pub halt: u8,
    pub fault: bool,
    pub has_held: bool,
    pub opcode: u16,
    pub held: u64,
}

// From edition 2024 on this is `unsafe extern`.
extern "C" {
    pub fn cdc6600_version(output: *mut u8, output_capacity: usize) -> usize;
    pub fn cdc6600_list(
        input: *const u8,
        input_length: usize,
        output: *mut u8,
        output_capacity: usize,
        line: *mut u8,
        line_capacity: usize,
    ) -> Outcome;
    pub fn cdc6600_run(
        input: *const u8,
        input_length: usize,
        budget: u64,
        output: *mut u8,
        output_capacity: usize,
        line: *mut u8,
        line_capacity: usize,
    ) -> Outcome;
    pub fn cdc6600_replay(
        input: *const u8,
        input_length: usize,
        log: *const u8,
        log_length: usize,
        output: *mut u8,
        output_capacity: usize,
        line: *mut u8,
        line_capacity: usize,
    ) -> Outcome;
    pub fn cdc6600_events(
        input: *const u8,
        input_length: usize,
        budget: u64,
        output: *mut u8,
        output_capacity: usize,
        line: *mut u8,
        line_capacity: usize,
    ) -> Outcome;
    pub fn cdc6600_boot(
        machine: *mut Machine,
        input: *const u8,
        input_length: usize,
        budget: u64,
        line: *mut u8,
        line_capacity: usize,
    ) -> Outcome;
    pub fn cdc6600_event(
        machine: *mut Machine,
        event: *const u8,
        event_length: usize,
        output: *mut u8,
        output_capacity: usize,
        line: *mut u8,
        line_capacity: usize,
    ) -> Outcome;
    pub fn cdc6600_next(
        machine: *mut Machine,
        output: *mut u8,
        output_capacity: usize,
        line: *mut u8,
        line_capacity: usize,
    ) -> Outcome;
    pub fn cdc6600_advance(machine: *mut Machine, most: u64, address: u32) -> u64;
    pub fn cdc6600_drain(machine: *mut Machine) -> u32;
    pub fn cdc6600_is_drained(machine: *mut Machine) -> bool;
    pub fn cdc6600_log(
        machine: *mut Machine,
        output: *mut u8,
        output_capacity: usize,
        line: *mut u8,
        line_capacity: usize,
    ) -> Outcome;
    pub fn cdc6600_dump(
        machine: *mut Machine,
        output: *mut u8,
        output_capacity: usize,
        line: *mut u8,
        line_capacity: usize,
    ) -> Outcome;
    pub fn cdc6600_units(
        machine: *mut Machine,
        output: *mut u8,
        output_capacity: usize,
        line: *mut u8,
        line_capacity: usize,
    ) -> Outcome;
    pub fn cdc6600_hopper(
        machine: *mut Machine,
        output: *mut u8,
        output_capacity: usize,
        line: *mut u8,
        line_capacity: usize,
    ) -> Outcome;
    pub fn cdc6600_channels(
        machine: *mut Machine,
        output: *mut u8,
        output_capacity: usize,
        line: *mut u8,
        line_capacity: usize,
    ) -> Outcome;
    pub fn cdc6600_banks(
        machine: *mut Machine,
        output: *mut u8,
        output_capacity: usize,
        line: *mut u8,
        line_capacity: usize,
    ) -> Outcome;
    pub fn cdc6600_request(
        machine: *mut Machine,
        output: *mut u8,
        output_capacity: usize,
        line: *mut u8,
        line_capacity: usize,
    ) -> Outcome;
    pub fn cdc6600_next_instruction(
        machine: *mut Machine,
        output: *mut u8,
        output_capacity: usize,
        line: *mut u8,
        line_capacity: usize,
    ) -> Outcome;
    pub fn cdc6600_reserved_registers(
        machine: *mut Machine,
        output: *mut u8,
        output_capacity: usize,
        line: *mut u8,
        line_capacity: usize,
    ) -> Outcome;
    pub fn cdc6600_unread_operands(
        machine: *mut Machine,
        output: *mut u8,
        output_capacity: usize,
        line: *mut u8,
        line_capacity: usize,
    ) -> Outcome;
    pub fn cdc6600_judge(
        machine: *mut Machine,
        event: *const u8,
        event_length: usize,
        output: *mut u8,
        output_capacity: usize,
        line: *mut u8,
        line_capacity: usize,
    ) -> Outcome;
    pub fn cdc6600_read_registers(machine: *mut Machine, registers: *mut Registers) -> u8;
    pub fn cdc6600_read_words(
        machine: *mut Machine,
        first: u32,
        words: *mut u64,
        words_capacity: usize,
    ) -> Outcome;
    pub fn cdc6600_free(machine: *mut Machine);
}
