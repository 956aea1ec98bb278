//! Debian's Z80 emulator, libz80ex, over 64 kilobytes of which the lowest 16 are ROM.

use std::ffi::{c_int, c_void};

const ROM_END: u16 = 0x4000;

#[repr(C)]
struct Context {
    _opaque: [u8; 0],
}

type ReadMemory = extern "C" fn(*mut Context, u16, c_int, *mut c_void) -> u8;
type WriteMemory = extern "C" fn(*mut Context, u16, u8, *mut c_void);
type ReadPort = extern "C" fn(*mut Context, u16, *mut c_void) -> u8;
type WritePort = extern "C" fn(*mut Context, u16, u8, *mut c_void);
type ReadVector = extern "C" fn(*mut Context, *mut c_void) -> u8;

extern "C" {
    fn z80ex_create(
        read: ReadMemory,
        read_data: *mut c_void,
        write: WriteMemory,
        write_data: *mut c_void,
        read_port: ReadPort,
        read_port_data: *mut c_void,
        write_port: WritePort,
        write_port_data: *mut c_void,
        read_vector: ReadVector,
        read_vector_data: *mut c_void,
    ) -> *mut Context;
    fn z80ex_destroy(cpu: *mut Context);
    fn z80ex_step(cpu: *mut Context) -> c_int;
    fn z80ex_last_op_type(cpu: *mut Context) -> u8;
    fn z80ex_get_reg(cpu: *mut Context, register: c_int) -> u16;
    fn z80ex_set_reg(cpu: *mut Context, register: c_int, value: u16);
}

/// As numbered by z80ex.h.
#[derive(Clone, Copy)]
#[repr(i32)]
pub enum Register {
    Iy = 9,
    Pc = 10,
    Sp = 11,
}

type Memory = [u8; 0x1_0000];

extern "C" fn read(_: *mut Context, at: u16, _m1: c_int, memory: *mut c_void) -> u8 {
    // SAFETY: `memory` is the emulator's own, see `Z80::new`, and a u16 is within it.
    unsafe { (*memory.cast::<Memory>())[usize::from(at)] }
}

extern "C" fn write(_: *mut Context, at: u16, value: u8, memory: *mut c_void) {
    if at >= ROM_END {
        // SAFETY: as for read.
        unsafe { (*memory.cast::<Memory>())[usize::from(at)] = value }
    }
}

extern "C" fn read_port(_: *mut Context, _: u16, _: *mut c_void) -> u8 {
    0xFF
}

extern "C" fn write_port(_: *mut Context, _: u16, _: u8, _: *mut c_void) {}

extern "C" fn read_vector(_: *mut Context, _: *mut c_void) -> u8 {
    0xFF
}

pub struct Z80 {
    cpu: *mut Context,
    /// Made by `Box::into_raw`, since the emulator holds the pointer too.
    memory: *mut Memory,
}

impl Z80 {
    pub fn new(rom: &[u8]) -> Z80 {
        let mut memory = Box::new([0; 0x1_0000]);
        memory[..rom.len()].copy_from_slice(rom);
        let memory = Box::into_raw(memory);
        let data = memory.cast();
        let none = std::ptr::null_mut();
        // SAFETY: the functions are as z80ex.h declares them; `data` lives as long as Z80.
        let cpu = unsafe {
            z80ex_create(
                read,
                data,
                write,
                data,
                read_port,
                none,
                write_port,
                none,
                read_vector,
                none,
            )
        };
        Z80 { cpu, memory }
    }

    pub fn memory(&mut self) -> &mut Memory {
        // SAFETY: the emulator uses it only inside `step`, which borrows all of self.
        unsafe { &mut *self.memory }
    }

    pub fn word(&mut self, at: u16) -> u16 {
        let memory = self.memory();
        u16::from_le_bytes([
            memory[usize::from(at)],
            memory[usize::from(at.wrapping_add(1))],
        ])
    }

    pub fn set_word(&mut self, at: u16, value: u16) {
        let [low, high] = value.to_le_bytes();
        self.memory()[usize::from(at)] = low;
        self.memory()[usize::from(at.wrapping_add(1))] = high;
    }

    pub fn get(&mut self, register: Register) -> u16 {
        // SAFETY: `cpu` is from z80ex_create and lives as long as self.
        unsafe { z80ex_get_reg(self.cpu, register as c_int) }
    }

    pub fn set(&mut self, register: Register, value: u16) {
        // SAFETY: as for get.
        unsafe { z80ex_set_reg(self.cpu, register as c_int, value) }
    }

    /// One whole instruction, its prefixes included.
    pub fn step(&mut self) {
        // SAFETY: as for get.
        unsafe {
            z80ex_step(self.cpu);
            while z80ex_last_op_type(self.cpu) != 0 {
                z80ex_step(self.cpu);
            }
        }
    }
}

impl Drop for Z80 {
    fn drop(&mut self) {
        // SAFETY: both are from `new` and are given up here once.
        unsafe {
            z80ex_destroy(self.cpu);
            drop(Box::from_raw(self.memory));
        }
    }
}
