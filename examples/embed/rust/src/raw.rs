//! The functions of include/migwelun.h.

use std::ffi::c_void;

pub const DONE: i32 = 0;
pub const CLOSES: i32 = 1;
pub const YES: i32 = 1;
pub const OUT_OF_PLACE: i32 = 2;
pub const UNKNOWN_VERSION: i32 = 12;
pub const BAD_SNAPSHOT_FIELD: i32 = 31;
pub const RESPELLED: i32 = 34;
pub const NO_MEMORY: i32 = -2;
pub const SHORT: i32 = -4;

#[repr(C)]
pub struct Slot {
    at: *mut c_void,
    full: u8,
}

impl Slot {
    pub const EMPTY: Slot = Slot { at: std::ptr::null_mut(), full: 0 };
}

pub type Take = unsafe extern "C" fn(slot: *mut Slot, to: *mut u8, room: usize, size: *mut usize) -> i32;

extern "C" {
    pub fn migwelun_make(slot: *mut Slot, salt: u64, keys: *const u8) -> i32;
    pub fn migwelun_drop(slot: *mut Slot);
    pub fn migwelun_answer(slot: *mut Slot, body: *const u8, length: usize, connection: u64, frame: u64, moment: u64) -> i32;
    pub fn migwelun_take(slot: *mut Slot, to: *mut u8, room: usize, size: *mut usize) -> i32;
    pub fn migwelun_tick(slot: *mut Slot, moment: u64, removed: *mut usize) -> i32;
    pub fn migwelun_add_topic(slot: *mut Slot, name: *const u8, length: usize, id: *const u8, partitions: i32) -> i32;
    pub fn migwelun_set_topics(slot: *mut Slot) -> i32;
    pub fn migwelun_remembers(
        slot: *mut Slot, group: *const u8, group_length: usize, member: *const u8, member_length: usize,
    ) -> i32;
    pub fn migwelun_epochs(
        slot: *mut Slot, group: *const u8, group_length: usize, member: *const u8, member_length: usize, epoch: *mut i32,
        previous: *mut i32,
    ) -> i32;
    pub fn migwelun_make_replica(slot: *mut Slot, salt: u64, keys: *const u8) -> i32;
    pub fn migwelun_restore(slot: *mut Slot, snapshot: *const u8, length: usize, keys: *const u8, at: *mut usize) -> i32;
    pub fn migwelun_snapshot(slot: *mut Slot, place: u64, from: usize, size: usize, next: *mut usize) -> i32;
    pub fn migwelun_place(slot: *mut Slot, applied: *mut u64, leadership: *mut u32, moment: *mut u64) -> i32;
    pub fn migwelun_lead(slot: *mut Slot) -> i32;
    pub fn migwelun_begin(slot: *mut Slot, clock: u64) -> i32;
    pub fn migwelun_propose(slot: *mut Slot, body: *const u8, length: usize, connection: u32, frame: u64, clock: u64) -> i32;
    pub fn migwelun_propose_tick(slot: *mut Slot, clock: u64) -> i32;
    pub fn migwelun_propose_topics(slot: *mut Slot) -> i32;
    pub fn migwelun_take_entry(slot: *mut Slot, to: *mut u8, room: usize, size: *mut usize) -> i32;
    pub fn migwelun_apply(
        slot: *mut Slot, place: u64, entry: *const u8, length: usize, leadership: *mut u32, connection: *mut u32,
        frame: *mut u64,
    ) -> i32;
}
