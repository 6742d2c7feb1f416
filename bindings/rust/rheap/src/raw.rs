//! What `include/rheap.h` declares, as Rust writes it. The test `header` compares the two, name by
//! name and type by type; that the library's exports are those of the header is trusted.

#![allow(dead_code, missing_docs)]

use std::ffi::c_void;

pub const DONE: u8 = 0;
pub const NO_ROOT: u8 = 1;
pub const NOT_YOURS: u8 = 2;
pub const NOT_OBJECT: u8 = 3;
pub const NO_FIELD: u8 = 4;
pub const RAW_FIELD: u8 = 5;
pub const INT_RANGE: u8 = 6;
pub const FIELDS_RANGE: u8 = 7;
pub const SPACE_FULL: u8 = 8;
pub const LOG_FULL: u8 = 9;
pub const NUMBERS_SPENT: u8 = 10;
pub const EPOCHS_SPENT: u8 = 11;
pub const NOT_OPEN: u8 = 12;
pub const IS_OPEN: u8 = 13;
pub const NO_PACE: u8 = 14;
pub const BAD_SIZES: u8 = 15;
pub const NO_MEMORY: u8 = 16;
pub const WATCHES_FULL: u8 = 17;
pub const NOT_WATCHED: u8 = 18;
pub const TICKETS_RANGE: u8 = 19;
pub const BAD_KIND: u8 = 20;
pub const BAD_GROWTH: u8 = 21;
pub const TOO_LONG: u8 = 22;
pub const CYCLE_ON: u8 = 23;
pub const IN_USE: u8 = 24;
pub const GROWS: u8 = 25;

pub const AMPLE: u8 = 0;
pub const AT_MOST: u8 = 1;
pub const REFUSED: u8 = 2;

pub const RUN_DONE: u8 = 0;
pub const RUN_FAULT: u8 = 1;
pub const RUN_NO_MEMORY: u8 = 3;
pub const RUN_NO_ROOM: u8 = 5;

pub const NIL: u32 = 0;
pub const NUMBER: u32 = 1;
pub const OBJECT: u32 = 2;
pub const RAW: u32 = 3;

pub const MAX_WORDS: u32 = 16_777_216;
pub const MAX_OWNERS: u32 = 16;
pub const MAX_SLOTS: u32 = 256;
pub const MAX_FIELDS: u32 = 4095;
pub const MAX_TICKETS: u32 = 65_536;
pub const MAX_INT: i64 = 2_305_843_009_213_693_951;
pub const MIN_INT: i64 = -MAX_INT - 1;

#[repr(C)]
pub struct Rheap {
    pub at: *mut c_void,
    pub grows_at: *mut c_void,
}

#[repr(C)]
#[derive(Clone, Copy)]
pub struct RheapRootId {
    pub owner: u32,
    pub slot: u32,
}

#[repr(C)]
#[derive(Clone, Copy, Default)]
pub struct RheapValue {
    pub kind: u32,
    pub fields: u32,
    pub number: i64,
}

#[repr(C)]
#[derive(Clone, Copy)]
pub struct RheapInit {
    pub kind: u32,
    pub root: RheapRootId,
    pub number: i64,
}

#[repr(C)]
#[derive(Clone, Copy, Debug, Default)]
pub struct RheapStats {
    pub used: u64,
    pub free: u64,
    pub epoch: u64,
    pub number: u64,
    pub log: u64,
    pub granted: u64,
    pub idle: u64,
    pub spent: u64,
    pub placed: u64,
    pub missing: u64,
    pub flips: u64,
    pub root_words: u64,
    pub cycle: u8,
}

#[repr(C)]
#[derive(Clone, Copy, Default)]
pub struct RheapDid {
    pub held: u64,
    pub shaded: u32,
    pub roots: u32,
    pub live_words: u32,
    pub began: u8,
    pub flipped: u8,
}

#[repr(C)]
#[derive(Clone, Copy, Default)]
pub struct RheapPacing {
    pub mark: u32,
    pub store_units: u32,
    pub log_limit: u32,
}

#[repr(C)]
#[derive(Clone, Copy, Default)]
pub struct RheapWords {
    pub need: u64,
    pub free: u64,
}

#[repr(C)]
#[derive(Clone, Copy, Debug, Default)]
pub struct RheapCycleReader {
    pub reads: u64,
    pub ended: u64,
    pub last: RheapStats,
    pub epoch: u64,
    pub began: u64,
    pub used: u64,
    pub number: u64,
    pub most: u64,
    pub running: u8,
    pub begun: u8,
}

#[repr(C)]
#[derive(Clone, Copy, Default)]
pub struct RheapEndedCycle {
    pub number: u64,
    pub epoch: u64,
    pub began: u64,
    pub ended: u64,
    pub used: u64,
    pub live: u64,
    pub freed: u64,
    pub objects: u64,
    pub granted: u64,
    pub idle: u64,
    pub spent: u64,
    pub most: u64,
    pub logged: u64,
    pub words: u64,
    pub flipped: u8,
    pub is: u8,
}

#[repr(C)]
#[derive(Clone, Copy)]
pub struct RheapGrowth {
    pub at_least: u32,
    pub at_most: u32,
    pub factor: u32,
    pub biggest: u32,
    pub ratio: u32,
    pub owners: u32,
    pub slots: u32,
}

extern "C" {
    pub fn rheap_open(
        heap: *mut Rheap,
        words: u32,
        live: u32,
        biggest: u32,
        ratio: u32,
        owners: u32,
        slots: u32,
    ) -> u8;
    pub fn rheap_open_sized(
        heap: *mut Rheap,
        words: u32,
        biggest: u32,
        ratio: u32,
        owners: u32,
        slots: u32,
    ) -> u8;
    pub fn rheap_resize(heap: *mut Rheap, words: u32, live: u32, biggest: u32) -> u8;
    pub fn rheap_resize_sized(heap: *mut Rheap, words: u32, biggest: u32) -> u8;
    pub fn rheap_open_growing(
        heap: *mut Rheap,
        at_most: u32,
        biggest: u32,
        ratio: u32,
        owners: u32,
        slots: u32,
    ) -> u8;
    pub fn rheap_open_growth(heap: *mut Rheap, growth: *const RheapGrowth) -> u8;
    pub fn rheap_close(heap: *mut Rheap) -> u8;

    pub fn rheap_alloc(heap: *mut Rheap, owner: u32, dst: RheapRootId, fields: u32) -> u8;
    pub fn rheap_alloc_raw(heap: *mut Rheap, owner: u32, dst: RheapRootId, fields: u32) -> u8;
    pub fn rheap_make(
        heap: *mut Rheap,
        owner: u32,
        dst: RheapRootId,
        fields: u32,
        values: *const RheapInit,
        length: usize,
    ) -> u8;
    pub fn rheap_make_raw(
        heap: *mut Rheap,
        owner: u32,
        dst: RheapRootId,
        fields: u32,
        values: *const RheapInit,
        length: usize,
    ) -> u8;

    pub fn rheap_load(
        heap: *mut Rheap,
        owner: u32,
        dst: RheapRootId,
        src: RheapRootId,
        field: u32,
        value: *mut RheapValue,
    ) -> u8;
    pub fn rheap_load_untold(
        heap: *mut Rheap,
        owner: u32,
        dst: RheapRootId,
        src: RheapRootId,
        field: u32,
    ) -> u8;
    pub fn rheap_store_nil(heap: *mut Rheap, owner: u32, object: RheapRootId, field: u32) -> u8;
    pub fn rheap_store_int(
        heap: *mut Rheap,
        owner: u32,
        object: RheapRootId,
        field: u32,
        number: i64,
    ) -> u8;
    pub fn rheap_store_root(
        heap: *mut Rheap,
        owner: u32,
        object: RheapRootId,
        field: u32,
        src: RheapRootId,
    ) -> u8;

    pub fn rheap_store_ints(
        heap: *mut Rheap,
        owner: u32,
        object: RheapRootId,
        from: u32,
        numbers: *const i64,
        length: usize,
    ) -> u8;
    pub fn rheap_insist_store_ints(
        heap: *mut Rheap,
        owner: u32,
        object: RheapRootId,
        from: u32,
        numbers: *const i64,
        length: usize,
    ) -> u8;
    pub fn rheap_load_ints(
        heap: *mut Rheap,
        owner: u32,
        object: RheapRootId,
        from: u32,
        numbers: *mut i64,
        length: usize,
        count: *mut u32,
    ) -> u8;
    pub fn rheap_store_text(
        heap: *mut Rheap,
        owner: u32,
        object: RheapRootId,
        from: u32,
        text: *const c_void,
        length: usize,
    ) -> u8;
    pub fn rheap_insist_store_text(
        heap: *mut Rheap,
        owner: u32,
        object: RheapRootId,
        from: u32,
        text: *const c_void,
        length: usize,
    ) -> u8;
    pub fn rheap_load_text(
        heap: *mut Rheap,
        owner: u32,
        object: RheapRootId,
        from: u32,
        text: *mut c_void,
        length: usize,
        count: *mut u32,
    ) -> u8;

    pub fn rheap_load_roots(
        heap: *mut Rheap,
        owner: u32,
        first: RheapRootId,
        src: RheapRootId,
        from: u32,
        values: *mut RheapValue,
        length: usize,
        count: *mut usize,
    ) -> u8;
    pub fn rheap_store_roots(
        heap: *mut Rheap,
        owner: u32,
        object: RheapRootId,
        from: u32,
        first: RheapRootId,
        length: usize,
        count: *mut usize,
    ) -> u8;
    pub fn rheap_insist_store_roots(
        heap: *mut Rheap,
        owner: u32,
        object: RheapRootId,
        from: u32,
        first: RheapRootId,
        length: usize,
        count: *mut usize,
    ) -> u8;
    pub fn rheap_load_roots_untold(
        heap: *mut Rheap,
        owner: u32,
        first: RheapRootId,
        src: RheapRootId,
        from: u32,
        length: usize,
        count: *mut usize,
    ) -> u8;
    pub fn rheap_store_row(
        heap: *mut Rheap,
        owner: u32,
        object: RheapRootId,
        from: u32,
        values: *const RheapInit,
        length: usize,
        count: *mut usize,
    ) -> u8;
    pub fn rheap_insist_store_row(
        heap: *mut Rheap,
        owner: u32,
        object: RheapRootId,
        from: u32,
        values: *const RheapInit,
        length: usize,
        count: *mut usize,
    ) -> u8;
    pub fn rheap_drop_roots(
        heap: *mut Rheap,
        owner: u32,
        first: RheapRootId,
        length: usize,
        count: *mut usize,
    ) -> u8;
    pub fn rheap_load_path(
        heap: *mut Rheap,
        owner: u32,
        dst: RheapRootId,
        src: RheapRootId,
        fields: *const u32,
        length: usize,
        count: *mut usize,
        value: *mut RheapValue,
    ) -> u8;

    pub fn rheap_copy(heap: *mut Rheap, owner: u32, dst: RheapRootId, src: RheapRootId) -> u8;
    pub fn rheap_drop(heap: *mut Rheap, owner: u32, root: RheapRootId) -> u8;
    pub fn rheap_same(
        heap: *mut Rheap,
        owner: u32,
        a: RheapRootId,
        b: RheapRootId,
        same: *mut u8,
    ) -> u8;

    pub fn rheap_insist_alloc(heap: *mut Rheap, owner: u32, dst: RheapRootId, fields: u32) -> u8;
    pub fn rheap_insist_alloc_raw(
        heap: *mut Rheap,
        owner: u32,
        dst: RheapRootId,
        fields: u32,
    ) -> u8;
    pub fn rheap_insist_make(
        heap: *mut Rheap,
        owner: u32,
        dst: RheapRootId,
        fields: u32,
        values: *const RheapInit,
        length: usize,
    ) -> u8;
    pub fn rheap_insist_make_raw(
        heap: *mut Rheap,
        owner: u32,
        dst: RheapRootId,
        fields: u32,
        values: *const RheapInit,
        length: usize,
    ) -> u8;
    pub fn rheap_insist_store_nil(
        heap: *mut Rheap,
        owner: u32,
        object: RheapRootId,
        field: u32,
    ) -> u8;
    pub fn rheap_insist_store_int(
        heap: *mut Rheap,
        owner: u32,
        object: RheapRootId,
        field: u32,
        number: i64,
    ) -> u8;
    pub fn rheap_insist_store_root(
        heap: *mut Rheap,
        owner: u32,
        object: RheapRootId,
        field: u32,
        src: RheapRootId,
    ) -> u8;

    pub fn rheap_shared_alloc(heap: *mut Rheap, dst: u32, fields: u32) -> u8;
    pub fn rheap_shared_alloc_raw(heap: *mut Rheap, dst: u32, fields: u32) -> u8;
    pub fn rheap_shared_load(
        heap: *mut Rheap,
        dst: u32,
        src: u32,
        field: u32,
        value: *mut RheapValue,
    ) -> u8;
    pub fn rheap_shared_load_untold(heap: *mut Rheap, dst: u32, src: u32, field: u32) -> u8;
    pub fn rheap_shared_peek(
        heap: *mut Rheap,
        src: u32,
        field: u32,
        value: *mut RheapValue,
    ) -> u8;
    pub fn rheap_shared_store_nil(heap: *mut Rheap, object: u32, field: u32) -> u8;
    pub fn rheap_shared_store_int(heap: *mut Rheap, object: u32, field: u32, number: i64) -> u8;
    pub fn rheap_shared_store_root(heap: *mut Rheap, object: u32, field: u32, src: u32) -> u8;
    pub fn rheap_shared_copy(heap: *mut Rheap, dst: u32, src: u32) -> u8;
    pub fn rheap_shared_drop(heap: *mut Rheap, root: u32) -> u8;
    pub fn rheap_shared_insist_alloc(heap: *mut Rheap, dst: u32, fields: u32) -> u8;
    pub fn rheap_shared_insist_alloc_raw(heap: *mut Rheap, dst: u32, fields: u32) -> u8;
    pub fn rheap_shared_insist_store_nil(heap: *mut Rheap, object: u32, field: u32) -> u8;
    pub fn rheap_shared_insist_store_int(
        heap: *mut Rheap,
        object: u32,
        field: u32,
        number: i64,
    ) -> u8;
    pub fn rheap_shared_insist_store_root(
        heap: *mut Rheap,
        object: u32,
        field: u32,
        src: u32,
    ) -> u8;

    pub fn rheap_root(heap: *mut Rheap, root: RheapRootId, value: *mut RheapValue) -> u8;
    pub fn rheap_fields(heap: *mut Rheap, root: RheapRootId, fields: *mut u32) -> u8;
    pub fn rheap_field(
        heap: *mut Rheap,
        root: RheapRootId,
        field: u32,
        value: *mut RheapValue,
    ) -> u8;
    pub fn rheap_peek(
        heap: *mut Rheap,
        owner: u32,
        src: RheapRootId,
        field: u32,
        value: *mut RheapValue,
    ) -> u8;

    pub fn rheap_room(heap: *mut Rheap, fields: u32, room: *mut RheapWords) -> u8;
    pub fn rheap_short(heap: *mut Rheap, is: *mut u8) -> u8;

    pub fn rheap_watch_room(heap: *mut Rheap, additional: u32) -> u8;
    pub fn rheap_watch(heap: *mut Rheap, owner: u32, root: RheapRootId, ticket: *mut u64) -> u8;
    pub fn rheap_unwatch(heap: *mut Rheap, ticket: u64) -> u8;
    pub fn rheap_next_gone(heap: *mut Rheap, ticket: *mut u64, is: *mut u8) -> u8;

    pub fn rheap_collect(heap: *mut Rheap) -> u8;
    pub fn rheap_increment(heap: *mut Rheap) -> u8;
    pub fn rheap_stat(heap: *mut Rheap, stats: *mut RheapStats) -> u8;
    pub fn rheap_last_did(heap: *mut Rheap, did: *mut RheapDid) -> u8;
    pub fn rheap_pace(heap: *mut Rheap, pacing: *mut RheapPacing) -> u8;
    pub fn rheap_cycle(
        heap: *mut Rheap,
        reader: *mut RheapCycleReader,
        cycle: *mut RheapEndedCycle,
    ) -> u8;
    pub fn rheap_release(heap: *mut Rheap) -> u8;

    pub fn rheap_dump_into(
        heap: *mut Rheap,
        text: *mut c_void,
        length: usize,
        needs: *mut usize,
    ) -> u8;
    pub fn rheap_draw_into(
        heap: *mut Rheap,
        text: *mut c_void,
        length: usize,
        needs: *mut usize,
    ) -> u8;

    pub fn rheap_run(
        trace: *const u8,
        trace_length: usize,
        answers: *mut u8,
        answers_length: usize,
        length: *mut usize,
    ) -> u8;
    pub fn rheap_run_paced(
        trace: *const u8,
        trace_length: usize,
        mark: u32,
        answers: *mut u8,
        answers_length: usize,
        length: *mut usize,
    ) -> u8;
}
