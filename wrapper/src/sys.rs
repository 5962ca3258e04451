//! The functions of include/covrith.h, as they are.

extern "C" {
    pub fn covrith_run(
        model: *const u8,
        model_len: usize,
        tape: *const u8,
        tape_len: usize,
        budget: u64,
        work: *mut u32,
        work_len: usize,
        trace: *mut u8,
        trace_len: usize,
        report: *mut u8,
        report_len: usize,
        outcome: *mut u64,
    );

    pub fn covrith_read_record(
        trace: *const u8,
        trace_len: usize,
        position: usize,
        record: *mut u64,
    ) -> u32;

    pub fn covrith_write_record(
        rest: *mut u8,
        rest_len: usize,
        clock: u64,
        transaction: u64,
        block: u64,
        outcome: u64,
        written: *mut u64,
    ) -> u32;

    pub fn covrith_count(trace: *const u8, trace_len: usize) -> u64;

    pub fn covrith_stream_start(stream: u32, state: *mut u32) -> u32;

    pub fn covrith_stream_step(state: u32) -> u32;
    pub fn covrith_columns(
        trace: *const u8,
        trace_len: usize,
        out: *mut u8,
        out_len: usize,
        written: *mut u64,
    ) -> u32;

    pub fn covrith_uncolumns(
        columns: *const u8,
        columns_len: usize,
        out: *mut u8,
        out_len: usize,
        written: *mut u64,
    ) -> u32;

    pub fn covrith_make_tape(
        stream: u32,
        lists: *const u32,
        lists_len: usize,
        numbers: *const f64,
        numbers_len: usize,
        tape: *mut u8,
        tape_len: usize,
        written: *mut u64,
    ) -> u32;

    pub fn covrith_join(
        model1: *const u8,
        model1_len: usize,
        tape1: *const u8,
        tape1_len: usize,
        model2: *const u8,
        model2_len: usize,
        tape2: *const u8,
        tape2_len: usize,
        model: *mut u8,
        model_len: usize,
        tape: *mut u8,
        tape_len: usize,
        written: *mut u64,
    ) -> u32;
}
