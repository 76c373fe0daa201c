//! The C interface as `include/lanq.h` declares it.

/// `LanqAnswer` of the header.
#[repr(C)]
pub struct Answer {
    pub refused: u64,
    pub place: u64,
    pub end: u64,
    pub entries: u64,
    pub lines: u64,
    pub outcomes: u64,
}

/// `LanqTable` of the header.
#[repr(C)]
pub struct Table {
    pub refused: u64,
    pub place: u64,
    pub words: u64,
}

/// `LanqHolder` of the header.
#[repr(C)]
pub struct Holder {
    pub holder: u64,
    pub read: u64,
}

extern "C" {
    pub fn lanq_check(
        program: *const u16,
        program_len: usize,
        schedule: *const u8,
        schedule_len: usize,
        outcomes: *const u8,
        outcomes_len: usize,
        work_len: usize,
    ) -> Answer;
    pub fn lanq_run(
        program: *const u16,
        program_len: usize,
        schedule: *const u8,
        schedule_len: usize,
        outcomes: *const u8,
        outcomes_len: usize,
        trace: *mut u16,
        trace_len: usize,
        work: *mut u32,
        work_len: usize,
    ) -> Answer;
    pub fn lanq_translate(text: *const u8, text_len: usize, table: *mut u16, table_len: usize) -> Table;
    pub fn lanq_run_text(
        text: *const u8,
        text_len: usize,
        schedule: *const u8,
        schedule_len: usize,
        outcomes: *const u8,
        outcomes_len: usize,
        trace: *mut u16,
        trace_len: usize,
        work: *mut u32,
        work_len: usize,
    ) -> Answer;
    pub fn lanq_holder(trace: *const u16, trace_len: usize, k: usize, qubit: u16) -> Holder;
    pub fn lanq_stored_holder(work: *const u32, work_len: usize, kind: u64, number: u64) -> u16;
    pub fn lanq_same_lines(a: *const u16, a_len: usize, b: *const u16, b_len: usize) -> bool;
}
