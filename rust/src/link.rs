//! The library's calls as C sees them: a list is a pointer and a count of elements. `include/bintolage.h` says what each asks
//! of its caller.
use crate::StateWords;

extern "C" {
    pub fn bintolage_start(state: *mut StateWords, declared: u8, detect: u8, promote: u8);

    pub fn bintolage_event(
        state: *mut StateWords,
        event: *const u8, event_bytes: usize,
        table: *mut u8, table_bytes: usize,
        xy: *mut u64, xy_words: usize,
        ends: *mut u32, ends_words: usize,
        z: *mut u64, z_words: usize,
        m: *mut u64, m_words: usize,
        t: *mut u64, t_words: usize,
        tm: *mut u64, tm_words: usize,
    ) -> u8;

    pub fn bintolage_events(
        state: *mut StateWords,
        events: *const u8, events_bytes: usize,
        table: *mut u8, table_bytes: usize,
        xy: *mut u64, xy_words: usize,
        ends: *mut u32, ends_words: usize,
        z: *mut u64, z_words: usize,
        m: *mut u64, m_words: usize,
        t: *mut u64, t_words: usize,
        tm: *mut u64, tm_words: usize,
        taken: *mut usize,
    ) -> u8;

    pub fn bintolage_property(
        state: *mut StateWords,
        column: u32, column_type: u8, bits: u64,
        text: *const u8, text_bytes: usize,
        buffer: *mut u8, buffer_bytes: usize,
        place: *mut usize,
    ) -> u8;

    pub fn bintolage_finish(
        state: *mut StateWords,
        table: *mut u8, table_bytes: usize,
        xy: *const u64, xy_words: usize,
        ends: *const u32, ends_words: usize,
        z: *const u64, z_words: usize,
        m: *const u64, m_words: usize,
        t: *const u64, t_words: usize,
        tm: *const u64, tm_words: usize,
    ) -> u8;

    pub fn bintolage_next(
        state: *mut StateWords,
        table: *const u8, table_bytes: usize,
        xy: *mut u64, xy_words: usize,
        ends: *mut u32, ends_words: usize,
        z: *mut u64, z_words: usize,
        m: *mut u64, m_words: usize,
        t: *mut u64, t_words: usize,
        tm: *mut u64, tm_words: usize,
    ) -> u8;

    pub fn bintolage_read(
        table: *const u8, table_bytes: usize,
        xy: *const u64, xy_words: usize,
        ends: *const u32, ends_words: usize,
        z: *const u64, z_words: usize,
        m: *const u64, m_words: usize,
        t: *const u64, t_words: usize,
        tm: *const u64, tm_words: usize,
        declared: u8, flags: u8, feature: u32,
        log: *mut u8, log_bytes: usize,
        count: *mut u32,
    ) -> u8;

    pub fn bintolage_read_wkb(
        bytes: *const u8, bytes_count: usize,
        feature: u32,
        log: *mut u8, log_bytes: usize,
        count: *mut u32,
    ) -> u8;

    pub fn bintolage_write_wkb(
        events: *const u8, events_bytes: usize,
        out: *mut u8, out_bytes: usize,
        written: *mut usize,
    ) -> u8;

    pub fn bintolage_read_properties(
        bytes: *const u8, bytes_count: usize,
        has_columns: u8,
        columns: *const u8, columns_count: usize,
        stop: u32,
        log: *mut u8, log_bytes: usize,
        count: *mut u32, stopped: *mut u8, place: *mut usize,
    ) -> u8;

    pub fn bintolage_box(
        table: *const u8, table_bytes: usize,
        xy: *const u64, xy_words: usize,
        ends: *const u32, ends_words: usize,
        z: *const u64, z_words: usize,
        m: *const u64, m_words: usize,
        t: *const u64, t_words: usize,
        tm: *const u64, tm_words: usize,
        n: u32,
        edges: *mut u64,
    ) -> u8;
}
