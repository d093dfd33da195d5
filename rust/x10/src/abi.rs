//! The binary interface, as include/x10.h declares it: a slice is its pointer and then its length.

unsafe extern "C" {
    pub fn x10_burst(kind: u8, house: u8, third: u8, data: u8, command: u8, buf: *mut u8, len: usize) -> u64;
    pub fn x10_receiver_fresh(state: *mut u8, len: usize) -> u64;
    pub fn x10_receive(
        state: *mut u8,
        state_len: usize,
        halves: *const u8,
        n: usize,
        events: *mut u8,
        events_len: usize,
    ) -> u64;
    pub fn x10_radio_write(command: u8, house: u8, unit: u8, out: *mut u8, len: usize) -> u64;
    pub fn x10_radio_read(code: *const u8, code_len: usize, out: *mut u8, out_len: usize) -> u64;
    pub fn x10_apply(
        table: *mut u8,
        len: usize,
        shutters: *mut u8,
        shutters_len: usize,
        kind: u8,
        house: u8,
        third: u8,
        data: u8,
        command: u8,
    ) -> u64;
    pub fn x10_lit(table: *const u8, len: usize, house: u8) -> u64;
    pub fn x10_station_empty(station: *mut u8, len: usize) -> u64;
    pub fn x10_station_load(
        station: *mut u8,
        len: usize,
        kind: u8,
        house: u8,
        third: u8,
        data: u8,
        command: u8,
        draw: u8,
    ) -> u64;
    pub fn x10_station_sends(station: *const u8, len: usize) -> u64;
    pub fn x10_station_half_cycle(station: *mut u8, len: usize, heard: u8, draw: u8) -> u64;
    pub fn x10_bench_run(
        messages: *const u8,
        m_len: usize,
        loads: *const u8,
        n: usize,
        draws: *const u8,
        d_len: usize,
        lines: *mut u8,
        l_len: usize,
        marks: *mut u8,
        k_len: usize,
    ) -> u64;
    pub fn x10_radio_route(
        table: *mut u8,
        len: usize,
        shutters: *mut u8,
        shutters_len: usize,
        code: *const u8,
        code_len: usize,
    ) -> u64;
    pub fn x10_mains_route(
        state: *mut u8,
        state_len: usize,
        halves: *const u8,
        n: usize,
        table: *mut u8,
        len: usize,
        shutters: *mut u8,
        shutters_len: usize,
        events: *mut u8,
        events_len: usize,
        answers: *mut u8,
        answers_len: usize,
    ) -> u64;
}
