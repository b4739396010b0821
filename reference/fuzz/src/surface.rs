//! The functions of `c/yesbrulka.h`, in its order.

extern "C" {
    pub fn yb_check(file: *const u8, file_len: usize) -> u32;
    pub fn yb_check_place(file: *const u8, file_len: usize) -> u64;
    pub fn yb_check_steps(file: *const u8, file_len: usize) -> u32;
    pub fn yb_checked(file: *const u8, file_len: usize, place: *mut u64, steps: *mut u32) -> u32;
    pub fn yb_value_start(file: *const u8, file_len: usize, place: u64) -> u64;
    pub fn yb_value_len(file: *const u8, file_len: usize, place: u64) -> u64;
    pub fn yb_units(file: *const u8, file_len: usize) -> u32;
    pub fn yb_inverters(file: *const u8, file_len: usize) -> u32;
    pub fn yb_seconds(file: *const u8, file_len: usize) -> u32;
    pub fn yb_settings(
        file: *const u8,
        file_len: usize,
        mode: *mut u8,
        target: *mut i32,
        band: *mut u32,
        factor: *mut u16,
        phase: *mut u8,
    ) -> u32;
    pub fn yb_unit(
        file: *const u8,
        file_len: usize,
        unit: u32,
        rated: *mut u64,
        reserve: *mut u64,
        stored: *mut u64,
        rating: *mut u32,
        kva: *mut u32,
        idle_loss: *mut u32,
        var_request: *mut i32,
        weight: *mut u16,
        inverter: *mut u16,
        charge: *mut u16,
        discharge: *mut u16,
        priority: *mut u8,
    ) -> u32;
    pub fn yb_var_limits(
        file: *const u8,
        file_len: usize,
        unit: u32,
        provide: *mut u32,
        absorb: *mut u32,
    ) -> u32;
    pub fn yb_connection(
        file: *const u8,
        file_len: usize,
        unit: u32,
        phases: *mut u8,
        volts: *mut u16,
    ) -> u32;
    pub fn yb_run_room(file: *const u8, file_len: usize) -> u64;
    pub fn yb_run(file: *const u8, file_len: usize, room: *mut u8, room_len: usize) -> u32;
    pub fn yb_peaks(
        file: *const u8,
        file_len: usize,
        target: i32,
        figures: *mut i64,
        figures_len: usize,
    ) -> u32;
    pub fn yb_watts(kw: f64, watts: *mut i32) -> u32;
    pub fn yb_pass(
        mode: u8,
        target: i32,
        band: u32,
        factor: u16,
        measure: i64,
        rated: *const u64,
        rated_len: usize,
        reserve: *const u64,
        reserve_len: usize,
        stored: *const u64,
        stored_len: usize,
        rating: *const u32,
        rating_len: usize,
        weight: *const u16,
        weight_len: usize,
        requests: *mut i32,
        requests_len: usize,
        need: *mut i64,
        changed: *mut u8,
    ) -> u32;
    pub fn yb_pass_current(
        mode: u8,
        target: i32,
        band: u32,
        factor: u16,
        measure: i64,
        rated: *const u64,
        rated_len: usize,
        reserve: *const u64,
        reserve_len: usize,
        stored: *const u64,
        stored_len: usize,
        rating: *const u32,
        rating_len: usize,
        weight: *const u16,
        weight_len: usize,
        phases: *const u8,
        phases_len: usize,
        volts: *const u16,
        volts_len: usize,
        requests: *mut i32,
        requests_len: usize,
        need: *mut i64,
        changed: *mut u8,
    ) -> u32;
    pub fn yb_settle(
        load: i64,
        target: i32,
        band: u32,
        factor: u16,
        budget: u32,
        rated: *const u64,
        rated_len: usize,
        reserve: *const u64,
        reserve_len: usize,
        stored: *const u64,
        stored_len: usize,
        rating: *const u32,
        rating_len: usize,
        weight: *const u16,
        weight_len: usize,
        requests: *mut i32,
        requests_len: usize,
        settled: *mut u8,
        passes: *mut u32,
    ) -> u32;
    pub fn yb_study(
        file: *const u8,
        file_len: usize,
        load: i64,
        budget: u32,
        requests: *mut i32,
        requests_len: usize,
        settled: *mut u8,
        passes: *mut u32,
    ) -> u32;
    pub fn yb_step(
        seconds: u32,
        rated: u64,
        reserve: u64,
        stored: u64,
        rating: u32,
        kva: u32,
        idle_loss: u32,
        var_request: i32,
        weight: u16,
        inverter: u16,
        charge: u16,
        discharge: u16,
        priority: u8,
        request: i32,
        watts: *mut i32,
        vars: *mut i32,
        stored_after: *mut u64,
        loss: *mut u64,
    ) -> u32;
    pub fn yb_step_as(
        edition: u8,
        seconds: u32,
        rated: u64,
        reserve: u64,
        stored: u64,
        rating: u32,
        kva: u32,
        idle_loss: u32,
        var_request: i32,
        weight: u16,
        inverter: u16,
        charge: u16,
        discharge: u16,
        priority: u8,
        provide: u32,
        absorb: u32,
        request: i32,
        watts: *mut i32,
        vars: *mut i32,
        stored_after: *mut u64,
        loss: *mut u64,
    ) -> u32;
    pub fn yb_solar(
        array: u32,
        kva: u32,
        cut_in: u16,
        cut_out: u16,
        limit: u16,
        var_request: i32,
        priority: u8,
        warm_x: *const i32,
        warm_x_len: usize,
        warm_y: *const i32,
        warm_y_len: usize,
        eff_x: *const i32,
        eff_x_len: usize,
        eff_y: *const i32,
        eff_y_len: usize,
        irradiance: f64,
        temperature: f64,
        on: u8,
        on_after: *mut u8,
        watts: *mut i32,
        vars: *mut i32,
        dc: *mut u64,
    ) -> u32;
    pub fn yb_feed_size() -> u64;
    pub fn yb_feed_start(state: *mut u8, state_len: usize) -> u32;
    pub fn yb_feed(
        state: *mut u8,
        state_len: usize,
        chunk: *const u8,
        chunk_len: usize,
        room: *mut u8,
        room_len: usize,
        written: *mut u64,
    ) -> u32;
    pub fn yb_feed_end(
        state: *mut u8,
        state_len: usize,
        room: *mut u8,
        room_len: usize,
        written: *mut u64,
    ) -> u32;
    pub fn yb_feed_room(state: *const u8, state_len: usize, chunk: *const u8, chunk_len: usize) -> u64;
    pub fn yb_feed_place(state: *const u8, state_len: usize) -> u64;
    pub fn yb_feed_steps(state: *const u8, state_len: usize) -> u32;
    pub fn yb_rescue_room(file: *const u8, file_len: usize) -> u64;
    pub fn yb_rescue_changes(file: *const u8, file_len: usize) -> u64;
    pub fn yb_rescue_steps(file: *const u8, file_len: usize) -> u32;
    pub fn yb_rescue(
        file: *const u8,
        file_len: usize,
        out: *mut u8,
        out_len: usize,
        list: *mut u8,
        list_len: usize,
    ) -> u32;
    pub fn yb_partner(
        run: *const u8,
        run_len: usize,
        result: *const u8,
        result_len: usize,
        verdict: *mut u8,
        start: *mut u64,
        len: *mut u64,
    ) -> u32;
}
