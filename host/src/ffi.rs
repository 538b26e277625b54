//! The static library's functions and structs, as `crates/exports` declares them. A slice is a pointer and a length.

/// `none` as the number of a limitation, and as each number of a window.
pub const NONE: u64 = u64::MAX;

#[repr(C)]
#[derive(Clone, Copy)]
pub struct UnitNumbers {
    pub block: u64,
    pub pmin: u64,
    pub pmax: u64,
    pub mot: u64,
    pub mdt: u64,
    pub was: u64,
    pub held: u64,
    pub vec: u64,
    pub mlc: u64,
    pub suc: u64,
    pub starts: u64,
    pub hours: u64,
    pub mwh: u64,
    pub year: u64,
    pub month: u64,
    pub day: u64,
    pub window: u64,
}

#[repr(C)]
#[derive(Clone, Copy)]
pub struct OutcomeNumbers {
    pub kind: u64,
    pub gap: i64,
}

#[repr(C)]
#[derive(Clone, Copy)]
pub struct OutcomesNumbers {
    pub starts: OutcomeNumbers,
    pub hours: OutcomeNumbers,
    pub mwh: OutcomeNumbers,
}

#[repr(C)]
pub struct CaseNumbers {
    pub number: u64,
    pub count: usize,
    pub unit: UnitNumbers,
}

#[repr(C)]
pub struct FiguresNumbers {
    pub number: u64,
    pub vec: u64,
    pub suc: u64,
    pub mlc: u64,
}

#[repr(C)]
pub struct CurveNumbers {
    pub number: u64,
    pub count: usize,
}

#[repr(C)]
pub struct AssessNumbers {
    pub number: u64,
    pub profit: i64,
}

#[repr(C)]
pub struct CellsNumbers {
    pub number: u64,
    pub needed: usize,
    pub table: usize,
}

#[repr(C)]
pub struct PlanNumbers {
    pub number: u64,
    pub count: usize,
    pub profit: i64,
}

#[repr(C)]
pub struct ValueNumbers {
    pub number: u64,
    pub outcomes: OutcomesNumbers,
}

#[repr(C)]
pub struct ReportNumbers {
    pub number: u64,
    pub count: usize,
    pub profit: i64,
    pub outcomes: OutcomesNumbers,
}

#[repr(C)]
pub struct ClockNumbers {
    pub number: u64,
    pub hour: u64,
}

#[repr(C)]
pub struct HoursNumbers {
    pub number: u64,
    pub count: usize,
}

#[repr(C)]
pub struct WrittenNumbers {
    pub number: u64,
    pub bytes: usize,
}

extern "C" {
    pub fn ralwinga_read(
        text: *const u8,
        text_len: usize,
        prices: *mut i64,
        prices_len: usize,
    ) -> CaseNumbers;

    pub fn ralwinga_figures(
        inputs: crate::CostInputs,
        mws: *const u64,
        mws_len: usize,
        heats: *const u64,
        heats_len: usize,
    ) -> FiguresNumbers;

    pub fn ralwinga_curve(
        inputs: crate::CurveInputs,
        levels: *const u64,
        levels_len: usize,
        rates: *const u64,
        rates_len: usize,
        froms: *mut u64,
        froms_len: usize,
        tos: *mut u64,
        tos_len: usize,
        prices: *mut i64,
        prices_len: usize,
    ) -> CurveNumbers;

    pub fn ralwinga_assess(
        unit: UnitNumbers,
        prices: *const i64,
        prices_len: usize,
        schedule: *const u64,
        schedule_len: usize,
    ) -> AssessNumbers;

    pub fn ralwinga_cells(unit: UnitNumbers, intervals: usize) -> CellsNumbers;

    pub fn ralwinga_plan(
        unit: UnitNumbers,
        prices: *const i64,
        prices_len: usize,
        scratch: *mut i64,
        scratch_len: usize,
        schedule: *mut u64,
        schedule_len: usize,
    ) -> PlanNumbers;

    pub fn ralwinga_value(
        unit: UnitNumbers,
        prices: *const i64,
        prices_len: usize,
        scratch: *mut i64,
        scratch_len: usize,
    ) -> ValueNumbers;

    pub fn ralwinga_report(
        unit: UnitNumbers,
        prices: *const i64,
        prices_len: usize,
        scratch: *mut i64,
        scratch_len: usize,
        schedule: *mut u64,
        schedule_len: usize,
    ) -> ReportNumbers;

    pub fn ralwinga_clock_hour(year: u64, month: u64, day: u64, interval: u64) -> ClockNumbers;

    pub fn ralwinga_clock_hours(
        year: u64,
        month: u64,
        day: u64,
        hours: *mut u64,
        hours_len: usize,
    ) -> HoursNumbers;

    pub fn ralwinga_listing(
        schedule: *const u64,
        schedule_len: usize,
        profit: i64,
        outcomes: OutcomesNumbers,
        window: u64,
        out: *mut u8,
        out_len: usize,
    ) -> WrittenNumbers;

    pub fn ralwinga_refusal(number: u64, out: *mut u8, out_len: usize) -> WrittenNumbers;
}
