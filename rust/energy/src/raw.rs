//! The declarations of include/energy.h, made by rust/energy/bindings: not written by hand.

pub const ENERGY_VERSION_MAJOR: u32 = 0;
pub const ENERGY_VERSION_MINOR: u32 = 2;
pub const ENERGY_VERSION_PATCH: u32 = 0;
pub const ENERGY_MAX_FRAMES: u32 = 672;
pub const ENERGY_OTHER_WORDS: u32 = 4;
pub const ENERGY_FRAME_WORDS: u32 = 3;
pub const ENERGY_MAX_FILE_BYTES: u32 = 8080;
pub const ENERGY_MAX_CAPACITY: u32 = 1000000000;
pub const ENERGY_MAX_HARVEST: u32 = 400000;
pub const ENERGY_MAX_BOUND: u32 = 536870911;
pub const ENERGY_NO_UPPER_END: u32 = 4294967295;
pub const ENERGY_LISTING_BYTES: u32 = 22267;
pub const ENERGY_ACCEPTED: u32 = 0;
pub const ENERGY_REFUSED_NO_FRAMES: u32 = 1;
pub const ENERGY_REFUSED_TOO_MANY_FRAMES: u32 = 2;
pub const ENERGY_REFUSED_CAPACITY_ABOVE_LIMIT: u32 = 3;
pub const ENERGY_REFUSED_START_ABOVE_CAPACITY: u32 = 4;
pub const ENERGY_REFUSED_END_ABOVE_CAPACITY: u32 = 5;
pub const ENERGY_REFUSED_HARVEST_ABOVE_LIMIT: u32 = 6;
pub const ENERGY_REFUSED_WRONG_LENGTH: u32 = 7;
pub const ENERGY_REFUSED_BAD_WORD: u32 = 8;
pub const ENERGY_REFUSED_OUT_OF_REACH: u32 = 9;
pub const ENERGY_REFUSED_BAD_BOUNDS: u32 = 10;
pub const ENERGY_REFUSED_LEASTS_OUT_OF_REACH: u32 = 11;
pub const ENERGY_REFUSED_ALL_RECORDED: u32 = 20;
pub const ENERGY_REFUSED_USE_TOO_GREAT: u32 = 21;
pub const ENERGY_REFUSED_NOT_SHIFT: u32 = 22;
pub const ENERGY_FEASIBLE: u32 = 0;
pub const ENERGY_END_TOO_LOW: u32 = 1;
pub const ENERGY_BELOW_ZERO: u32 = 2;
#[repr(C)]
#[derive(Debug, Default, Copy, Clone, PartialEq, Eq)]
pub struct EnergyFigures {
    pub capacity: u32,
    pub start: u32,
    pub end: u32,
}
#[repr(C)]
#[derive(Debug, Default, Copy, Clone, PartialEq, Eq)]
pub struct EnergyRefusal {
    pub number: u32,
    pub p: u64,
}
#[repr(C)]
#[derive(Debug, Default, Copy, Clone, PartialEq, Eq)]
pub struct EnergyPlanAnswer {
    pub refusal: EnergyRefusal,
}
#[repr(C)]
#[derive(Debug, Default, Copy, Clone, PartialEq, Eq)]
pub struct EnergyNeededAnswer {
    pub refusal: EnergyRefusal,
    pub capacity: u64,
}
#[repr(C)]
#[derive(Debug, Default, Copy, Clone, PartialEq, Eq)]
pub struct EnergyTraceAnswer {
    pub refusal: EnergyRefusal,
    pub verdict: u32,
    pub frame: u32,
}
#[repr(C)]
#[derive(Debug, Default, Copy, Clone, PartialEq, Eq)]
pub struct EnergySums {
    pub curve0: u64,
    pub curve1: u64,
    pub curve2: u64,
}
#[repr(C)]
#[derive(Debug, Default, Copy, Clone, PartialEq, Eq)]
pub struct EnergyGradeAnswer {
    pub refusal: EnergyRefusal,
    pub sums: EnergySums,
}
#[repr(C)]
#[derive(Debug, Default, Copy, Clone, PartialEq, Eq)]
pub struct EnergyTerms {
    pub frames: u32,
    pub capacity: u32,
    pub start: u32,
    pub end: u32,
}
#[repr(C)]
#[derive(Debug, Default, Copy, Clone, PartialEq, Eq)]
pub struct EnergyTotals {
    pub harvested: u64,
    pub used: u64,
    pub lost: u64,
}
#[repr(C)]
#[derive(Debug, Default, Copy, Clone, PartialEq, Eq)]
pub struct EnergyPresent {
    pub recorded: u32,
    pub charge: u32,
    pub totals: EnergyTotals,
}
#[repr(C)]
#[derive(Debug, Default, Copy, Clone, PartialEq, Eq)]
pub struct EnergyShift {
    pub terms: EnergyTerms,
    pub now: EnergyPresent,
}
#[repr(C)]
#[derive(Debug, Default, Copy, Clone, PartialEq, Eq)]
pub struct EnergyShiftAnswer {
    pub refusal: EnergyRefusal,
    pub shift: EnergyShift,
}
#[repr(C)]
#[derive(Debug, Default, Copy, Clone, PartialEq, Eq)]
pub struct EnergyRestAnswer {
    pub refusal: EnergyRefusal,
    pub is_short: u32,
    pub missing: u64,
}
#[repr(C)]
#[derive(Debug, Default, Copy, Clone, PartialEq, Eq)]
pub struct EnergyPartAnswer {
    pub refusal: EnergyRefusal,
    pub from: usize,
    pub length: usize,
}
#[repr(C)]
#[derive(Debug, Default, Copy, Clone, PartialEq, Eq)]
pub struct EnergyHeader {
    pub figures: EnergyFigures,
    pub frames: usize,
}
#[repr(C)]
#[derive(Debug, Default, Copy, Clone, PartialEq, Eq)]
pub struct EnergyReadAnswer {
    pub refusal: EnergyRefusal,
    pub header: EnergyHeader,
}
#[repr(C)]
#[derive(Debug, Default, Copy, Clone, PartialEq, Eq)]
pub struct EnergyWriteAnswer {
    pub refusal: EnergyRefusal,
    pub bytes: usize,
}
extern "C" {
    pub fn energy_plan(
        figures: EnergyFigures,
        harvest: *const u32,
        harvest_length: usize,
        least: *const u32,
        least_length: usize,
        most: *const u32,
        most_length: usize,
        budgets: *mut u32,
        budgets_length: usize,
    ) -> EnergyPlanAnswer;
}
extern "C" {
    pub fn energy_needed(
        figures: EnergyFigures,
        harvest: *const u32,
        harvest_length: usize,
        least: *const u32,
        least_length: usize,
        most: *const u32,
        most_length: usize,
    ) -> EnergyNeededAnswer;
}
extern "C" {
    pub fn energy_trace(
        figures: EnergyFigures,
        harvest: *const u32,
        harvest_length: usize,
        budgets: *const u32,
        budgets_length: usize,
        charges: *mut i64,
        charges_length: usize,
        losses: *mut u32,
        losses_length: usize,
    ) -> EnergyTraceAnswer;
}
extern "C" {
    pub fn energy_grade(budgets: *const u32, budgets_length: usize) -> EnergyGradeAnswer;
}
extern "C" {
    pub fn energy_shift_start(
        figures: EnergyFigures,
        harvest: *const u32,
        harvest_length: usize,
        least: *const u32,
        least_length: usize,
        most: *const u32,
        most_length: usize,
    ) -> EnergyShiftAnswer;
}
extern "C" {
    pub fn energy_shift_record(shift: EnergyShift, harvest: u32, used: u32) -> EnergyShiftAnswer;
}
extern "C" {
    pub fn energy_shift_plan_rest(
        shift: EnergyShift,
        harvest: *const u32,
        harvest_length: usize,
        least: *const u32,
        least_length: usize,
        most: *const u32,
        most_length: usize,
        budgets: *mut u32,
        budgets_length: usize,
    ) -> EnergyRestAnswer;
}
extern "C" {
    pub fn energy_shift_rest_part(shift: EnergyShift, budgets: *const u32, budgets_length: usize) -> EnergyPartAnswer;
}
extern "C" {
    pub fn energy_read(
        file: *const u8,
        file_length: usize,
        harvest: *mut u32,
        harvest_length: usize,
        least: *mut u32,
        least_length: usize,
        most: *mut u32,
        most_length: usize,
    ) -> EnergyReadAnswer;
}
extern "C" {
    pub fn energy_write(
        figures: EnergyFigures,
        harvest: *const u32,
        harvest_length: usize,
        least: *const u32,
        least_length: usize,
        most: *const u32,
        most_length: usize,
        file: *mut u8,
        file_length: usize,
    ) -> EnergyWriteAnswer;
}
extern "C" {
    pub fn energy_listing(file: *const u8, file_length: usize, text: *mut u8, text_length: usize) -> usize;
}
