//! `libenergy.a` behind the trait `Energy`: each C function called with lists that are valid, and its answer as a Rust type.

use crate::answers::{Figures, Header, NotRecorded, Rest, Shift, Verdict};
use crate::frames::Frames;
use crate::interface::Energy;
use crate::raw;
use crate::refusal::Refusal;

/// The proved library.
#[derive(Clone, Copy, Debug, Default, PartialEq, Eq, Hash)]
pub struct Linked;

/// The refusal of an answer, or nothing if it is accepted. An accepted answer's P is 0.
fn refused(refusal: raw::EnergyRefusal) -> Option<Refusal> {
    let raw::EnergyRefusal { number, p } = refusal;
    if number == 0 {
        assert_eq!(p, 0, "an accepted answer has no P");
        return None;
    }
    Some(Refusal::from_code(number, p))
}

/// The values of an accepted answer, or its refusal. A refused answer's values are 0.
fn accepted<V: Default + PartialEq>(refusal: raw::EnergyRefusal, values: V) -> Result<V, Refusal> {
    match refused(refusal) {
        None => Ok(values),
        Some(refusal) => {
            assert!(values == V::default(), "a refused answer has no values");
            Err(refusal)
        }
    }
}

impl Energy for Linked {
    fn name(&self) -> &'static str {
        "linked"
    }

    fn plan(&self, figures: Figures, frames: Frames, budgets: &mut [u32]) -> Result<(), Refusal> {
        // SAFETY: all lists are valid for their lengths, and a mutable list overlaps no other.
        let answer = unsafe {
            raw::energy_plan(
                figures.into(),
                frames.harvest.as_ptr(),
                frames.harvest.len(),
                frames.least.as_ptr(),
                frames.least.len(),
                frames.most.as_ptr(),
                frames.most.len(),
                budgets.as_mut_ptr(),
                budgets.len(),
            )
        };
        accepted(answer.refusal, ())
    }

    fn needed(&self, figures: Figures, frames: Frames) -> Result<u64, Refusal> {
        // SAFETY: all lists are valid for their lengths.
        let answer = unsafe {
            raw::energy_needed(
                figures.into(),
                frames.harvest.as_ptr(),
                frames.harvest.len(),
                frames.least.as_ptr(),
                frames.least.len(),
                frames.most.as_ptr(),
                frames.most.len(),
            )
        };
        accepted(answer.refusal, answer.capacity)
    }

    fn trace(
        &self,
        figures: Figures,
        harvest: &[u32],
        budgets: &[u32],
        charges: &mut [i64],
        losses: &mut [u32],
    ) -> Result<Verdict, Refusal> {
        // SAFETY: all lists are valid for their lengths, and a mutable list overlaps no other.
        let answer = unsafe {
            raw::energy_trace(
                figures.into(),
                harvest.as_ptr(),
                harvest.len(),
                budgets.as_ptr(),
                budgets.len(),
                charges.as_mut_ptr(),
                charges.len(),
                losses.as_mut_ptr(),
                losses.len(),
            )
        };
        accepted(answer.refusal, (answer.verdict, answer.frame)).map(|said| match said {
            (raw::ENERGY_FEASIBLE, 0) => Verdict::Feasible,
            (raw::ENERGY_END_TOO_LOW, 0) => Verdict::EndTooLow,
            (raw::ENERGY_BELOW_ZERO, frame) => Verdict::BelowZero { frame },
            (verdict, frame) => panic!("no verdict: {verdict}, frame {frame}"),
        })
    }

    fn grade(&self, budgets: &[u32]) -> Result<[u64; 3], Refusal> {
        // SAFETY: the list is valid for its length.
        let answer = unsafe { raw::energy_grade(budgets.as_ptr(), budgets.len()) };
        accepted(answer.refusal, answer.sums).map(|sums| [sums.curve0, sums.curve1, sums.curve2])
    }

    fn shift_start(&self, figures: Figures, frames: Frames) -> Result<Shift, Refusal> {
        // SAFETY: all lists are valid for their lengths.
        let answer = unsafe {
            raw::energy_shift_start(
                figures.into(),
                frames.harvest.as_ptr(),
                frames.harvest.len(),
                frames.least.as_ptr(),
                frames.least.len(),
                frames.most.as_ptr(),
                frames.most.len(),
            )
        };
        accepted(answer.refusal, answer.shift).map(Shift::from)
    }

    fn shift_record(&self, shift: Shift, harvest: u32, used: u32) -> Result<Shift, NotRecorded> {
        // SAFETY: the call takes numbers alone.
        let answer = unsafe { raw::energy_shift_record(shift.into(), harvest, used) };
        let shift = Shift::from(answer.shift);
        match refused(answer.refusal) {
            None => Ok(shift),
            Some(refusal) => Err(NotRecorded { refusal, shift }),
        }
    }

    fn shift_plan_rest(&self, shift: Shift, frames: Frames, budgets: &mut [u32]) -> Result<Rest, Refusal> {
        // SAFETY: all lists are valid for their lengths, and a mutable list overlaps no other.
        let answer = unsafe {
            raw::energy_shift_plan_rest(
                shift.into(),
                frames.harvest.as_ptr(),
                frames.harvest.len(),
                frames.least.as_ptr(),
                frames.least.len(),
                frames.most.as_ptr(),
                frames.most.len(),
                budgets.as_mut_ptr(),
                budgets.len(),
            )
        };
        accepted(answer.refusal, (answer.is_short, answer.missing)).map(|said| match said {
            (0, 0) => Rest::Planned,
            (1, missing) => Rest::Short { missing },
            (short, missing) => panic!("no answer about the rest: {short}, {missing}"),
        })
    }

    fn shift_rest_part<'a>(&self, shift: Shift, budgets: &'a [u32]) -> Result<&'a [u32], Refusal> {
        // SAFETY: the list is valid for its length.
        let answer = unsafe { raw::energy_shift_rest_part(shift.into(), budgets.as_ptr(), budgets.len()) };
        accepted(answer.refusal, (answer.from, answer.length)).map(|(from, length)| &budgets[from..][..length])
    }

    fn read(&self, file: &[u8], harvest: &mut [u32], least: &mut [u32], most: &mut [u32]) -> Result<Header, Refusal> {
        // SAFETY: all lists are valid for their lengths, and a mutable list overlaps no other.
        let answer = unsafe {
            raw::energy_read(
                file.as_ptr(),
                file.len(),
                harvest.as_mut_ptr(),
                harvest.len(),
                least.as_mut_ptr(),
                least.len(),
                most.as_mut_ptr(),
                most.len(),
            )
        };
        accepted(answer.refusal, answer.header).map(Header::from)
    }

    fn write(&self, figures: Figures, frames: Frames, file: &mut [u8]) -> Result<usize, Refusal> {
        // SAFETY: all lists are valid for their lengths, and a mutable list overlaps no other.
        let answer = unsafe {
            raw::energy_write(
                figures.into(),
                frames.harvest.as_ptr(),
                frames.harvest.len(),
                frames.least.as_ptr(),
                frames.least.len(),
                frames.most.as_ptr(),
                frames.most.len(),
                file.as_mut_ptr(),
                file.len(),
            )
        };
        accepted(answer.refusal, answer.bytes)
    }

    fn listing(&self, file: &[u8], text: &mut [u8]) -> usize {
        // SAFETY: both lists are valid for their lengths, and the mutable one does not overlap the other.
        unsafe { raw::energy_listing(file.as_ptr(), file.len(), text.as_mut_ptr(), text.len()) }
    }
}
