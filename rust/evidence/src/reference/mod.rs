//! Document 01, as document 02 has changed it so far, written from the documents and not from the Rattle code: simple
//! methods, correctness first.

pub mod charge;
pub mod curves;
pub mod exhaustive;
pub mod limits;
pub mod listing;
pub mod logbook;
pub mod needed;
pub mod plan;
pub mod refusals;
pub mod shift;
pub mod tables;
pub mod tracer;
pub mod wordfile;

use energy::{Energy, Figures, Frames, Header, NotRecorded, Refusal, Rest, Shift, Verdict};

/// The independent implementation.
pub struct Reference;

impl Energy for Reference {
    fn name(&self) -> &'static str {
        "reference"
    }

    fn plan(&self, figures: Figures, frames: Frames, budgets: &mut [u32]) -> Result<(), Refusal> {
        refusals::plan(figures, frames, budgets.len())?;
        budgets.copy_from_slice(&plan::by_filling(figures.into(), frames));
        Ok(())
    }

    fn needed(&self, figures: Figures, frames: Frames) -> Result<u64, Refusal> {
        refusals::needed(figures, frames)?;
        Ok(needed::needed(figures.into(), frames))
    }

    fn trace(
        &self,
        figures: Figures,
        harvest: &[u32],
        budgets: &[u32],
        charges: &mut [i64],
        losses: &mut [u32],
    ) -> Result<Verdict, Refusal> {
        refusals::trace(figures, harvest, budgets.len(), charges.len(), losses.len())?;
        Ok(tracer::trace(figures, harvest, budgets, charges, losses))
    }

    fn grade(&self, budgets: &[u32]) -> Result<[u64; 3], Refusal> {
        refusals::frames(budgets.len())?;
        Ok(curves::grade(budgets))
    }

    fn shift_start(&self, figures: Figures, frames: Frames) -> Result<Shift, Refusal> {
        shift::start(figures, frames)
    }

    fn shift_record(&self, shift: Shift, harvest: u32, used: u32) -> Result<Shift, NotRecorded> {
        shift::record(shift, harvest, used)
    }

    fn shift_plan_rest(&self, shift: Shift, frames: Frames, budgets: &mut [u32]) -> Result<Rest, Refusal> {
        shift::plan_rest(shift, frames, budgets, plan::by_filling)
    }

    fn shift_rest_part<'a>(&self, shift: Shift, budgets: &'a [u32]) -> Result<&'a [u32], Refusal> {
        shift::rest_part(shift, budgets)
    }

    fn read(&self, file: &[u8], harvest: &mut [u32], least: &mut [u32], most: &mut [u32]) -> Result<Header, Refusal> {
        wordfile::read(file, harvest, least, most)
    }

    fn write(&self, figures: Figures, frames: Frames, file: &mut [u8]) -> Result<usize, Refusal> {
        wordfile::write(figures, frames, file)
    }

    fn listing(&self, file: &[u8], text: &mut [u8]) -> usize {
        listing::listing(self, file, text)
    }
}
