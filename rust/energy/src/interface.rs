//! The calls as one trait, so that every implementation is called and tested in the same way.

use crate::answers::{Figures, Header, NotRecorded, Rest, Shift, Verdict};
use crate::frames::Frames;
use crate::refusal::Refusal;

/// The planner's calls with lists that the caller lends, for whoever has several implementations or must not allocate. The
/// functions [`start`](crate::start), [`record`](crate::record) and [`plan_rest`](crate::plan_rest) are its `shift_start`,
/// `shift_record` and `shift_plan_rest`; the other ones have its names.
///
/// ```
/// use energy::{Energy, Figures, Frames, Linked};
///
/// let figures = Figures { capacity: 5, start: 2, end: 2 };
/// let mut budgets = [0; 6];
/// Linked.plan(figures, Frames::unbounded(&[6, 4, 0, 0, 5, 5]), &mut budgets)?;
/// assert_eq!(budgets, [4, 3, 3, 2, 4, 4]);
/// # Ok::<(), energy::Refusal>(())
/// ```
///
/// # Errors
///
/// Each call is refused as its function is, and by 7 also where a list that it writes does not fit: in the place of 7, in
/// `read` behind all else. A refused call alters no list.
pub trait Energy {
    /// What the implementation is called in messages and tables.
    fn name(&self) -> &'static str;

    /// Writes the plan into the budgets.
    fn plan(&self, figures: Figures, frames: Frames, budgets: &mut [u32]) -> Result<(), Refusal>;

    /// The needed capacity; the capacity of the figures plays no part.
    fn needed(&self, figures: Figures, frames: Frames) -> Result<u64, Refusal>;

    /// Writes the charge after each frame and what each frame loses, and judges the budgets, whatever their bounds. Each
    /// list has an entry for each frame.
    fn trace(
        &self,
        figures: Figures,
        harvest: &[u32],
        budgets: &[u32],
        charges: &mut [i64],
        losses: &mut [u32],
    ) -> Result<Verdict, Refusal>;

    /// The sums of the three house curves.
    fn grade(&self, budgets: &[u32]) -> Result<[u64; 3], Refusal>;

    /// Starts a shift from a valid, reachable request.
    fn shift_start(&self, figures: Figures, frames: Frames) -> Result<Shift, Refusal>;

    /// Records the actual harvest and use of the next frame.
    fn shift_record(&self, shift: Shift, harvest: u32, used: u32) -> Result<Shift, NotRecorded>;

    /// Writes the plan of the frames not yet recorded, by the lists lent; budgets of recorded frames keep their values.
    fn shift_plan_rest(&self, shift: Shift, frames: Frames, budgets: &mut [u32]) -> Result<Rest, Refusal>;

    /// The part of the budgets that begins at the next frame.
    ///
    /// # Errors
    ///
    /// Refused by 22, 7 or 20, the numbers of [`Refusal`]: the first that holds.
    fn shift_rest_part<'a>(&self, shift: Shift, budgets: &'a [u32]) -> Result<&'a [u32], Refusal>;

    /// Reads a word file into three lists; what is beyond its frames keeps its values.
    fn read(&self, file: &[u8], harvest: &mut [u32], least: &mut [u32], most: &mut [u32]) -> Result<Header, Refusal>;

    /// Writes a word file and gives its length; bytes beyond it keep their values.
    fn write(&self, figures: Figures, frames: Frames, file: &mut [u8]) -> Result<usize, Refusal>;

    /// Writes what the plan program prints for a file, as far as there is room, and gives the number of bytes;
    /// bytes beyond it keep their values.
    fn listing(&self, file: &[u8], text: &mut [u8]) -> usize;
}
