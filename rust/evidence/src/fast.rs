//! The entries over the algorithms here, the shift's but for planning as in the reference: the library's twin, the
//! baseline for speed.

use crate::algorithms::certificate::frame::{Bounded, Plain};
use crate::algorithms::certificate::{plan_frames, Counters, Scratch};
use crate::algorithms::lines::{self, Shown};
use crate::algorithms::looks::{bounds_fit, figures_fit, lists_fit};
use crate::algorithms::{tracing, words};
use crate::reference::charge::{unlimited, Store};
use crate::reference::limits::{MAX_FRAMES, NO_UPPER_END};
use crate::reference::needed::by_requirement;
use crate::reference::refusals::{self, Checked};
use crate::reference::{curves, shift, Reference};
use energy::{Energy, Figures, Frames, Header, NotRecorded, Refusal, Rest, Shift, Verdict};

/// The fast implementation in Rust.
pub struct Fast;

/// Whether no frame is bounded.
fn is_plain(frames: Frames) -> bool {
    let leasts = frames.least.iter().fold(0, |all, least| all | least);
    let mosts = frames.most.iter().fold(NO_UPPER_END, |all, most| all & most);
    leasts == 0 && mosts == NO_UPPER_END
}

/// What planning refuses. Without bounds there is no 10 and no 11.
fn plan_refusal(figures: Figures, frames: Frames, budgets: usize) -> Checked {
    if !is_plain(frames) {
        return refusals::plan(figures, frames, budgets);
    }
    refusals::lists(frames)?;
    refusals::same_length(budgets, frames.harvest.len())?;
    refusals::figures(figures, frames.harvest)?;
    refusals::end_charge(figures.into(), frames.harvest)
}

/// What the needed capacity refuses. Without bounds there is no 10 and no 11.
fn needed_refusal(figures: Figures, frames: Frames) -> Checked {
    if !is_plain(frames) {
        return refusals::needed(figures, frames);
    }
    refusals::lists(frames)?;
    refusals::charges(figures)?;
    refusals::harvests(1, frames.harvest)?;
    refusals::end_charge(figures.into(), frames.harvest)
}

/// Writes the plan of a request that is within reach, and counts by what it was found.
pub fn plan_into(store: Store, frames: Frames, budgets: &mut [u32], counters: &mut Counters) {
    let Frames { harvest, least, most } = frames;
    let plain = Plain::new(store.capacity, store.start, store.end, harvest);
    let mut scratch = Scratch::new(budgets.len());
    if is_plain(frames) {
        plan_frames(&plain, &mut scratch, budgets, counters);
    } else {
        plan_frames(&Bounded { plain, least, most }, &mut scratch, budgets, counters);
    }
}

/// The plan as a list.
fn plan(store: Store, frames: Frames) -> Vec<u32> {
    let mut budgets = vec![0; frames.harvest.len()];
    plan_into(store, frames, &mut budgets, &mut Counters::default());
    budgets
}

/// The needed capacity of a request that is not refused.
fn needed(figures: Figures, frames: Frames) -> u64 {
    let store = figures.into();
    let open_plan = plan(unlimited(store, frames.harvest), frames);
    by_requirement(store, frames.harvest, &open_plan)
}

/// What tracing refuses.
fn trace_refusal(figures: Figures, harvest: &[u32], budgets: usize, charges: usize, losses: usize) -> Checked {
    if lists_fit(harvest.len(), &[budgets, charges, losses]) && figures_fit(figures, harvest) {
        return Ok(());
    }
    refusals::trace(figures, harvest, budgets, charges, losses)
}

/// What writing refuses.
fn write_refusal(figures: Figures, frames: Frames, room: usize) -> Checked {
    let Frames { harvest, least, most } = frames;
    let fits = lists_fit(harvest.len(), &[least.len(), most.len()])
        && words::file_bytes(frames) <= room
        && figures_fit(figures, harvest)
        && bounds_fit(frames);
    if fits {
        return Ok(());
    }
    refusals::write(figures, frames, room)
}

/// Writes the listing of a file, and gives the number of bytes, unless it is refused.
fn list(file: &[u8], text: &mut [u8]) -> Result<usize, Refusal> {
    let [mut harvest, mut least, mut most, mut budgets, mut losses] = [[0; MAX_FRAMES]; 5];
    let mut charges = [0; MAX_FRAMES];
    let Header { figures, frames } = words::read(file, &mut harvest, &mut least, &mut most)?;
    let lists = Frames {
        harvest: &harvest[..frames],
        least: &least[..frames],
        most: &most[..frames],
    };
    let (budgets, charges, losses) = (&mut budgets[..frames], &mut charges[..frames], &mut losses[..frames]);
    plan_refusal(figures, lists, frames)?;
    plan_into(figures.into(), lists, budgets, &mut Counters::default());
    tracing::fill(figures, lists.harvest, budgets, charges, losses);
    let shown = Shown {
        figures,
        needed: needed(figures, lists),
        worth: curves::grade(budgets),
        budgets,
        charges,
        losses,
    };
    Ok(lines::write(&shown, text))
}

impl Energy for Fast {
    fn name(&self) -> &'static str {
        "fast"
    }

    fn plan(&self, figures: Figures, frames: Frames, budgets: &mut [u32]) -> Result<(), Refusal> {
        plan_refusal(figures, frames, budgets.len())?;
        plan_into(figures.into(), frames, budgets, &mut Counters::default());
        Ok(())
    }

    fn needed(&self, figures: Figures, frames: Frames) -> Result<u64, Refusal> {
        needed_refusal(figures, frames)?;
        Ok(needed(figures, frames))
    }

    fn trace(
        &self,
        figures: Figures,
        harvest: &[u32],
        budgets: &[u32],
        charges: &mut [i64],
        losses: &mut [u32],
    ) -> Result<Verdict, Refusal> {
        trace_refusal(figures, harvest, budgets.len(), charges.len(), losses.len())?;
        tracing::fill(figures, harvest, budgets, charges, losses);
        Ok(tracing::judge(figures, charges))
    }

    fn grade(&self, budgets: &[u32]) -> Result<[u64; 3], Refusal> {
        Reference.grade(budgets)
    }

    fn shift_start(&self, figures: Figures, frames: Frames) -> Result<Shift, Refusal> {
        Reference.shift_start(figures, frames)
    }

    fn shift_record(&self, shift: Shift, harvest: u32, used: u32) -> Result<Shift, NotRecorded> {
        Reference.shift_record(shift, harvest, used)
    }

    fn shift_plan_rest(&self, shift: Shift, frames: Frames, budgets: &mut [u32]) -> Result<Rest, Refusal> {
        shift::plan_rest(shift, frames, budgets, plan)
    }

    fn shift_rest_part<'a>(&self, shift: Shift, budgets: &'a [u32]) -> Result<&'a [u32], Refusal> {
        Reference.shift_rest_part(shift, budgets)
    }

    fn read(&self, file: &[u8], harvest: &mut [u32], least: &mut [u32], most: &mut [u32]) -> Result<Header, Refusal> {
        words::read(file, harvest, least, most)
    }

    fn write(&self, figures: Figures, frames: Frames, file: &mut [u8]) -> Result<usize, Refusal> {
        write_refusal(figures, frames, file.len())?;
        Ok(words::write(figures, frames, file))
    }

    fn listing(&self, file: &[u8], text: &mut [u8]) -> usize {
        list(file, text).unwrap_or_else(|refusal| lines::refuse(refusal.number(), refusal.p(), text))
    }
}
