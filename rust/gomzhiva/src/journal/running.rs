//! A running shift: its forecast, its record in the library's hands, and the frames recorded.

use crate::failure::Failure;
use crate::request::{harvest_above_limit, FrameLists, Request};
use energy::{Refusal, Rest, Shift};

/// A frame that was recorded, with the charge after it and what it lost.
#[derive(Clone, Copy, Debug, PartialEq, Eq)]
pub struct Recorded {
    pub harvest: u32,
    pub used: u32,
    pub charge: u32,
    pub loss: u32,
}

#[derive(Clone, Debug)]
pub struct Running {
    pub forecast: FrameLists,
    pub shift: Shift,
    pub recorded: Vec<Recorded>,
}

impl Running {
    pub fn start(request: Request) -> Result<Running, Refusal> {
        let shift = energy::start(request.figures, request.frames.lent())?;
        Ok(Running {
            forecast: request.frames,
            shift,
            recorded: Vec::new(),
        })
    }

    /// Records the next frame; a refusal leaves the shift as it was.
    pub fn record(&mut self, harvest: u32, used: u32) -> Result<(), Refusal> {
        let before = self.shift.now.totals.lost;
        self.shift = energy::record(self.shift, harvest, used)?;
        let now = self.shift.now;
        self.recorded.push(Recorded {
            harvest,
            used,
            charge: now.charge,
            loss: u32::try_from(now.totals.lost - before).expect("no more than the harvest"),
        });
        Ok(())
    }

    /// The failure of a recording of this harvest in the next frame.
    pub fn refused(&self, refusal: Refusal, harvest: u32) -> Failure {
        let sentence = match refusal {
            Refusal::HarvestAboveLimit { .. } => {
                harvest_above_limit(self.forecast.calendar, self.recorded.len(), harvest)
            }
            other => other.sentence(),
        };
        Failure::Refused { refusal, sentence }
    }

    /// One figure of each frame recorded.
    pub fn column<N>(&self, figure: fn(&Recorded) -> N) -> Vec<N> {
        self.recorded.iter().map(figure).collect()
    }

    /// The budgets of the frames not yet recorded, with the leasts of the forecast or without them.
    pub fn plan_rest(&self, without_leasts: bool) -> Result<(Rest, Vec<u32>), Refusal> {
        let forecast = self.forecast.planned(without_leasts);
        let plan = energy::plan_rest(self.shift, forecast.lent())?;
        Ok((plan.rest, plan.budgets))
    }

    /// The frames recorded: what the sun gave, and the bounds that their budgets had.
    pub fn recorded_frames(&self) -> FrameLists {
        let recorded = self.recorded.len();
        FrameLists {
            calendar: self.forecast.calendar,
            harvest: self.column(|r| r.harvest),
            least: self.forecast.least[..recorded].to_vec(),
            most: self.forecast.most[..recorded].to_vec(),
        }
    }

    /// The forecast of the frames not yet recorded, with their bounds.
    pub fn rest_frames(&self) -> FrameLists {
        self.forecast.rest(self.recorded.len())
    }
}
