//! The structs of the header as those of this crate, and back, field by field: one that either lacks does not compile.

use crate::answers::{Figures, Header, Present, Shift, Terms, Totals};
use crate::raw;

macro_rules! same_fields {
    ($raw:ident, $own:ident, $($field:ident),+) => {
        impl From<raw::$raw> for $own {
            fn from(raw::$raw { $($field),+ }: raw::$raw) -> $own {
                $own { $($field: $field.into()),+ }
            }
        }

        impl From<$own> for raw::$raw {
            fn from($own { $($field),+ }: $own) -> raw::$raw {
                raw::$raw { $($field: $field.into()),+ }
            }
        }
    };
}

same_fields!(EnergyFigures, Figures, capacity, start, end);
same_fields!(EnergyTerms, Terms, frames, capacity, start, end);
same_fields!(EnergyTotals, Totals, harvested, used, lost);
same_fields!(EnergyPresent, Present, recorded, charge, totals);
same_fields!(EnergyShift, Shift, terms, now);
same_fields!(EnergyHeader, Header, figures, frames);
