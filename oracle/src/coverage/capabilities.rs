//! Counts of colour value ids by all that a profile tells of colours: Tc, xy and the number of channels.

use super::grid::{bytes, names, Axis, Grid};
use super::Watch;
use crate::call::Call;
use crate::gear::Gear;
use crate::kinds::COLOUR_VALUE;

const TC_AND_XY: [&str; 4] = ["neither Tc nor xy", "xy", "Tc", "Tc and xy"];
const CHANNELS_MAX: u8 = 6;

pub struct Capabilities(Grid);

impl Capabilities {
    pub fn new() -> Self {
        let ids: Axis = bytes().iter().map(|id| format!("id {id}")).collect();
        let channels: Axis = (0..=CHANNELS_MAX).map(|count| format!("channels {count}")).collect();
        Capabilities(Grid::new("each id by capabilities and number of channels", [ids, names(&TC_AND_XY), channels]))
    }
}

impl Watch for Capabilities {
    fn before(&mut self, gear: &Gear, call: &Call) {
        if call.kind() == COLOUR_VALUE {
            let spec = &gear.spec;
            let tc_and_xy = 2 * usize::from(spec.tc_capable) + usize::from(spec.xy_capable);
            self.0.hit(&[call.byte(1).into(), tc_and_xy, spec.rgbwaf_channels.into()]);
        }
    }

    fn grids(&self) -> Vec<&Grid> {
        vec![&self.0]
    }
}
