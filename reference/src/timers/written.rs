//! The state that an image is written of: the one held, but for wrong builds.

use super::Timers;
use crate::fault::Fault;
use crate::limits::DATA;
use crate::options;
use crate::state::{Pair, State};

impl Timers {
    pub(super) fn written(&self) -> State {
        let mut state = self.state.clone();
        let count = state.pair_count as usize;
        if self.fault == Fault::FirstInHead {
            let first = state.editions[0];
            state.hold_prefix(&first);
        }
        let pairs = &mut state.pairs[..count];
        match self.fault {
            Fault::ImageWithoutWindow => pairs.iter_mut().for_each(|p| {
                *p = Pair { handle: p.handle, device: p.device, quiet: p.quiet, rssi: p.rssi, ..Pair::NONE };
            }),
            Fault::PacketNotInImage => {
                let filtering = |p: &&mut Pair| {
                    let monitor = self.state.monitor(p.handle);
                    monitor.is_some_and(options::filters_duplicates)
                };
                pairs.iter_mut().filter(filtering).for_each(|p| {
                    *p = Pair { event_type: Pair::NO_PACKET, n: 0, data: [0; DATA], ..*p };
                });
            }
            Fault::KeptNotInImage => pairs.iter_mut().for_each(|p| p.rssi = 0),
            Fault::PairOrderLost => pairs.sort_by_key(|p| p.handle),
            Fault::SumUnsigned => pairs.iter_mut().for_each(|p| p.sum = p.sum.abs()),
            _ => (),
        }
        state
    }
}
