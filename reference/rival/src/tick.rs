//! Ticks: watches that end, windows that close.

use crate::answer::Answer;
use crate::engine::Engine;
use crate::monitor::Monitor;
use crate::pair::Pair;

impl Engine {
    /// Nothing is looked at before the first tick at which a watch might end or a window closes.
    pub(crate) fn tick(&mut self, answer: &mut Answer) {
        self.now += 1;
        if self.now >= self.due {
            self.end(answer);
        }
    }

    /// Pairs in the order they started; those that stay move up.
    fn end(&mut self, answer: &mut Answer) {
        let mut kept = 0;
        self.due = u64::MAX;
        for place in 0..self.held {
            let pair = &mut self.pairs[place];
            if pair.ends <= self.now {
                let (device, handle) = (pair.device, pair.handle);
                answer.watched(self.prefix(), device, handle, false);
                continue;
            }
            if pair.closes <= self.now {
                close_window(pair, &self.monitors, self.filter, answer);
            }
            self.due = self.due.min(pair.due());
            if kept != place {
                self.pairs[kept] = self.pairs[place];
            }
            kept += 1;
        }
        self.held = kept;
    }
}

/// With the filter on, a report of the latest packet with the mean, if its monitor asks for such packets.
fn close_window(pair: &mut Pair, monitors: &[Option<Monitor>], filter: bool, answer: &mut Answer) {
    if let (Some(mean), Some(monitor), true) = (pair.mean(), &monitors[usize::from(pair.handle)], filter) {
        if monitor.reports(pair.event_type) {
            answer.report(pair.event_type, pair.device, pair.data(), mean);
        }
    }
    pair.open_window();
}
