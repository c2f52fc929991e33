//! Document 01, "Watching, by history", the paragraph "Tick", with stored timers.

use super::Timers;
use crate::coverage::{hit, Rule};
use crate::event;
use crate::fault::Fault;
use crate::limits::{Seconds, DATA};
use crate::options;
use crate::state::{Monitor, Pair};

impl Timers {
    /// Pairs in the order they started: a stop event if the watch ends, else what the window writes.
    pub(super) fn tick(&mut self) -> Vec<u8> {
        self.done.tick = true;
        let mut answer = Vec::new();
        let mut kept = Vec::new();
        let mut pairs = self.state.pairs().to_vec();
        if self.fault == Fault::StopsByHandle {
            pairs.sort_by_key(|p| p.handle);
        }
        let any = !pairs.is_empty();
        for mut pair in pairs {
            let monitor = *self.state.monitor(pair.handle).expect("a sound state");
            if !(self.fault == Fault::SilenceIgnored && pair.packets == 0 && monitor.period().is_some()) {
                pair.quiet += 1;
            }
            if pair.quiet < self.run(&monitor) {
                let report = self.window(&mut pair, &monitor);
                self.done.windows[pair.handle as usize] += !report.is_empty() as u64;
                answer.extend(report);
                kept.push(pair);
                continue;
            }
            self.count_stop(&pair, &monitor);
            if self.fault == Fault::WindowBesideStop && self.state.filter == 1 && pair.packets > 0 {
                answer.extend(window_report(&pair, self.fault));
            }
            if !(self.state.filter == 0 && self.fault == Fault::NoStopWhileOff) {
                answer.extend(self.device_event(&pair.device, pair.handle, false));
            }
        }
        if any && answer.is_empty() {
            hit(Rule::TickQuiet);
        }
        let ended = kept.len() < self.state.pair_count as usize;
        self.hold_pairs(&kept);
        if ended && self.fault != Fault::IndexKeepsStopped {
            self.index_pairs();
        }
        answer
    }

    /// The ticks without a good packet that end a watch: 10 x interval.
    fn run(&self, monitor: &Monitor) -> u16 {
        let ticks = Seconds(monitor.interval).ticks().0;
        match self.fault {
            Fault::EndsEarly => ticks - 1,
            Fault::EndsLate => ticks + 1,
            Fault::IntervalInTicks => monitor.interval as u16,
            _ => ticks,
        }
    }

    /// One more tick of a window; the P-th closes it. Windows run and gather while the filter is off.
    fn window(&self, pair: &mut Pair, monitor: &Monitor) -> Vec<u8> {
        let fault = self.fault;
        let period = match monitor.period() {
            Some(period) => period,
            None if monitor.sampling == 0xFF && fault == Fault::Period255 => 0xFF,
            None => return Vec::new(),
        };
        let filter_off = self.state.filter == 0;
        if filter_off && fault == Fault::WindowStopsWhileOff {
            return Vec::new();
        }
        pair.window_ticks += 1;
        if pair.window_ticks < period {
            return Vec::new();
        }
        if fault == Fault::WindowSinceReport && pair.packets == 0 {
            pair.window_ticks -= 1;
            return Vec::new();
        }
        pair.window_ticks = 0;
        if filter_off && fault == Fault::WindowKeptWhileOff {
            return Vec::new();
        }
        // Judged by the packet that would be reported (T-13).
        let fits = options::reported(monitor, pair.event_type, fault);
        hit(match (filter_off, pair.packets) {
            (true, _) => Rule::WindowOff,
            (false, 0) => Rule::WindowEmpty,
            (false, _) if fits => Rule::WindowReport,
            (false, _) => Rule::WindowUnreported,
        });
        let fits = fits || matches!(fault, Fault::WindowWithoutBit | Fault::ReportedWithoutBit);
        let speaks = fits && (!filter_off || fault == Fault::WindowReportsWhileOff);
        let report = if speaks && (pair.packets > 0 || fault == Fault::EmptyWindowReported) {
            window_report(pair, fault)
        } else {
            Vec::new()
        };
        pair.packets = 0;
        if fault != Fault::SumKept {
            pair.sum = 0;
        }
        pair.event_type = 0;
        pair.n = 0;
        pair.data = [0; DATA];
        report
    }

    fn count_stop(&self, pair: &Pair, monitor: &Monitor) {
        hit(Rule::Stop);
        if self.state.filter == 0 {
            hit(Rule::StopWhileOff);
        }
        if pair.packets > 0 && monitor.period() == Some(pair.window_ticks.saturating_add(1)) {
            hit(Rule::StopWindow);
        }
        if monitor.high == monitor.low {
            hit(Rule::StopShared);
        }
        if monitor.interval == 60 {
            hit(Rule::StopSixtySeconds);
        }
    }
}

/// The latest packet of the window, with RSSI the greatest whole number not above sum / count.
pub(super) fn window_report(pair: &Pair, fault: Fault) -> Vec<u8> {
    let count = (pair.packets as i64).max(1);
    let mean = if fault == Fault::MeanCutsTowardZero { pair.sum / count } else { pair.sum.div_euclid(count) };
    if pair.sum < 0 && pair.sum % count != 0 {
        hit(Rule::WindowReportNegative);
    }
    event::report(pair.event_type, &pair.device, pair.latest(), mean as i8)
}
