//! Packets and ticks, aimed at thresholds, ends of watches and windows, and the 16 and 64 limits.

use super::frames::{frame, monitor, packet, scanned, PACKET, SCANNED};
use super::{conditions, states, Generator, Theme};
use crate::limits::{Seconds, PAIRS};
use crate::private::Key;
use crate::script::Call;
use crate::state::Device;

impl Generator {
    /// A device: one under watch, one of a condition, a private address of a live monitor's key, or any.
    fn device(&mut self) -> Device {
        let monitors = self.state.monitors();
        let mut keys: Vec<Key> = Vec::new();
        for m in monitors {
            if let (3, Ok(key)) = (m.kind, m.condition().try_into()) {
                keys.push(key);
            }
            if m.options & 0x0A != 0 {
                keys.push(m.irk);
            }
        }
        let peers: Vec<Device> = monitors.iter().filter(|m| m.options & 0x05 != 0).map(|m| m.peer).collect();
        if !peers.is_empty() && self.random.percent(25) {
            let peer = self.random.pick(&peers);
            let kind = if self.random.percent(15) { 1 - peer.kind.min(1) } else { peer.kind.min(1) };
            return Device { kind, ..peer };
        }
        if !keys.is_empty() && self.random.percent(35) {
            let key = self.random.pick(&keys);
            // The machine changes its address now and then.
            match self.private {
                Some((held, device)) if held == key && !self.random.percent(30) => return device,
                _ => {
                    let device = states::private_device(&mut self.random, &key);
                    self.private = Some((key, device));
                    return device;
                }
            }
        }
        if !self.state.pairs().is_empty() && self.random.percent(30) {
            return self.state.pairs()[self.random.below(self.state.pairs().len())].device;
        }
        self.random.pick(&self.devices)
    }

    /// Ask for a device: one under watch, the last of the index more often, its address with the other type, or another.
    pub(super) fn ask(&mut self) {
        let mut device = self.random.pick(&self.devices);
        let entries = &self.state.index[..(self.state.index_count as usize).min(PAIRS)];
        if !entries.is_empty() && self.random.percent(80) {
            device = self.random.pick(entries).device;
            if self.random.percent(30) {
                device = entries[entries.len() - 1].device;
            }
        }
        if self.random.percent(10) {
            device.kind = 1 - device.kind.min(1);
        }
        self.make_call(Call::Ask(device));
    }

    /// An RSSI: at the edges of a live monitor's thresholds, at those of the range, or any.
    fn rssi(&mut self) -> i8 {
        let least = self.state.pairs().iter().map(|p| p.rssi).min();
        if let (Some(least), PAIRS, true) = (least, self.state.pairs().len(), self.random.percent(50)) {
            // The table is full: beside the weakest pair.
            let near = [least.saturating_sub(1), least, least.saturating_add(1), least.saturating_add(2)];
            return self.random.pick(&near).clamp(-127, 20);
        }
        let monitors = self.state.monitors();
        if !monitors.is_empty() && self.random.percent(80) {
            let m = &monitors[self.random.below(monitors.len())];
            let near = [
                m.high,
                m.high,
                m.high.saturating_sub(1),
                m.high.saturating_add(1),
                m.low,
                m.low.saturating_add(1),
            ];
            return self.random.pick(&near).clamp(-127, 20);
        }
        match self.random.below(4) {
            0 => self.random.pick(&[-127, 20, -1, 0, 1]),
            _ => self.random.between(-127, 20) as i8,
        }
    }

    /// A packet, a third of them of kind 04: its kind and payload.
    pub(super) fn packet_payload(&mut self) -> (u8, Vec<u8>) {
        let share = if self.theme == Theme::Second { 50 } else { 10 };
        let again = self.last.clone().filter(|_| self.random.percent(share));
        let made = match again {
            Some(last) => self.repeated(last),
            None => self.new_packet(),
        };
        self.last = Some(made.clone());
        made
    }

    /// The last packet again, at another RSSI, at times of another event type or with other data.
    fn repeated(&mut self, (mut kind, mut payload): (u8, Vec<u8>)) -> (u8, Vec<u8>) {
        if self.random.percent(50) {
            *payload.last_mut().expect("an RSSI") = self.rssi() as u8;
        }
        match self.random.below(10) {
            0..=1 => payload[0] = self.random.pick(if kind == PACKET { &[0, 1, 2, 3] } else { &[0, 2] }),
            2 if kind == PACKET && payload[0] % 2 == 0 => {
                // The same advertisement with a scan response.
                kind = SCANNED;
                let rssi = payload.pop().expect("an RSSI");
                payload.extend([2, 1, self.random.octet(), rssi]);
            }
            3 if payload[8] > 0 => payload[9] ^= 1,
            _ => (),
        }
        (kind, payload)
    }

    fn new_packet(&mut self) -> (u8, Vec<u8>) {
        let device = self.device();
        let rssi = self.rssi();
        if self.random.percent(35) {
            let (data, scan) = conditions::texts(&mut self.random, self.state.monitors());
            let event_type = self.random.pick(&[0, 2]);
            return (SCANNED, scanned(event_type, &device, &data, &scan, rssi));
        }
        let data = conditions::data(&mut self.random, self.state.monitors());
        (PACKET, packet(self.random.below(4) as u8, &device, &data, rssi))
    }

    pub(super) fn give_packet(&mut self, device: &Device, data: &[u8], rssi: i8) {
        let event_type = self.random.below(4) as u8;
        let octets = frame(PACKET, self.next_number(), &packet(event_type, device, data, rssi));
        self.give(octets);
    }

    pub(super) fn packet(&mut self) {
        let (kind, payload) = self.packet_payload();
        let octets = frame(kind, self.next_number(), &payload);
        self.give(octets);
    }

    /// A strong packet of a device not seen before.
    pub(super) fn new_device(&mut self) {
        let device = states::device(&mut self.random);
        let rssi = match self.random.percent(40) {
            true => self.rssi(),
            false => 20,
        };
        self.give_packet(&device, &[2, 1, 6], rssi);
    }

    /// A run of ticks, aimed at the end of a watch or of a window.
    pub(super) fn ticks(&mut self) {
        let most = if self.theme == Theme::LongTicks { 620 } else { 40 };
        let mut run = self.random.pick(&[1, 1, 2, 3, 9, 10, 11]);
        if !self.state.pairs().is_empty() && self.random.percent(60) {
            let pair = self.state.pairs()[self.random.below(self.state.pairs().len())];
            if let Some(monitor) = self.state.monitor(pair.handle) {
                let left = (Seconds(monitor.interval).ticks().0 - pair.quiet.min(600)) as usize;
                run = match monitor.period() {
                    Some(period) if self.random.percent(50) => {
                        (period - pair.window_ticks.min(period)) as usize
                    }
                    _ => left,
                };
                run = (run + self.random.below(3)).saturating_sub(1);
            }
        }
        if run > most {
            run = self.random.below(most);
        }
        (0..run).for_each(|_| self.tick());
    }

    /// Fill the 64 pairs, by monitors of which a packet matches some, at RSSI of which several are equal. Most watches
    /// last longer than the session.
    pub(super) fn fill_table(&mut self) {
        let (kind, flags) = conditions::flags();
        let named = [2, 3, 0x01, 0, 0x06, 3, 0x09, 0, 0x41];
        for _ in 0..self.random.pick(&[8, 12, 16, 16]) {
            let sampling = self.random.pick(&[0, 1, 3, 10, 0xFF]);
            let interval = self.random.pick(&[1, 30, 60, 60, 60]);
            let (high, low) = self.random.pick(&[(-90, -100), (-90, -100), (-127, -127), (-60, -80)]);
            let parameters = match self.random.below(6) {
                0 => self.valid_monitor(),
                1 => monitor(high, low, interval, sampling, 1, &named),
                2 => monitor(high, low, interval, sampling, 1, &[1, 3, 0x09, 0, 0x41]),
                _ => monitor(high, low, interval, sampling, kind, &flags),
            };
            self.command(&parameters);
        }
        if self.random.percent(60) {
            self.command(&[0x05, 1]);
        }
        for _ in 0..14 {
            if self.state.pairs().len() < PAIRS {
                let device = states::device(&mut self.random);
                let rssi = self.random.pick(&[-80, -70, -70, -60, -60, -50, 0]);
                self.give_packet(&device, &[2, 1, 6, 2, 9, 0x41], rssi);
                self.devices.push(device);
            }
        }
    }

    /// Fill the 16 monitors, and the 64 pairs or nearly.
    pub(super) fn fill(&mut self) {
        let (kind, condition) = conditions::flags();
        for _ in 0..self.random.pick(&[13, 15, 16, 16, 17]) {
            let sampling = self.random.pick(&[0, 1, 2, 10, 0xFF]);
            let interval = self.random.pick(&[1, 1, 2, 60]);
            let longest = conditions::longest(&mut self.random);
            let parameters = match self.random.percent(10) {
                true => monitor(-60, -80, interval, sampling, 1, &longest),
                false => monitor(-60, -80, interval, sampling, kind, &condition),
            };
            self.command(&parameters);
        }
        for _ in 0..self.random.pick(&[0, 0, 2, 6]) {
            self.add_edge();
        }
        if self.random.percent(50) {
            self.command(&[0x05, 1]);
        }
        for _ in 0..self.random.pick(&[3, 4, 5, 5]) {
            self.new_device();
        }
    }
}
