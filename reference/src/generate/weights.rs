//! How often a theme takes each step.

use super::{Action, Generator, Theme};

impl Generator {
    /// The next step, by the theme's weights.
    pub(super) fn action(&mut self, any_call: bool) -> Action {
        use Action::*;
        // The weights of: Add, AddEdge, Cancel, Filter, OtherCommand, Packet, NewDevice, Ticks, Save,
        // BadLine, BadPayload, OtherOpcode, Seen, Gap, ShortOutput, Edition,
        // WriteLine, Failover, Restore, RestoreDamaged, Unsound, Replay, StartAgain, Ask.
        let actions = [
            Add,
            AddEdge,
            Cancel,
            Filter,
            OtherCommand,
            Packet,
            NewDevice,
            Ticks,
            Save,
            BadLine,
            BadPayload,
            OtherOpcode,
            Seen,
            Gap,
            ShortOutput,
            Edition,
            WriteLine,
            Failover,
            Restore,
            RestoreDamaged,
            Unsound,
            Replay,
            StartAgain,
            Ask,
        ];
        let weights: [usize; 24] = match self.theme {
            Theme::Mixed => [9, 2, 2, 5, 2, 40, 3, 14, 3, 1, 1, 1, 1, 1, 1, 3, 1, 2, 0, 0, 0, 1, 0, 3],
            Theme::Commands => [30, 40, 14, 14, 14, 8, 1, 3, 2, 1, 1, 1, 1, 1, 1, 2, 0, 1, 0, 0, 0, 0, 0, 1],
            Theme::Conditions => [12, 4, 3, 2, 0, 70, 3, 3, 1, 0, 0, 0, 0, 0, 0, 1, 0, 0, 0, 0, 0, 0, 0, 2],
            Theme::Limits => [4, 2, 3, 4, 0, 30, 20, 10, 2, 0, 0, 0, 1, 1, 0, 2, 0, 1, 0, 0, 0, 0, 0, 6],
            Theme::Full => [1, 0, 1, 2, 0, 40, 30, 4, 2, 0, 0, 0, 1, 0, 0, 1, 0, 3, 0, 0, 0, 2, 0, 8],
            Theme::Second => [9, 3, 1, 4, 0, 70, 1, 10, 2, 0, 0, 0, 1, 0, 0, 2, 0, 4, 0, 0, 0, 2, 0, 2],
            Theme::Editions => [5, 0, 1, 3, 10, 34, 2, 14, 3, 0, 0, 0, 1, 0, 0, 26, 0, 6, 0, 0, 1, 12, 0, 2],
            Theme::Windows => [4, 0, 1, 4, 0, 50, 2, 34, 2, 0, 0, 0, 0, 0, 0, 2, 0, 2, 0, 0, 0, 1, 0, 2],
            Theme::LongTicks => [1, 0, 0, 1, 0, 6, 1, 60, 1, 0, 0, 0, 0, 0, 0, 1, 0, 1, 0, 0, 0, 0, 0, 1],
            Theme::Lines => [6, 2, 1, 3, 2, 12, 1, 8, 6, 20, 24, 6, 10, 8, 8, 4, 6, 1, 0, 0, 0, 2, 2, 1],
            Theme::Images => [6, 1, 2, 4, 1, 24, 2, 20, 4, 0, 1, 0, 2, 1, 1, 4, 0, 4, 10, 12, 6, 2, 1, 6],
            Theme::Failover => [8, 1, 2, 4, 1, 34, 2, 14, 3, 1, 1, 0, 2, 1, 0, 6, 0, 8, 1, 1, 0, 20, 0, 4],
        };
        let offered = if any_call { weights.len() } else { 16 };
        let total: usize = weights[..offered].iter().sum();
        let mut drawn = self.random.below(total);
        for (action, weight) in actions.into_iter().zip(weights) {
            if drawn < weight {
                return action;
            }
            drawn -= weight;
        }
        Packet
    }
}
