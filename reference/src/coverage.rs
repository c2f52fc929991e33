//! Which rules, statuses and refusals of document 01 a run reaches, counted by name for each thread.

use std::cell::Cell;

macro_rules! rules {
    ($($name:ident: $words:literal,)*) => {
        #[derive(Clone, Copy, PartialEq, Eq, Debug)]
        pub enum Rule { $($name,)* }

        pub const RULES: &[(Rule, &str)] = &[$((Rule::$name, $words),)*];
    };
}

rules! {
    Refusal1: "refusal 1, seen",
    Refusal2: "refusal 2, gap",
    Refusal3: "refusal 3, output too short",
    Refusal4: "refusal 4, not a line",
    Refusal5: "refusal 5, payload",
    Refusal6: "refusal 6, other opcode",
    Refusal7: "refusal 7, state not sound",
    Refusal9: "refusal 9, settings",
    Refusal10: "refusal 10, not an image",
    Refusal13: "refusal 13, list full",
    Refusal14: "refusal 14, number not rising or not above the position",
    Refusal15: "refusal 15, prefix too long",
    ReadSuccess: "00: success",
    ReadLength: "00: 0x12, length",
    AddSuccess: "03: success",
    AddEqual: "03: success, high equal to low",
    AddShort: "03: 0x12, fewer than 6 octets",
    AddThreshold: "03: 0x12, threshold out of range",
    AddOrder: "03: 0x12, low above high",
    AddInterval: "03: 0x12, interval",
    AddType: "03: 0x12, condition type",
    AddKey: "03: success, type 3",
    AddMalformed: "03: 0x12, malformed condition",
    AddLong: "03: 0x07, condition over 64 octets",
    AddFull: "03: 0x07, 16 monitors live",
    AddReused: "03: a handle below a live one is handed out",
    SecondSuccess: "0F: success",
    SecondShort: "0F: 0x12, fewer than 31 octets",
    SecondForbidden: "0F: 0x12, forbidden by its tables",
    SecondForbiddenFull: "0F: 0x12, forbidden by its tables, 16 monitors live",
    CancelSuccess: "04: success",
    CancelLength: "04: 0x12, length",
    CancelNone: "04: 0x12, no such live handle",
    CancelWatched: "04: pairs forgotten",
    CancelWindow: "04: an open window lost",
    EnableOn: "05: filter on",
    EnableOff: "05: filter off",
    EnableLength: "05: 0x12, length",
    EnableValue: "05: 0x12, enable above 1",
    EnableEqual: "05: 0x0C, equal",
    OtherSub: "other sub-opcode: 0x01",
    PatternMatch: "type 1: a pattern matches",
    PatternLater: "type 1: a later pattern matches, the first does not",
    PatternInScan: "type 1: match in the scan response",
    PatternNone: "type 1: no match",
    UuidMatch: "type 2: match",
    UuidLater: "type 2: match at an offset above 0",
    UuidRest: "type 2: a rest shorter than the UUID",
    UuidInScan: "type 2: match in the scan response",
    UuidNone: "type 2: no match",
    KeyMatch: "type 3: an address of the key",
    KeyOther: "type 3: a resolvable address, not of the key",
    KeyTopBits: "type 3: a random address with other top bits",
    KeyPublic: "type 3: a public address",
    AddressMatch: "type 4: match",
    AddressOtherType: "type 4: the address with the other type",
    AddressNone: "type 4: no match",
    OptionsOwn: "version 2: the condition and the peer",
    OptionsAny: "version 2: the condition and any device",
    OptionsNot: "version 2: the condition, not the peer",
    OptionsNoCondition: "version 2: the peer, not the condition",
    OptionsNone: "version 2: neither",
    SectionsZero: "AD structures ended by length 0",
    SectionsPastEnd: "AD structures ended by one past the end",
    Start: "packet: start",
    StartShared: "packet: start at the value of equal thresholds",
    StartSeveral: "packet: several starts",
    StartNoRoom: "packet: no start, 64 pairs, none of them weaker",
    StartNoRoomEqual: "packet: no start, as strong as the smallest of 64 pairs",
    StartSomeRoom: "packet: room for some of its starts",
    Displaces: "packet: a weaker pair displaced",
    DisplacesSeveral: "packet: several weaker pairs displaced",
    DisplacesEarlier: "packet: the earlier of several smallest displaced",
    DisplacesNotFirst: "packet: a pair displaced that did not start first",
    DisplacesWindow: "packet: a displaced pair's window lost",
    DisplacesOwnHandle: "packet: a pair of the same handle displaced",
    DisplacesOwnDevice: "packet: a pair of the same device displaced",
    StartWhileOff: "packet: start while the filter is off",
    GoodPacket: "packet: good, the run begins anew",
    LowPacket: "packet: not good, under watch",
    LowShared: "packet: at the value of equal thresholds, under watch",
    OtherPacket: "packet: device under watch, no match",
    ReportOff: "packet: report, filter off",
    ReportSampling0: "packet: report, sampling 0 under watch",
    ReportStart: "packet: report, start with filter on",
    ReportStart255: "packet: report, start with sampling 0xFF alone",
    ReportNone: "packet: no report",
    ScanReport: "packet of kind 04: two reports, filter on",
    ScanReportOff: "packet of kind 04: two reports, filter off",
    ScanReportEmpty: "packet of kind 04: two reports, empty scan response",
    ScanNoReport: "packet of kind 04: no report",
    WindowTakesScanned: "packet of kind 04: a window takes its advertisement",
    StartUnreported: "version 2: a start without a report, filter on",
    WatchedUnreported: "version 2: sampling 0 under watch, no bit that fits",
    Duplicate: "version 2: a duplicate, filter on",
    DuplicateOff: "version 2: a duplicate, filter off",
    DuplicateNot: "version 2: another packet than the one kept",
    DuplicateFirst: "version 2: the first packet that is a reason",
    DuplicateElsewhere: "version 2: a duplicate for one monitor, reported for another",
    WindowTakes: "packet: a window takes it",
    WindowTakesOff: "packet: a window takes it while the filter is off",
    Stop: "tick: stop",
    StopShared: "tick: stop, equal thresholds",
    StopWhileOff: "tick: stop while the filter is off",
    StopWindow: "tick: stop where a full window would close",
    StopSixtySeconds: "tick: stop after 600 ticks",
    WindowReport: "tick: window report",
    WindowReportNegative: "tick: window report, mean rounded down below 0",
    WindowUnreported: "version 2: window closes, no bit that fits",
    WindowEmpty: "tick: window closes empty",
    WindowOff: "tick: window closes while the filter is off",
    TickQuiet: "tick: nothing written, pairs under watch",
    LongestAnswer: "answer of 2,880 octets",
    SaveDone: "save: done",
    LargestImage: "save: 13,162 octets",
    RestoreDone: "restore: done",
    RestoreText: "restore: refused, not records in order",
    RestoreUnsound: "restore: refused, records of a state not sound",
    ReplaySeen: "replay: a seen line skipped",
    ReplayStopped: "replay: stopped",
    ReplayThrough: "replay: ran through",
    ReplayPiece: "replay: a final piece without LF",
    AskNone: "ask: none",
    AskOne: "ask: one monitor",
    AskSeveral: "ask: several monitors",
    AskAll: "ask: sixteen monitors",
    AskUnsound: "ask: in a state that is not sound",
    EditionAdded: "addition: done",
    EditionNext: "addition: done, for the next frame",
    EditionLast: "addition: done, the last of 32",
    EditionLongest: "addition: done, a prefix of 32 octets",
    EditionTurns: "a frame at an edition's number",
    EditionComes: "a frame just before an edition's number",
    FeaturesTurn: "00: success, at an edition's number",
    EventLater: "a device event with a later edition than the first",
    SaveAhead: "save: an edition not yet in force",
    RestoreAhead: "restore: done, an edition not yet in force",
    RestoreLater: "restore: done, a later edition in force",
    ReplayTurns: "replay: from one edition into another",
    WriteLineDone: "write a line: done",
    LastPosition: "a frame with number 4,294,967,295",
}

thread_local! {
    static COUNTS: [Cell<u64>; RULES.len()] = const { [const { Cell::new(0) }; RULES.len()] };
}

/// The place in `RULES` of a refusal's number.
pub fn refusal(number: u8) -> usize {
    let words = format!("refusal {number},");
    RULES.iter().position(|(_, rule)| rule.starts_with(&words)).expect("a refusal of the list")
}

/// Count one more for this rule.
pub fn hit(rule: Rule) {
    COUNTS.with(|counts| {
        let count = &counts[rule as usize];
        count.set(count.get() + 1);
    });
}

/// The counts of this thread, in the order of `RULES`, and back to 0.
pub fn take() -> Vec<u64> {
    COUNTS.with(|counts| counts.iter().map(|count| count.replace(0)).collect())
}
