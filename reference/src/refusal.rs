//! Document 01, "Refusal numbers". Document 02, T-11: 8 cannot be given and is not in the list; the number is not used
//! again.

#[derive(Clone, Copy, PartialEq, Eq, Debug, PartialOrd, Ord)]
pub enum Refusal {
    Seen,
    Gap,
    ShortOutput,
    NotALine,
    Payload,
    OtherOpcode,
    Unsound,
    Settings,
    NotAnImage,
    /// Document 02, T-07: the twin's list of frames is full.
    FramesFull,
    /// Document 02, T-09: a total would pass 64 bits.
    Total,
    ListFull,
    NotRising,
    LongPrefix,
}

impl Refusal {
    /// The number in document 01's table, or in request T-12 of document 02.
    pub fn number(self) -> u8 {
        match self {
            Refusal::Seen => 1,
            Refusal::Gap => 2,
            Refusal::ShortOutput => 3,
            Refusal::NotALine => 4,
            Refusal::Payload => 5,
            Refusal::OtherOpcode => 6,
            Refusal::Unsound => 7,
            Refusal::Settings => 9,
            Refusal::NotAnImage => 10,
            Refusal::FramesFull => 11,
            Refusal::Total => 12,
            Refusal::ListFull => 13,
            Refusal::NotRising => 14,
            Refusal::LongPrefix => 15,
        }
    }
}
