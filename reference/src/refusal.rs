//! The refusals E1 to E14 and E17.

/// Where the kind octet of an option stands, counted from the segment's first octet.
#[derive(Clone, Copy, Debug, PartialEq, Eq)]
pub struct Place(pub u8);

/// The demand of the field-station profile that an opening does not meet; the discriminant is its number.
#[derive(Clone, Copy, Debug, PartialEq, Eq)]
pub enum Lack {
    Timestamps = 1,
    Shift = 2,
    Mss = 3,
}

impl Lack {
    pub fn number(self) -> u8 {
        self as u8
    }
}

/// Why a call was refused. The three faults of an option say where it stands, the profile's refusal what is lacking;
/// no other refusal says more than its number.
#[derive(Clone, Copy, Debug, PartialEq, Eq)]
pub enum Refusal {
    SegmentTooShort,
    SegmentTooLong,
    DataOffset,
    OptionBounds(Place),
    OptionLength(Place),
    OptionRepeated(Place),
    BufferTooShort,
    ClockWentBack,
    OwnOffer,
    NotAnOpeningSyn,
    WrongOpeningAck,
    BeyondSendWindow,
    ReceiveWindow,
    Sample,
    Profile(Lack),
}

impl Refusal {
    pub fn number(self) -> u8 {
        match self {
            Refusal::SegmentTooShort => 1,
            Refusal::SegmentTooLong => 2,
            Refusal::DataOffset => 3,
            Refusal::OptionBounds(_) => 4,
            Refusal::OptionLength(_) => 5,
            Refusal::OptionRepeated(_) => 6,
            Refusal::BufferTooShort => 7,
            Refusal::ClockWentBack => 8,
            Refusal::OwnOffer => 9,
            Refusal::NotAnOpeningSyn => 10,
            Refusal::WrongOpeningAck => 11,
            Refusal::BeyondSendWindow => 12,
            Refusal::ReceiveWindow => 13,
            Refusal::Sample => 14,
            Refusal::Profile(_) => 17,
        }
    }

    /// The place of the option at fault.
    pub fn place(self) -> Option<Place> {
        match self {
            Refusal::OptionBounds(place)
            | Refusal::OptionLength(place)
            | Refusal::OptionRepeated(place) => Some(place),
            _ => None,
        }
    }

    /// The profile's demand that is not met.
    pub fn lack(self) -> Option<Lack> {
        match self {
            Refusal::Profile(lack) => Some(lack),
            _ => None,
        }
    }
}
