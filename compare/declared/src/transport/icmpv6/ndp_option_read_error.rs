//! DECLARED: the refusals, with the fields that the excerpt fills in. No behaviour.

use super::NdpOptionType;

#[derive(Clone, Debug, Eq, PartialEq)]
pub enum NdpOptionReadError {
    UnexpectedSize {
        option_id: NdpOptionType,
        expected_size: usize,
        actual_size: usize,
    },
    ZeroLength {
        option_id: NdpOptionType,
    },
    UnexpectedEndOfSlice {
        option_id: NdpOptionType,
        expected_size: usize,
        actual_size: usize,
    },
    UnexpectedHeader {
        expected_option_id: NdpOptionType,
        actual_option_id: NdpOptionType,
        expected_length_units: u8,
        actual_length_units: u8,
    },
}
