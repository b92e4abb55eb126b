//! ABSENT: the read of a number from two bytes.

pub(crate) unsafe fn get_unchecked_be_u16(_: *const u8) -> u16 {
    crate::absent!("helpers")
}
