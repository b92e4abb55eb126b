//! DECLARED: the fields that the excerpt fills in. Its code has no value, so no value of it can be made.

#[derive(Clone, Copy, Debug, PartialEq, Eq, Ord, PartialOrd, Hash)]
pub struct ParameterProblemHeader {
    pub code: super::ParameterProblemCode,
    pub pointer: u32,
}
