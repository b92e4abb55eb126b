//! DECLARED: the one source of a length that the excerpt names. No behaviour.

#[derive(Clone, Debug, Eq, PartialEq)]
pub enum LenSource {
    Slice,
}
