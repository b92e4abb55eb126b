//! DECLARED: of the crate arrayvec what the excerpt's `to_bytes` uses: an array and how many of its elements count.

pub struct ArrayVec<T, const CAP: usize> {
    elements: [T; CAP],
    len: usize,
}

impl<T, const CAP: usize> From<[T; CAP]> for ArrayVec<T, CAP> {
    fn from(elements: [T; CAP]) -> Self {
        ArrayVec { elements, len: CAP }
    }
}

impl<T, const CAP: usize> ArrayVec<T, CAP> {
    /// # Safety
    /// `len` is at most the capacity.
    pub unsafe fn set_len(&mut self, len: usize) {
        self.len = len;
    }

    pub fn as_slice(&self) -> &[T] {
        &self.elements[..self.len]
    }
}
