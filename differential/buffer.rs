//! A buffer that a caller lends, as the library is given it.

/// What no answer is: a NaN of this pattern, or this number.
pub const UNTOUCHED: u32 = 0xFFA5_C35A;
const CANARIES: usize = 16;

/// What is lent: numbers of 32 bits, or the bits of floats; or numbers of 64 bits.
pub trait Entry: Copy + PartialEq {
    const UNTOUCHED: Self;
    const CANARY: Self;
}

impl Entry for u32 {
    const UNTOUCHED: u32 = UNTOUCHED;
    const CANARY: u32 = 0x7FE1_D00D;
}

impl Entry for u64 {
    const UNTOUCHED: u64 = 0xFFA5_C35A_FFA5_C35A;
    const CANARY: u64 = 0x7FE1_D00D_7FE1_D00D;
}

/// A lent buffer, as the bits of its entries, with canaries on both sides.
pub struct Buffer<E: Entry = u32> {
    words: Vec<E>,
}

impl<E: Entry> Buffer<E> {
    pub fn new(len: usize) -> Buffer<E> {
        let mut words = vec![E::CANARY; len + 2 * CANARIES];
        words[CANARIES..CANARIES + len].fill(E::UNTOUCHED);
        Buffer { words }
    }

    pub fn len(&self) -> usize {
        self.words.len() - 2 * CANARIES
    }

    /// An empty buffer is lent as a null pointer.
    pub fn pointer(&mut self) -> *mut E {
        if self.len() == 0 { std::ptr::null_mut() } else { self.words[CANARIES..].as_mut_ptr() }
    }

    pub fn entries(&self) -> &[E] {
        &self.words[CANARIES..self.words.len() - CANARIES]
    }

    pub fn intact(&self) -> bool {
        let (front, back) = (&self.words[..CANARIES], &self.words[self.words.len() - CANARIES..]);
        front.iter().chain(back).all(|&word| word == E::CANARY)
    }

    /// Whether it holds these bits and behind them what it held before.
    pub fn begins_with(&self, bits: &[E]) -> bool {
        let (front, back) = self.entries().split_at(bits.len());
        front == bits && back.iter().all(|&word| word == E::UNTOUCHED)
    }
}

/// An empty slice is given as a null pointer.
pub fn pointer_to<T>(entries: &[T]) -> *const T {
    if entries.is_empty() { std::ptr::null() } else { entries.as_ptr() }
}
