//! A lent slice between two strips that a call must leave alone.

/// Elements on either side of the slice.
const STRIP: usize = 64;

pub struct Lent<T> {
    all: Vec<T>,
    start: usize,
    end: usize,
    junk: T,
}

impl<T: Copy + PartialEq> Lent<T> {
    /// `shift` moves the start, so that bytes stand at any alignment.
    pub fn new(values: &[T], junk: T, shift: usize) -> Lent<T> {
        let start = STRIP + shift;
        let mut all = vec![junk; start];
        all.extend(values);
        all.resize(start + values.len() + STRIP, junk);
        Lent {
            all,
            start,
            end: start + values.len(),
            junk,
        }
    }

    pub fn now(&self) -> &[T] {
        &self.all[self.start..self.end]
    }

    pub fn now_mut(&mut self) -> &mut [T] {
        &mut self.all[self.start..self.end]
    }

    /// Whether nothing outside the slice was written.
    pub fn kept(&self) -> bool {
        let outside = self.all[..self.start].iter().chain(&self.all[self.end..]);
        outside.into_iter().all(|x| *x == self.junk)
    }
}
