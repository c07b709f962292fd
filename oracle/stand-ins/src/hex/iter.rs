// This file stands in for the iterator that carries its length, which is not published; it holds none of the compared logic.
// It hands on what the published code iterates over, and reports the length that code has set.

pub struct ExactSizeHexIterator<I> {
    pub iter: I,
    pub count: usize,
}

impl<I: Iterator> Iterator for ExactSizeHexIterator<I> {
    type Item = I::Item;

    fn next(&mut self) -> Option<I::Item> {
        let item = self.iter.next()?;
        self.count = self.count.saturating_sub(1);
        Some(item)
    }

    fn size_hint(&self) -> (usize, Option<usize>) {
        (self.count, Some(self.count))
    }
}

impl<I: Iterator> ExactSizeIterator for ExactSizeHexIterator<I> {}

/// Named by the crate's list of exports and by nothing else.
pub trait HexIterExt {}
