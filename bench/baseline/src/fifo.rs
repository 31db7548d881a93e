//! A queue of at most `cap` items that never allocates after `new`. It has room for twice `cap`, so each item is moved
//! to the front at most once; an empty queue starts at the front again, so that few cache lines are in use.

pub struct Fifo<T> {
    buf: Vec<T>,
    head: usize,
    cap: usize,
}

impl<T: Copy> Fifo<T> {
    pub fn new(cap: usize) -> Fifo<T> {
        Fifo { buf: Vec::with_capacity(2 * cap), head: 0, cap }
    }
    #[inline]
    pub fn len(&self) -> usize {
        self.buf.len() - self.head
    }
    #[inline]
    pub fn is_empty(&self) -> bool {
        self.head == self.buf.len()
    }
    #[inline]
    pub fn is_full(&self) -> bool {
        self.len() >= self.cap
    }
    /// The queue must not be full.
    #[inline]
    pub fn push(&mut self, x: T) {
        debug_assert!(!self.is_full());
        if self.buf.len() == 2 * self.cap {
            self.buf.drain(..self.head);
            self.head = 0;
        }
        self.buf.push(x);
    }
    #[inline]
    pub fn pop(&mut self) -> Option<T> {
        let x = *self.buf.get(self.head)?;
        self.skip(1);
        Some(x)
    }
    /// Drops the first n items (n at most the length).
    #[inline]
    pub fn skip(&mut self, n: usize) {
        self.head += n;
        if self.head == self.buf.len() {
            self.clear();
        }
    }
    #[inline]
    pub fn clear(&mut self) {
        self.buf.clear();
        self.head = 0;
    }
    #[inline]
    pub fn items(&mut self) -> &mut [T] {
        &mut self.buf[self.head..]
    }
}
