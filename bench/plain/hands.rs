//! Many hands: threads that share a range evenly, or draw tasks.
use std::ops::Range;
use std::sync::atomic::{AtomicUsize, Ordering::Relaxed};
use std::thread;

/// The number of threads of every stage.
#[derive(Clone, Copy)]
pub struct Hands(pub usize);

impl Hands {
    /// The part of `0..count` that hand `hand` has.
    pub fn part(self, count: usize, hand: usize) -> Range<usize> {
        count * hand / self.0..count * (hand + 1) / self.0
    }

    /// What each hand answers, by its number; one hand is this thread.
    pub fn each<R: Send>(self, work: impl Fn(usize) -> R + Sync) -> Vec<R> {
        if self.0 == 1 {
            return vec![work(0)];
        }
        thread::scope(|scope| {
            let work = &work;
            let started: Vec<_> = (0..self.0).map(|hand| scope.spawn(move || work(hand))).collect();
            started.into_iter().map(|hand| hand.join().unwrap()).collect()
        })
    }

    /// The answers of tasks `0..count`, drawn by the hands, in order.
    pub fn tasks<R: Send>(self, count: usize, work: impl Fn(usize) -> R + Sync) -> Vec<R> {
        let next = AtomicUsize::new(0);
        let drawn = self.each(|_| {
            let mut done = Vec::new();
            loop {
                let task = next.fetch_add(1, Relaxed);
                if task >= count {
                    return done;
                }
                done.push((task, work(task)));
            }
        });
        let mut all: Vec<(usize, R)> = drawn.into_iter().flatten().collect();
        all.sort_by_key(|(task, _)| *task);
        all.into_iter().map(|(_, answer)| answer).collect()
    }
}

/// A buffer that many hands fill, each at places of its own.
#[derive(Clone, Copy)]
pub struct Places<T>(pub *mut T);

unsafe impl<T> Send for Places<T> {}
unsafe impl<T> Sync for Places<T> {}

impl<T> Places<T> {
    /// Writes one item; the place has to be this hand's own, inside the buffer.
    #[inline(always)]
    pub unsafe fn put(self, place: usize, item: T) {
        unsafe { self.0.add(place).write(item) }
    }

    /// A part of the buffer; it has to be this hand's own, and filled.
    pub unsafe fn part<'a>(self, range: Range<usize>) -> &'a mut [T] {
        unsafe { std::slice::from_raw_parts_mut(self.0.add(range.start), range.len()) }
    }
}

/// A buffer of so many items that aren't there yet; each has to be put before it is read.
pub fn unfilled<T: Copy>(count: usize) -> Vec<T> {
    let mut items = Vec::with_capacity(count);
    #[allow(clippy::uninit_vec)]
    unsafe {
        items.set_len(count)
    };
    items
}
