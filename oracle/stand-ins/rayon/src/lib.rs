//! Stand-in for rayon: one thread, in list order. `CURRENT` is the list place at work, by which fired rays are laid to their voxel.
use std::sync::atomic::{AtomicUsize, Ordering};

pub static CURRENT: AtomicUsize = AtomicUsize::new(0);

pub mod prelude {
    pub use crate::{ParallelIterator, ParallelSliceMut};
}

pub struct Par<I>(I);

pub trait ParallelSliceMut<T> {
    fn par_iter_mut(&mut self) -> Par<std::slice::IterMut<'_, T>>;
}

impl<T> ParallelSliceMut<T> for [T] {
    fn par_iter_mut(&mut self) -> Par<std::slice::IterMut<'_, T>> {
        Par(self.iter_mut())
    }
}

pub trait ParallelIterator: Sized {
    type Item;
    type Walk: Iterator<Item = Self::Item>;

    fn walk(self) -> Self::Walk;

    fn enumerate(self) -> Par<std::iter::Enumerate<Self::Walk>> {
        Par(self.walk().enumerate())
    }

    fn map<B, F: Fn(Self::Item) -> B>(self, f: F) -> Par<std::iter::Map<Self::Walk, F>> {
        Par(self.walk().map(f))
    }

    fn for_each<F: Fn(Self::Item)>(self, f: F) {
        for (place, item) in self.walk().enumerate() {
            CURRENT.store(place, Ordering::Relaxed);
            f(item);
        }
    }
}

impl<I: Iterator> ParallelIterator for Par<I> {
    type Item = I::Item;
    type Walk = I;

    fn walk(self) -> I {
        self.0
    }
}
