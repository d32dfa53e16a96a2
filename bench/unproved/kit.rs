//! What the crates of the program take from Rattle's std, over Rust's own: allocators are names alone, and memory is never refused.
pub use ::std::{cmp, convert, fmt, io, iter, mem, ops, simd, slice, str};

/// What every file sees.
pub mod prelude {
    pub use super::alloc::{CollectIn, SortIn, String, Vec};

    /// In Rattle the bound of all that may be dropped.
    pub trait Drop {}
    impl<T: ?Sized> Drop for T {}
}

pub mod hash {
    pub use ::std::hash::BuildHasherDefault;
    pub type FoldHasher = ::std::hash::DefaultHasher;
}

pub mod collections {
    use super::alloc::AllocError;
    use ::std::hash::{BuildHasher, Hash};
    use ::std::marker::PhantomData;

    /// A table, with a growth that may be refused by its type.
    pub struct HashMap<K, V, S, A>(::std::collections::HashMap<K, V, S>, PhantomData<A>);

    impl<K: Eq + Hash, V, S: BuildHasher + Default, A> HashMap<K, V, S, A> {
        pub fn new(_alloc: A) -> HashMap<K, V, S, A> {
            HashMap(::std::collections::HashMap::default(), PhantomData)
        }

        pub fn get(&self, key: &K) -> Option<&V> {
            self.0.get(key)
        }

        pub fn insert(&mut self, key: K, value: V) -> Result<Option<V>, AllocError> {
            Ok(self.0.insert(key, value))
        }
    }
}

pub mod marker {
    pub use ::std::marker::*;

    /// A name of its own for each call; nothing here reads it.
    #[derive(Clone, Copy)]
    pub struct Brand;

    pub trait Model {}
}

pub mod thread {
    /// The right to start threads.
    pub trait Threads {}
    impl<T> Threads for T {}

    pub fn join<R, F, G, A: Send, B: Send>(_rt: &R, f: F, g: G) -> (A, B)
    where
        F: FnOnce() -> A + Send,
        G: FnOnce() -> B + Send,
    {
        ::std::thread::scope(|scope| {
            let other = scope.spawn(g);
            let first = f();
            (first, other.join().unwrap())
        })
    }
}

pub mod sync {
    pub use ::std::sync::*;

    /// The right to wait.
    pub trait Wait {}
    impl<T> Wait for T {}

    /// Ledgers are there for contracts alone.
    pub mod ledger {
        use ::std::marker::PhantomData;

        pub trait Ledger {}
        impl<T> Ledger for T {}

        pub struct Blank;
        pub struct Book<L>(PhantomData<L>);
        pub struct Share<L>(PhantomData<L>);

        impl Blank {
            pub fn new(_parts: u64) -> Blank {
                Blank
            }

            pub fn open<L>(self) -> (Book<L>, Share<L>) {
                (Book(PhantomData), Share(PhantomData))
            }
        }

        impl<L> Book<L> {
            pub fn add(&mut self, _share: &mut Share<L>, _more: u64) {}
        }
    }
}

pub mod alloc {
    use ::std::cmp::Ordering;
    use ::std::fmt;
    use ::std::marker::PhantomData;
    use ::std::ops::{Deref, DerefMut, Index, IndexMut};
    use ::std::slice::{Iter, IterMut, SliceIndex};
    use ::std::vec::IntoIter;

    pub trait Allocator {}

    #[derive(Clone, Copy, Debug)]
    pub struct Global;
    impl Allocator for Global {}

    #[derive(Clone, Copy, Debug, PartialEq, Eq)]
    pub struct AllocError;

    pub struct AllocFailed<T>(PhantomData<T>);

    impl<T> From<AllocFailed<T>> for AllocError {
        fn from(_failed: AllocFailed<T>) -> AllocError {
            AllocError
        }
    }

    /// A list, with a growth that may be refused by its type.
    #[derive(Clone, PartialEq, Eq)]
    pub struct Vec<T, A = Global> {
        items: ::std::vec::Vec<T>,
        alloc: PhantomData<A>,
    }

    unsafe impl<T: Send, A> Send for Vec<T, A> {}
    unsafe impl<T: Sync, A> Sync for Vec<T, A> {}

    pub struct String<A = Global>(::std::string::String, PhantomData<A>);

    pub fn filled<T: Clone, A>(_alloc: A, item: T, count: usize) -> Result<Vec<T, A>, AllocError> {
        Ok(Vec::over(::std::vec::from_elem(item, count)))
    }

    pub fn string<A>(_alloc: A, text: ::std::string::String) -> Result<String<A>, AllocError> {
        Ok(String(text, PhantomData))
    }

    impl<A> String<A> {
        pub fn into_bytes(self) -> Vec<u8, A> {
            Vec::over(self.0.into_bytes())
        }
    }

    impl<A> fmt::Display for String<A> {
        fn fmt(&self, f: &mut fmt::Formatter<'_>) -> fmt::Result {
            f.write_str(&self.0)
        }
    }

    impl<T, A> Vec<T, A> {
        pub fn over(items: ::std::vec::Vec<T>) -> Vec<T, A> {
            Vec { items, alloc: PhantomData }
        }

        #[inline(always)]
        pub fn new(_alloc: A) -> Vec<T, A> {
            Vec::over(::std::vec::Vec::new())
        }

        #[inline(always)]
        pub fn with_capacity(_alloc: A, count: usize) -> Result<Vec<T, A>, AllocError> {
            Ok(Vec::over(::std::vec::Vec::with_capacity(count)))
        }

        pub fn from_slice(_alloc: A, items: &[T]) -> Result<Vec<T, A>, AllocError>
        where
            T: Clone,
        {
            Ok(Vec::over(items.to_vec()))
        }

        /// An allocator is a name alone: it takes no bytes.
        pub fn allocator(&self) -> &A {
            assert!(size_of::<A>() == 0);
            unsafe { ::std::ptr::NonNull::dangling().as_ref() }
        }

        #[inline(always)]
        pub fn push(&mut self, item: T) -> Result<(), AllocError> {
            self.items.push(item);
            Ok(())
        }

        #[inline(always)]
        pub fn push_reserved(&mut self, item: T) {
            self.items.push(item);
        }

        #[inline(always)]
        pub fn pop(&mut self) -> Option<T> {
            self.items.pop()
        }

        pub fn append(&mut self, more: &mut Vec<T, A>) -> Result<(), AllocError> {
            self.items.append(&mut more.items);
            Ok(())
        }

        pub fn extend_from_slice(&mut self, more: &[T]) -> Result<(), AllocError>
        where
            T: Clone,
        {
            self.items.extend_from_slice(more);
            Ok(())
        }

        pub fn reserve(&mut self, more: usize) -> Result<(), AllocError> {
            self.items.reserve(more);
            Ok(())
        }

        pub fn reserve_exact(&mut self, more: usize) -> Result<(), AllocError> {
            self.items.reserve_exact(more);
            Ok(())
        }

        pub fn resize(&mut self, count: usize, item: T) -> Result<(), AllocError>
        where
            T: Clone,
        {
            self.items.resize(count, item);
            Ok(())
        }

        pub fn insert(&mut self, place: usize, item: T) -> Result<(), AllocError> {
            self.items.insert(place, item);
            Ok(())
        }

        pub fn split_off(&mut self, place: usize) -> Result<Vec<T, A>, AllocError> {
            Ok(Vec::over(self.items.split_off(place)))
        }

        pub fn truncate(&mut self, count: usize) {
            self.items.truncate(count);
        }

        pub fn clear(&mut self) {
            self.items.clear();
        }

        pub fn shrink_to_fit(&mut self) {
            self.items.shrink_to_fit();
        }

        pub fn dedup(&mut self)
        where
            T: PartialEq,
        {
            self.items.dedup();
        }

        pub fn as_slice(&self) -> &[T] {
            &self.items
        }

        pub fn as_mut_slice(&mut self) -> &mut [T] {
            &mut self.items
        }

        pub fn sort(&mut self) -> Result<(), AllocError>
        where
            T: Ord,
        {
            self.items.sort();
            Ok(())
        }
    }

    /// `collect` with an allocator.
    pub trait CollectIn: Iterator + Sized {
        fn collect_in<A>(self, _alloc: A) -> Result<Vec<Self::Item, A>, AllocError> {
            Ok(Vec::over(self.collect()))
        }
    }
    impl<I: Iterator> CollectIn for I {}

    /// A stable sort with an allocator.
    pub trait SortIn {
        fn sort_in<A>(&mut self, alloc: A) -> Result<(), AllocError>;
    }
    impl<T: Ord> SortIn for [T] {
        fn sort_in<A>(&mut self, _alloc: A) -> Result<(), AllocError> {
            self.sort();
            Ok(())
        }
    }

    impl<T, A> Deref for Vec<T, A> {
        type Target = [T];

        #[inline(always)]
        fn deref(&self) -> &[T] {
            &self.items
        }
    }

    impl<T, A> DerefMut for Vec<T, A> {
        #[inline(always)]
        fn deref_mut(&mut self) -> &mut [T] {
            &mut self.items
        }
    }

    impl<T, A, I: SliceIndex<[T]>> Index<I> for Vec<T, A> {
        type Output = I::Output;

        #[inline(always)]
        fn index(&self, place: I) -> &I::Output {
            &self.items[place]
        }
    }

    impl<T, A, I: SliceIndex<[T]>> IndexMut<I> for Vec<T, A> {
        #[inline(always)]
        fn index_mut(&mut self, place: I) -> &mut I::Output {
            &mut self.items[place]
        }
    }

    impl<T, A> IntoIterator for Vec<T, A> {
        type Item = T;
        type IntoIter = IntoIter<T>;

        fn into_iter(self) -> IntoIter<T> {
            self.items.into_iter()
        }
    }

    impl<'a, T, A> IntoIterator for &'a Vec<T, A> {
        type Item = &'a T;
        type IntoIter = Iter<'a, T>;

        #[inline(always)]
        fn into_iter(self) -> Iter<'a, T> {
            self.items.iter()
        }
    }

    impl<'a, T, A> IntoIterator for &'a mut Vec<T, A> {
        type Item = &'a mut T;
        type IntoIter = IterMut<'a, T>;

        fn into_iter(self) -> IterMut<'a, T> {
            self.items.iter_mut()
        }
    }

    impl<T: fmt::Debug, A> fmt::Debug for Vec<T, A> {
        fn fmt(&self, f: &mut fmt::Formatter<'_>) -> fmt::Result {
            self.items.fmt(f)
        }
    }

    impl<T: PartialOrd, A: PartialEq> PartialOrd for Vec<T, A> {
        fn partial_cmp(&self, other: &Self) -> Option<Ordering> {
            self.items.partial_cmp(&other.items)
        }
    }
}
