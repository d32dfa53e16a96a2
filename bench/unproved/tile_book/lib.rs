//! `tile_book: fill` and `complete` without a book: workers draw numbers, and their pieces are put in order.
use crate::geom::NoMemory;
use crate::kit::alloc::Allocator;
use crate::kit::sync::ledger::Blank;
use ::std::marker::PhantomData;
use ::std::sync::atomic::{AtomicU32, Ordering};

pub const MOST_HANDS: u32 = 64;
pub const MOST_NUMBERS: u32 = 1 << 24;

pub trait Numbered {
    fn number(&self) -> u32;
}

pub trait Job<A: Allocator + Copy> {
    type Piece: Numbered;

    fn piece(&self, alloc: A, number: u32) -> Result<Self::Piece, NoMemory>;
}

pub enum Phase {
    Route,
}

pub trait Gate {}

pub struct OpenGate;
impl Gate for OpenGate {}

pub trait Limited {}
impl<T> Limited for T {}

pub struct Book<P, L, A>(::std::vec::Vec<P>, PhantomData<(L, A)>);

pub struct FilledBook<P, L, A> {
    pub book: Book<P, L, A>,
}

pub struct AllPieces<P, A> {
    pub pieces: Vec<P, A>,
    pub remade: u32,
}

#[allow(clippy::too_many_arguments)]
pub fn fill<A, J, L, G, R>(
    _rt: &R,
    alloc: A,
    _blank: Blank,
    limit: u32,
    workers: u32,
    job: &J,
    _phase: Phase,
    _gate: &G,
) -> Result<FilledBook<J::Piece, L, A>, NoMemory>
where
    A: Allocator + Copy + Send + Sync,
    J: Job<A> + Sync,
    J::Piece: Send,
{
    let next = AtomicU32::new(0);
    let drawn = || Some(next.fetch_add(1, Ordering::Relaxed)).filter(|number| *number < limit);
    let work = || {
        ::std::iter::from_fn(drawn)
            .map(|number| job.piece(alloc, number))
            .collect::<Result<::std::vec::Vec<_>, _>>()
    };
    let mut pieces = ::std::thread::scope(|scope| {
        let others: ::std::vec::Vec<_> = (1..workers).map(|_| scope.spawn(work)).collect();
        let mut pieces = work()?;
        for other in others {
            pieces.append(&mut other.join().unwrap()?);
        }
        Ok::<_, NoMemory>(pieces)
    })?;
    pieces.sort_unstable_by_key(Numbered::number);
    Ok(FilledBook {
        book: Book(pieces, PhantomData),
    })
}

pub fn complete<A: Allocator + Copy, J: Job<A>, L>(
    _alloc: A,
    _job: &J,
    book: Book<J::Piece, L, A>,
) -> Result<AllPieces<J::Piece, A>, NoMemory> {
    Ok(AllPieces {
        pieces: Vec::over(book.0),
        remade: 0,
    })
}
