//! `hands: map_parts`, a thread of std for each part but one alone.
use crate::kit::alloc::{AllocError, Allocator};
use crate::kit::thread::Threads;

pub fn map_parts<R, A, P, X, E, F>(_rt: &R, _alloc: A, parts: &[P], f: F) -> Result<Vec<X, A>, E>
where
    R: Threads + Sync,
    A: Allocator + Copy + Send + Sync,
    P: Copy + Send + Sync,
    X: Send,
    E: From<AllocError> + Send,
    F: Fn(P) -> Result<X, E> + Copy + Send + Sync,
{
    let made: ::std::vec::Vec<Result<X, E>> = match parts {
        [part] => [f(*part)].into(),
        _ => ::std::thread::scope(|scope| {
            let hands: ::std::vec::Vec<_> = parts.iter().map(|part| scope.spawn(move || f(*part))).collect();
            hands.into_iter().map(|hand| hand.join().unwrap()).collect()
        }),
    };
    Ok(Vec::over(made.into_iter().collect::<Result<_, E>>()?))
}
