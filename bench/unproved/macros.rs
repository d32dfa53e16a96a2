//! The macros of Rattle's std that take an allocator.
macro_rules! vec {
    (in $alloc:ident; $item:expr; $count:expr) => {
        crate::kit::alloc::filled($alloc, $item, $count)
    };
}

macro_rules! format {
    (in $alloc:ident; $($words:tt)*) => {
        crate::kit::alloc::string($alloc, ::std::format!($($words)*))
    };
}
