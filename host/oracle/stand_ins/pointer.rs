//! Stands in for `iceoryx2_bb_elementary_traits::pointer`.

pub trait Pointer<T> {
    fn as_ptr(&self) -> *const T;
}
