//! Stands in for `iceoryx2_bb_elementary_traits::zero_copy_send`.

/// # Safety
///
/// Nothing relies on it here.
pub unsafe trait ZeroCopySend {}
