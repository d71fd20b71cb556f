//! Stands in for `iceoryx2_bb_elementary::CallbackProgression`.

#[derive(Debug, Clone, Copy, PartialEq, Eq)]
pub enum CallbackProgression {
    Stop,
    Continue,
}
