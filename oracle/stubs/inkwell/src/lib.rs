//! Stand-in: the type that piet_core/src/settings.rs names, for the compiler's settings only.
#[derive(Copy, Clone, Debug)]
pub enum OptimizationLevel {
    None,
}
