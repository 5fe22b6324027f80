// The layout of the archive's records and calls that this crate is made for. The number is said here alone: ffi.rs links the
// symbols that have it in their names, and build.rs looks for them before anything is linked.
macro_rules! layout {
    () => {
        2
    };
}

/// The layout of the archive's records that this crate is made for. An archive of another layout is not linked, and a desk's
/// [bytes](crate::Desk::to_bytes) of another layout are not taken.
///
/// ```
/// println!("made for archives of layout {}", nethazel::LAYOUT);
/// ```
pub const LAYOUT: u32 = layout!();
