use crate::{ffi, LAYOUT_DATE, VERSION};

/// The archive's version, 10,000 · major + 100 · minor + patch.
#[must_use]
#[allow(unsafe_code)]
pub fn version() -> u32 {
    // SAFETY: the call takes no pointer.
    unsafe { ffi::rights_version() }
}

/// The date of the images' layout, year · 10,000 + month · 100 + day. Keep it beside every stored
/// image, and read no image with another date.
#[must_use]
#[allow(unsafe_code)]
pub fn layout_date() -> u32 {
    // SAFETY: the call takes no pointer.
    unsafe { ffi::rights_layout_date() }
}

/// Whether the archive that is linked and the header that this crate was made from are of one
/// engine. Call it at start-up, and use nothing else of this crate where it says no: sizes and
/// numbers may then be others.
///
/// ```
/// assert!(rights::archive_matches_header(), "engine {}", rights::version());
/// ```
#[must_use]
pub fn archive_matches_header() -> bool {
    version() == VERSION && layout_date() == LAYOUT_DATE
}
