//! The conversion into the other form.

use super::well_shaped;
use rules::layout::*;

/// The test for well shaped and then the conversion; false if it is refused.
pub fn convert(from: Form, bytes: &[u8], other: &mut [u8]) -> bool {
    if !well_shaped(from, bytes) | (other.len() != NET_BYTES) {
        return false;
    }
    other.copy_from_slice(bytes);
    other[MARK_AT] = mark(from.other());
    for k in 0..MOST_GROUPS {
        for p in 0..MOST_STATIONS {
            let (here, there) = (entry_at(from, k, p), entry_at(from.other(), k, p));
            other[there..there + ENTRY_SIZE].copy_from_slice(&bytes[here..here + ENTRY_SIZE]);
        }
    }
    true
}
