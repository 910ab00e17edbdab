//! The port's C entry.

extern "C" {
    fn column_kinds(
        listing: *const u8,
        listing_len: usize,
        catalogue: *const u8,
        catalogue_len: usize,
        area: *mut u8,
        area_len: usize,
        answer: *mut u8,
        answer_len: usize,
    ) -> u64;
}

/// Number and length, as the port gives them.
pub fn call(listing: &[u8], catalogue: &[u8], area: &mut [u8], answer: &mut [u8]) -> (u64, usize) {
    // SAFETY: the four slices are valid for their lengths, and no two of those that are written overlap.
    let both = unsafe {
        column_kinds(
            listing.as_ptr(),
            listing.len(),
            catalogue.as_ptr(),
            catalogue.len(),
            area.as_mut_ptr(),
            area.len(),
            answer.as_mut_ptr(),
            answer.len(),
        )
    };
    (both >> 32, (both & 0xffff_ffff) as usize)
}
