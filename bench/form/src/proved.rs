//! The proved form test. It asks nothing of its slices: `crates/form_test/src/lib.rt`.

mod linked {
    extern "C" {
        #[allow(clippy::too_many_arguments)]
        pub fn mekhturia_passes(
            stations: *const u64,
            station_words: usize,
            carts: *const u64,
            cart_words: usize,
            messages: *const u64,
            message_words: usize,
            lines: *const u64,
            line_words: usize,
            texts: *const u8,
            text_octets: usize,
            store: *const u8,
            store_octets: usize,
        ) -> bool;
    }
}

/// Does a lent floor pass the form rule?
#[inline(always)]
pub fn passes(
    stations: &[u64],
    carts: &[u64],
    messages: &[u64],
    lines: &[u64],
    texts: &[u8],
    store: &[u8],
) -> bool {
    unsafe {
        linked::mekhturia_passes(
            stations.as_ptr(),
            stations.len(),
            carts.as_ptr(),
            carts.len(),
            messages.as_ptr(),
            messages.len(),
            lines.as_ptr(),
            lines.len(),
            texts.as_ptr(),
            texts.len(),
            store.as_ptr(),
            store.len(),
        )
    }
}
