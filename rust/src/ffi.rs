// The calls of the archive as include/taxolbin.h has them, in its order; whoever builds this names the archive to the linker.
unsafe extern "C" {
    static taxolbin_version_0_4: u8;
    pub fn taxolbin_get(words: *const u64, capacity: usize, count: usize, i: usize, value: *mut usize) -> u32;
    pub fn taxolbin_get_field(words: *const u64, capacity: usize, count: usize, i: usize, width: usize, value: *mut u64) -> u32;
    pub fn taxolbin_first_set(words: *const u64, capacity: usize, count: usize, found: *mut usize, place: *mut usize) -> u32;
    pub fn taxolbin_last_set(words: *const u64, capacity: usize, count: usize, found: *mut usize, place: *mut usize) -> u32;
    pub fn taxolbin_next_set(words: *const u64, capacity: usize, count: usize, i: usize, found: *mut usize, place: *mut usize) -> u32;
    pub fn taxolbin_select(words: *const u64, capacity: usize, count: usize, rank: usize, found: *mut usize, place: *mut usize) -> u32;
    pub fn taxolbin_first_clear(words: *const u64, capacity: usize, count: usize, value: *mut usize) -> u32;
    pub fn taxolbin_next_clear(words: *const u64, capacity: usize, count: usize, i: usize, value: *mut usize) -> u32;
    pub fn taxolbin_count_set_bits(words: *const u64, capacity: usize, count: usize, value: *mut usize) -> u32;
    pub fn taxolbin_count_clear_bits(words: *const u64, capacity: usize, count: usize, value: *mut usize) -> u32;
    pub fn taxolbin_count_region(words: *const u64, capacity: usize, count: usize, i: usize, k: usize, value: *mut usize) -> u32;
    pub fn taxolbin_rank(words: *const u64, capacity: usize, count: usize, i: usize, value: *mut usize) -> u32;
    pub fn taxolbin_eq(
        words: *const u64,
        capacity: usize,
        count: usize,
        other: *const u64,
        ocapacity: usize,
        ocount: usize,
        value: *mut usize,
    ) -> u32;
    pub fn taxolbin_is_subset(
        words: *const u64,
        capacity: usize,
        count: usize,
        other: *const u64,
        ocapacity: usize,
        ocount: usize,
        value: *mut usize,
    ) -> u32;
    pub fn taxolbin_is_disjoint(
        words: *const u64,
        capacity: usize,
        count: usize,
        other: *const u64,
        ocapacity: usize,
        ocount: usize,
        value: *mut usize,
    ) -> u32;
    pub fn taxolbin_and_count(
        words: *const u64,
        capacity: usize,
        count: usize,
        other: *const u64,
        ocapacity: usize,
        ocount: usize,
        value: *mut usize,
    ) -> u32;
    pub fn taxolbin_or_count(
        words: *const u64,
        capacity: usize,
        count: usize,
        other: *const u64,
        ocapacity: usize,
        ocount: usize,
        value: *mut usize,
    ) -> u32;
    pub fn taxolbin_xor_count(
        words: *const u64,
        capacity: usize,
        count: usize,
        other: *const u64,
        ocapacity: usize,
        ocount: usize,
        value: *mut usize,
    ) -> u32;
    pub fn taxolbin_andnot_count(
        words: *const u64,
        capacity: usize,
        count: usize,
        other: *const u64,
        ocapacity: usize,
        ocount: usize,
        value: *mut usize,
    ) -> u32;
    pub fn taxolbin_iter_and(
        words: *const u64,
        capacity: usize,
        count: usize,
        other: *const u64,
        ocapacity: usize,
        ocount: usize,
        i: usize,
        found: *mut usize,
        place: *mut usize,
    ) -> u32;
    pub fn taxolbin_iter_or(
        words: *const u64,
        capacity: usize,
        count: usize,
        other: *const u64,
        ocapacity: usize,
        ocount: usize,
        i: usize,
        found: *mut usize,
        place: *mut usize,
    ) -> u32;
    pub fn taxolbin_iter_xor(
        words: *const u64,
        capacity: usize,
        count: usize,
        other: *const u64,
        ocapacity: usize,
        ocount: usize,
        i: usize,
        found: *mut usize,
        place: *mut usize,
    ) -> u32;
    pub fn taxolbin_iter_andnot(
        words: *const u64,
        capacity: usize,
        count: usize,
        other: *const u64,
        ocapacity: usize,
        ocount: usize,
        i: usize,
        found: *mut usize,
        place: *mut usize,
    ) -> u32;
    pub fn taxolbin_set_field_strict(words: *mut u64, capacity: usize, count: *mut usize, i: usize, value: u64, width: usize) -> u32;
    pub fn taxolbin_slice_toggle(words: *mut u64, capacity: usize, count: *mut usize, i: usize) -> u32;
    pub fn taxolbin_invert(words: *mut u64, capacity: usize, count: *mut usize) -> u32;
    pub fn taxolbin_reverse(words: *mut u64, capacity: usize, count: *mut usize) -> u32;
    pub fn taxolbin_slice_shift_left(words: *mut u64, capacity: usize, count: *mut usize, k: usize) -> u32;
    pub fn taxolbin_slice_shift_right(words: *mut u64, capacity: usize, count: *mut usize, k: usize) -> u32;
    pub fn taxolbin_rotate_left(words: *mut u64, capacity: usize, count: *mut usize, k: usize) -> u32;
    pub fn taxolbin_rotate_right(words: *mut u64, capacity: usize, count: *mut usize, k: usize) -> u32;
    pub fn taxolbin_trim(words: *const u64, capacity: usize, count: *mut usize) -> u32;
    pub fn taxolbin_set(words: *mut u64, capacity: usize, count: *mut usize, i: usize) -> u32;
    pub fn taxolbin_unset(words: *mut u64, capacity: usize, count: *mut usize, i: usize) -> u32;
    pub fn taxolbin_set_many(words: *mut u64, capacity: usize, count: *mut usize, bits: *const usize, length: usize) -> u32;
    pub fn taxolbin_set_region(words: *mut u64, capacity: usize, count: *mut usize, i: usize, value: u32, k: usize) -> u32;
    pub fn taxolbin_set_field(words: *mut u64, capacity: usize, count: *mut usize, i: usize, value: u64, width: usize) -> u32;
    pub fn taxolbin_andi(words: *mut u64, capacity: usize, count: *mut usize, i: usize) -> u32;
    pub fn taxolbin_andnoti(words: *mut u64, capacity: usize, count: *mut usize, i: usize) -> u32;
    pub fn taxolbin_xori(words: *mut u64, capacity: usize, count: *mut usize, i: usize) -> u32;
    pub fn taxolbin_toggle(words: *mut u64, capacity: usize, count: *mut usize, i: usize) -> u32;
    pub fn taxolbin_toggle_region(words: *mut u64, capacity: usize, count: *mut usize, i: usize, k: usize) -> u32;
    pub fn taxolbin_shift_left(words: *mut u64, capacity: usize, count: *mut usize, k: usize) -> u32;
    pub fn taxolbin_shift_right(words: *mut u64, capacity: usize, count: *mut usize, k: usize) -> u32;
    pub fn taxolbin_truncate_bits(words: *mut u64, capacity: usize, count: *mut usize, k: usize) -> u32;
    pub fn taxolbin_resize_bits(words: *mut u64, capacity: usize, count: *mut usize, k: usize) -> u32;
    pub fn taxolbin_append(words: *mut u64, capacity: usize, count: *mut usize, other: *const u64, ocapacity: usize, ocount: usize) -> u32;
    pub fn taxolbin_split_off(
        words: *mut u64,
        capacity: usize,
        count: *mut usize,
        at: usize,
        tail: *mut u64,
        tcapacity: usize,
        tcount: *mut usize,
    ) -> u32;
    pub fn taxolbin_open_gap(words: *mut u64, capacity: usize, count: *mut usize, p: usize, k: usize) -> u32;
    pub fn taxolbin_close_gap(words: *mut u64, capacity: usize, count: *mut usize, p: usize, k: usize) -> u32;
    pub fn taxolbin_and(words: *mut u64, capacity: usize, count: *mut usize, other: *const u64, ocapacity: usize, ocount: usize) -> u32;
    pub fn taxolbin_andnot(words: *mut u64, capacity: usize, count: *mut usize, other: *const u64, ocapacity: usize, ocount: usize) -> u32;
    pub fn taxolbin_or(words: *mut u64, capacity: usize, count: *mut usize, other: *const u64, ocapacity: usize, ocount: usize) -> u32;
    pub fn taxolbin_xor(words: *mut u64, capacity: usize, count: *mut usize, other: *const u64, ocapacity: usize, ocount: usize) -> u32;
    pub fn taxolbin_and_from(
        words: *mut u64,
        capacity: usize,
        count: *mut usize,
        left: *const u64,
        lcapacity: usize,
        lcount: usize,
        right: *const u64,
        rcapacity: usize,
        rcount: usize,
    ) -> u32;
    pub fn taxolbin_andnot_from(
        words: *mut u64,
        capacity: usize,
        count: *mut usize,
        left: *const u64,
        lcapacity: usize,
        lcount: usize,
        right: *const u64,
        rcapacity: usize,
        rcount: usize,
    ) -> u32;
    pub fn taxolbin_or_from(
        words: *mut u64,
        capacity: usize,
        count: *mut usize,
        left: *const u64,
        lcapacity: usize,
        lcount: usize,
        right: *const u64,
        rcapacity: usize,
        rcount: usize,
    ) -> u32;
    pub fn taxolbin_xor_from(
        words: *mut u64,
        capacity: usize,
        count: *mut usize,
        left: *const u64,
        lcapacity: usize,
        lcount: usize,
        right: *const u64,
        rcapacity: usize,
        rcount: usize,
    ) -> u32;
    pub fn taxolbin_dup_and(
        words: *mut u64,
        capacity: usize,
        count: *mut usize,
        left: *const u64,
        lcapacity: usize,
        lcount: usize,
        right: *const u64,
        rcapacity: usize,
        rcount: usize,
    ) -> u32;
    pub fn taxolbin_dup_andnot(
        words: *mut u64,
        capacity: usize,
        count: *mut usize,
        left: *const u64,
        lcapacity: usize,
        lcount: usize,
        right: *const u64,
        rcapacity: usize,
        rcount: usize,
    ) -> u32;
    pub fn taxolbin_dup_or(
        words: *mut u64,
        capacity: usize,
        count: *mut usize,
        left: *const u64,
        lcapacity: usize,
        lcount: usize,
        right: *const u64,
        rcapacity: usize,
        rcount: usize,
    ) -> u32;
    pub fn taxolbin_dup_xor(
        words: *mut u64,
        capacity: usize,
        count: *mut usize,
        left: *const u64,
        lcapacity: usize,
        lcount: usize,
        right: *const u64,
        rcapacity: usize,
        rcount: usize,
    ) -> u32;
    pub fn taxolbin_from_list(
        words: *mut u64,
        capacity: usize,
        count: *mut usize,
        list: *const u8,
        length: usize,
        first: usize,
        joiner: usize,
        blank: u32,
        shortest: usize,
    ) -> u32;
    pub fn taxolbin_write_list(
        words: *const u64,
        capacity: usize,
        count: usize,
        out: *mut u8,
        size: usize,
        length: *mut usize,
        first: usize,
        joiner: usize,
        blank: u32,
        shortest: usize,
    ) -> u32;
    pub fn taxolbin_write_register(words: *const u64, capacity: usize, count: usize, out: *mut u8, size: usize, length: *mut usize) -> u32;
    pub fn taxolbin_read(
        edition: usize,
        sheet: *const u8,
        length: usize,
        words: *const u64,
        capacity: usize,
        count: usize,
        result: *mut u64,
        rcapacity: usize,
        record: *mut usize,
        rcount: *mut usize,
    ) -> u32;
    pub fn taxolbin_start(buffer: *mut u8, size: usize, length: *mut usize) -> u32;
    pub fn taxolbin_add(
        buffer: *mut u8,
        size: usize,
        length: *mut usize,
        duty: u32,
        kind: usize,
        p: u32,
        k: u32,
        flag: u32,
        width: usize,
        value: u64,
        bits: usize,
        payload: *const u8,
        plength: usize,
    ) -> u32;
}

// Only an archive of this version's first two numbers has this byte, so a program does not link with another one, whose calls may have other
// parameters. What makes a slice, a bitmap or a sheet asks for it.
#[inline]
pub fn linked() {
    // SAFETY: the byte is there wherever this links, and nothing writes it.
    unsafe { core::ptr::read_volatile(&raw const taxolbin_version_0_4) };
}
