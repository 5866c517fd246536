// The static library.

#[link(name = "kelfrudd", kind = "static")]
unsafe extern "C" {
    fn kelfrudd_write_step(code: u32, first: u32, second: u32, out: *mut u64, places: usize) -> u32;
    fn kelfrudd_check_step(
        system: u32,
        code: u32,
        first: u32,
        second: u32,
        claimed: u32,
        hints: *const u64,
        given: usize,
        named: *mut u64,
        places: usize,
    ) -> u32;
    fn kelfrudd_check_sheet(
        system: u32,
        serial: u32,
        weight: u64,
        numbers: *const u64,
        given: usize,
        told: *mut u64,
        places: usize,
    ) -> u32;
}

#[inline(always)]
pub fn write_step(code: u32, first: u32, second: u32, out: &mut [u64]) -> u32 {
    unsafe { kelfrudd_write_step(code, first, second, out.as_mut_ptr(), out.len()) }
}

#[inline(always)]
pub fn check_step(system: u32, code: u32, first: u32, second: u32, claimed: u32, hints: &[u64], named: &mut [u64]) -> u32 {
    unsafe {
        kelfrudd_check_step(
            system,
            code,
            first,
            second,
            claimed,
            hints.as_ptr(),
            hints.len(),
            named.as_mut_ptr(),
            named.len(),
        )
    }
}

#[inline(always)]
pub fn check_sheet(system: u32, serial: u32, weight: u64, numbers: &[u64], told: &mut [u64]) -> u32 {
    unsafe { kelfrudd_check_sheet(system, serial, weight, numbers.as_ptr(), numbers.len(), told.as_mut_ptr(), told.len()) }
}
