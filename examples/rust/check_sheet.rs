// The length of the hypotenuse of a right triangle, as a sheet: 3 and 4 are put in, squared, added, and the root is taken. Each claim is
// written with its hints, the sheet is checked in both systems, and then once more with a hint forged.

mod kelfrudd {
    // The raw functions take a slice as a pointer and a length.
    #[link(name = "kelfrudd", kind = "static")]
    unsafe extern "C" {
        fn kelfrudd_write_step(code: u32, first: u32, second: u32, out: *mut u64, places: usize) -> u32;
        fn kelfrudd_check_step(
            system: u32,
            code: u32,
            first: u32,
            second: u32,
            claimed: u32,
            hints: *const u64,
            given: usize,
            named: *mut u64,
            places: usize,
        ) -> u32;
        fn kelfrudd_check_sheet(
            system: u32,
            serial: u32,
            weight: u64,
            numbers: *const u64,
            given: usize,
            told: *mut u64,
            places: usize,
        ) -> u32;
    }

    pub const WRAPPING: u32 = 1;
    pub const PAIR: u32 = 2;

    pub fn write_step(code: u32, first: u32, second: u32, out: &mut [u64]) -> u32 {
        unsafe { kelfrudd_write_step(code, first, second, out.as_mut_ptr(), out.len()) }
    }

    // The number of the refusal, and the hint that it names.
    pub fn check_step(system: u32, code: u32, first: u32, second: u32, claimed: u32, hints: &[u64]) -> (u32, u64) {
        let mut named = [0];
        let number = unsafe {
            kelfrudd_check_step(
                system,
                code,
                first,
                second,
                claimed,
                hints.as_ptr(),
                hints.len(),
                named.as_mut_ptr(),
                named.len(),
            )
        };
        (number, named[0])
    }

    pub fn check_sheet(system: u32, serial: u32, weight: u64, numbers: &[u64]) -> (u32, [u64; 5]) {
        let mut told = [0; 5];
        let number = unsafe {
            kelfrudd_check_sheet(
                system,
                serial,
                weight,
                numbers.as_ptr(),
                numbers.len(),
                told.as_mut_ptr(),
                told.len(),
            )
        };
        (number, told)
    }
}

type Row = [u64; 10];

fn input(word: u32) -> Row {
    let mut row = [0; 10];
    row[3] = u64::from(word);
    row
}

// The claim of an operation on the words of two rows.
fn claim(rows: &[Row], code: u32, first: usize, second: usize) -> Row {
    let mut row = [0; 10];
    row[0] = u64::from(code);
    row[1] = first as u64;
    row[2] = second as u64;
    let number = kelfrudd::write_step(code, rows[first][3] as u32, rows[second][3] as u32, &mut row[3..]);
    assert_eq!(number, 0);
    row
}

fn check(name: &str, system: u32, rows: &[Row]) -> u32 {
    let (number, told) = kelfrudd::check_sheet(system, 7, 1 << 32, rows.as_flattened());
    println!(
        "{name}: number {}, rows passed {}, cell {}, hint {}, closing number {:016X}",
        told[0], told[1], told[2], told[3], told[4]
    );
    number
}

fn main() {
    let mut rows = vec![input(3f32.to_bits()), input(4f32.to_bits())];
    for (code, first, second) in [(3, 0, 0), (3, 1, 1), (1, 2, 3), (5, 4, 0)] {
        rows.push(claim(&rows, code, first, second));
    }
    println!("the root of 3 * 3 + 4 * 4 is {:08X}", rows[5][3]);
    assert_eq!(check("modulo 2^64", kelfrudd::WRAPPING, &rows), 0);
    assert_eq!(check("in the pair", kelfrudd::PAIR, &rows), 0);

    rows[4][7] += 1;
    assert_eq!(check("keep forged", kelfrudd::PAIR, &rows), 8);

    let mut root = rows[5];
    root[6] += 1;
    let (number, hint) = kelfrudd::check_step(kelfrudd::PAIR, 5, rows[4][3] as u32, 0, root[3] as u32, &root[4..]);
    println!("lift of the root forged: number {number}, hint {hint}");
    assert_eq!((number, hint), (6, 3));
}
