// Every answer of the library against the independent implementation, and the words of rounded operations against the machine's.
use crate::independent;
use crate::ours;
use crate::stream::Stream;

// Steps written and checked, with and without damage.
const STEPS: u32 = 10_000_000;

// Sheets of up to 260 rows, of which 256 fit.
const SHEETS: u32 = 20_000;

fn machine(code: u32, a: u32, b: u32) -> u32 {
    let (x, y) = (f32::from_bits(a), f32::from_bits(b));
    let yes = |b: bool| if b { 1f32 } else { 0f32 };
    let r = match code {
        1 => x + y,
        2 => x - y,
        3 => x * y,
        4 => x / y,
        5 => x.sqrt(),
        6 => yes(x == y),
        7 => yes(x < y),
        _ => yes(x <= y),
    };
    if r.is_nan() { 0x7FC0_0000 } else { r.to_bits() }
}

// A bit turned, one added or taken, another number of some width, or 0.
fn damaged(n: u64, s: &mut Stream) -> u64 {
    match s.below(5) {
        0 => n ^ 1 << s.below(64),
        1 => n.wrapping_add(1),
        2 => n.wrapping_sub(1),
        3 => (u64::from(s.number()) << 32 | u64::from(s.number())) >> s.below(64),
        _ => 0,
    }
}

// Damages a claim, and perhaps once more.
fn damage(claim: &mut [u64; 7], s: &mut Stream) {
    loop {
        let at = s.below(7) as usize;
        claim[at] = damaged(claim[at], s);
        claim[0] &= 0xFFFF_FFFF;
        if s.below(4) != 0 {
            return;
        }
    }
}

fn check_both(code: u32, a: u32, b: u32, claim: &[u64; 7]) -> Result<(), String> {
    for system in 1..=2 {
        let (mut hint, mut other) = ([99], [99]);
        let number = ours::check_step(system, code, a, b, claim[0] as u32, &claim[1..], &mut hint);
        let against = independent::check_step(system, code, a, b, claim[0] as u32, &claim[1..], &mut other);
        if (number, hint) != (against, other) {
            return Err(format!(
                "check of code {code} on {a:08X} {b:08X} in system {system}, claim {claim:X?}: {number} {hint:?}, independent {against} {other:?}"
            ));
        }
    }
    Ok(())
}

// One step: written by both, its claim checked by both as it is, and after damage.
fn step(s: &mut Stream) -> Result<(), String> {
    let code = s.below(10);
    let (a, b) = (s.any(), s.any());
    let (mut claim, mut other) = ([99; 7], [99; 7]);
    let number = ours::write_step(code, a, b, &mut claim);
    let against = independent::write_step(code, a, b, &mut other);
    if (number, claim) != (against, other) {
        return Err(format!("code {code} on {a:08X} {b:08X}: {number} {claim:X?}, independent {against} {other:X?}"));
    }
    if number == 0 && claim[0] != u64::from(machine(code, a, b)) {
        return Err(format!("code {code} on {a:08X} {b:08X}: {:08X}, the machine {:08X}", claim[0], machine(code, a, b)));
    }
    check_both(code, a, b, &claim)?;
    damage(&mut claim, s);
    check_both(code, a, b, &claim)
}

// A row on the words of earlier rows: mostly right, seldom with a code, a cell, a word or a hint that is not.
fn row(rows: &[[u64; 10]], s: &mut Stream) -> [u64; 10] {
    let mut row = [0; 10];
    if rows.len() < 4 || s.below(8) == 0 {
        row[3] = u64::from(s.any());
        return row;
    }
    let code = 1 + s.below(8);
    let (first, second) = (s.below(rows.len() as u32) as usize, s.below(rows.len() as u32) as usize);
    row[0] = u64::from(code);
    row[1] = first as u64;
    row[2] = second as u64;
    let mut out = [0; 7];
    independent::write_step(code, rows[first][3] as u32, rows[second][3] as u32, &mut out);
    row[3..].copy_from_slice(&out);
    if s.below(400) == 0 {
        let at = s.below(10) as usize;
        row[at] = damaged(row[at], s);
    }
    row
}

fn sheet(s: &mut Stream) -> Result<(), String> {
    let mut rows = Vec::new();
    for _ in 0..s.below(261) {
        let next = row(&rows, s);
        rows.push(next);
    }
    let mut numbers = rows.into_flattened();
    if s.below(50) == 0 {
        numbers.push(0);
    }
    let (serial, weight) = (s.number(), u64::from(s.number()) << 32 | u64::from(s.number()));
    for system in 0..=3 {
        let (mut told, mut other) = ([99; 5], [99; 5]);
        let number = ours::check_sheet(system, serial, weight, &numbers, &mut told);
        let against = independent::check_sheet(system, serial, weight, &numbers, &mut other);
        if (number, told) != (against, other) {
            return Err(format!("a sheet of {} numbers in system {system}: {number} {told:X?}, independent {against} {other:X?}", numbers.len()));
        }
    }
    Ok(())
}

// Slices with too few places and unknown systems.
fn corners() -> Result<(), String> {
    let mut kept = [99; 7];
    let mut told = [99; 5];
    let answers = [
        ours::write_step(1, 0, 0, &mut kept[..6]),
        ours::check_step(1, 1, 0, 0, 0, &[0; 5], &mut told),
        ours::check_step(1, 1, 0, 0, 0, &[0; 6], &mut told[..0]),
        ours::check_step(0, 1, 0, 0, 0, &[0; 6], &mut told),
        ours::check_sheet(1, 0, 0, &[0; 10], &mut told[..4]),
        ours::check_sheet(1, 0, 0, &[0; 11], &mut told),
        ours::check_sheet(3, 0, 0, &[0; 10], &mut told),
    ];
    if answers != [101, 101, 101, 103, 101, 102, 103] || kept != [99; 7] || told != [99; 5] {
        return Err(format!("corners: {answers:?} {kept:?} {told:?}"));
    }
    Ok(())
}

// How much was compared, or the first difference.
pub fn all() -> Result<String, String> {
    corners()?;
    let mut s = Stream::new(1);
    for _ in 0..STEPS {
        step(&mut s)?;
    }
    let mut s = Stream::new(2);
    for _ in 0..SHEETS {
        sheet(&mut s)?;
    }
    Ok(format!(
        "compared: {STEPS} steps, each written once, and checked in both systems as written and damaged; {SHEETS} sheets in both systems: no difference"
    ))
}
