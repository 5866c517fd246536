// The same writer, checks and sheet once more, written for speed from docs/RULES.md. Functions have the shapes of the library's.

const SIGN: u32 = 0x8000_0000;
const INFINITY: u32 = 0x7F80_0000;
const NAN: u32 = 0x7FC0_0000;
const ONE: u32 = 0x3F80_0000;

#[derive(Clone, Copy, PartialEq)]
enum Kind {
    Sum,
    Difference,
    Product,
    Quotient,
    Root,
}

// The first equation's numbers, and s.
#[derive(Clone, Copy)]
struct Frame {
    kind: Kind,
    sign: u32,
    m1: u64,
    m2: u64,
    shift: u32,
    s: i32,
}

enum Prepared {
    Direct(u32),
    Rounded(Frame),
}

// Neither a zero nor an infinity nor a NaN.
#[inline(always)]
fn plain(magnitude: u32) -> bool {
    magnitude.wrapping_sub(1) < INFINITY - 1
}

#[inline(always)]
fn normal(magnitude: u32) -> (u64, i32) {
    if magnitude >= 0x0080_0000 {
        (u64::from(magnitude & 0x007F_FFFF | 0x0080_0000), (magnitude >> 23) as i32 - 150)
    } else {
        let up = magnitude.leading_zeros() - 8;
        (u64::from(magnitude << up), -149 - up as i32)
    }
}

#[inline(always)]
fn sum(a: u32, b: u32) -> Prepared {
    let (p, q) = (a & !SIGN, b & !SIGN);
    if plain(p) && plain(q) {
        let (x, y, p, q) = if p >= q { (a, b, p, q) } else { (b, a, q, p) };
        let opposite = (x ^ y) & SIGN != 0;
        if opposite && p == q {
            return Prepared::Direct(0);
        }
        let (m1, e1) = normal(p);
        let (m2, e2) = normal(q);
        return Prepared::Rounded(Frame {
            kind: if opposite { Kind::Difference } else { Kind::Sum },
            sign: x & SIGN,
            m1,
            m2,
            shift: 26 - (e1 - e2).min(26) as u32,
            s: e1 - 26,
        });
    }
    Prepared::Direct(if p > INFINITY || q > INFINITY {
        NAN
    } else if p == INFINITY {
        if q == INFINITY && a != b { NAN } else { a }
    } else if q == INFINITY {
        b
    } else if p == 0 {
        if q == 0 { a & b } else { b }
    } else {
        a
    })
}

#[inline(always)]
fn product(a: u32, b: u32) -> Prepared {
    let (p, q, sign) = (a & !SIGN, b & !SIGN, (a ^ b) & SIGN);
    if plain(p) && plain(q) {
        let (m1, e1) = normal(p);
        let (m2, e2) = normal(q);
        return Prepared::Rounded(Frame { kind: Kind::Product, sign, m1, m2, shift: 0, s: e1 + e2 });
    }
    Prepared::Direct(if p > INFINITY || q > INFINITY {
        NAN
    } else if p == INFINITY || q == INFINITY {
        if p == 0 || q == 0 { NAN } else { sign | INFINITY }
    } else {
        sign
    })
}

#[inline(always)]
fn quotient(a: u32, b: u32) -> Prepared {
    let (p, q, sign) = (a & !SIGN, b & !SIGN, (a ^ b) & SIGN);
    if plain(p) && plain(q) {
        let (m1, e1) = normal(p);
        let (m2, e2) = normal(q);
        return Prepared::Rounded(Frame { kind: Kind::Quotient, sign, m1, m2, shift: 26, s: e1 - e2 - 26 });
    }
    Prepared::Direct(if p > INFINITY || q > INFINITY || (p == q && !plain(p)) {
        NAN
    } else if p == INFINITY || q == 0 {
        sign | INFINITY
    } else {
        sign
    })
}

#[inline(always)]
fn root(a: u32) -> Prepared {
    if plain(a) {
        let (m1, e1) = normal(a);
        let shift = 26 + (e1 & 1) as u32;
        return Prepared::Rounded(Frame { kind: Kind::Root, sign: 0, m1, m2: 0, shift, s: (e1 - shift as i32) / 2 });
    }
    Prepared::Direct(if a & !SIGN == 0 || a == INFINITY { a } else { NAN })
}

// A number that rises with the value; the two zeros share one.
#[inline(always)]
fn key(w: u32) -> i32 {
    let magnitude = (w & !SIGN) as i32;
    if w & SIGN != 0 { -magnitude } else { magnitude }
}

#[inline(always)]
fn compared(code: u32, a: u32, b: u32) -> Prepared {
    if a & !SIGN > INFINITY || b & !SIGN > INFINITY {
        return Prepared::Direct(0);
    }
    let (p, q) = (key(a), key(b));
    let yes = match code {
        6 => p == q,
        7 => p < q,
        _ => p <= q,
    };
    Prepared::Direct(if yes { ONE } else { 0 })
}

#[inline(always)]
fn prepared(code: u32, a: u32, b: u32) -> Option<Prepared> {
    Some(match code {
        1 => sum(a, b),
        2 => sum(a, if b & !SIGN > INFINITY { b } else { b ^ SIGN }),
        3 => product(a, b),
        4 => quotient(a, b),
        5 => root(a),
        6..=8 => compared(code, a, b),
        _ => return None,
    })
}

// main and rest. A radicand is below 2^52 and a quotient below 2^27 with a divisor below 2^24, so that a 64-bit float finds both; the root
// may come out one too high.
#[inline(always)]
fn principal(f: &Frame) -> (u64, u64) {
    match f.kind {
        Kind::Sum => ((f.m1 << 26) + (f.m2 << f.shift), 0),
        Kind::Difference => ((f.m1 << 26) - (f.m2 << f.shift), 0),
        Kind::Product => (f.m1 * f.m2, 0),
        Kind::Quotient => {
            let n = f.m1 << 26;
            let q = (n as i64 as f64 / f.m2 as i64 as f64) as i64 as u64;
            (q, n - q * f.m2)
        }
        Kind::Root => {
            let n = f.m1 << f.shift;
            let mut r = (n as i64 as f64).sqrt() as i64 as u64;
            if r * r > n {
                r -= 1;
            }
            (r, n - r * r)
        }
    }
}

// u + 149 and k.
#[inline(always)]
fn place(s: i32, lift: i32) -> (i32, u32) {
    let u = (s - lift + 27).max(-149);
    (u + 149, (u + lift - s).min(52) as u32)
}

#[inline(always)]
fn rounds_up(k: u32, rest: u64, keep: u64, drop: u64) -> u64 {
    let (twice, whole) = (drop << 1, 1u64 << k);
    u64::from(twice > whole || (twice == whole && (rest != 0 || keep & 1 != 0)))
}

#[inline(always)]
fn word(sign: u32, base: i32, keep: u64, up: u64) -> u32 {
    sign | (((base as u64) << 23) + keep + up).min(u64::from(INFINITY)) as u32
}

#[inline(never)]
pub fn write_step(code: u32, first: u32, second: u32, out: &mut [u64]) -> u32 {
    let Some(out) = out.first_chunk_mut::<7>() else {
        return 101;
    };
    match prepared(code, first, second) {
        None => 2,
        Some(Prepared::Direct(w)) => {
            *out = [u64::from(w), 0, 0, 0, 0, 0, 0];
            0
        }
        Some(Prepared::Rounded(f)) => {
            let (main, rest) = principal(&f);
            let lift = main.leading_zeros() - 13;
            let (base, k) = place(f.s, lift as i32);
            let lifted = main << lift;
            let (keep, drop) = (lifted >> k, lifted & ((1 << k) - 1));
            let up = rounds_up(k, rest, keep, drop);
            *out = [u64::from(word(f.sign, base, keep, up)), main, rest, u64::from(lift), keep, drop, up];
            0
        }
    }
}

// A number system: the seven-number test, and the fold of the closing number.
trait Engine {
    fn balances(n: [u64; 7]) -> bool;
    fn fold(weight: u64, words: impl Iterator<Item = u32>) -> u64;
}

struct Wrapping;

impl Engine for Wrapping {
    #[inline(always)]
    fn balances([a, b, c, d, e, f, g]: [u64; 7]) -> bool {
        a.wrapping_mul(b).wrapping_add(c.wrapping_mul(d)) == e.wrapping_mul(f).wrapping_add(g)
    }

    #[inline(always)]
    fn fold(weight: u64, words: impl Iterator<Item = u32>) -> u64 {
        words.fold(0, |total: u64, w| total.wrapping_mul(weight).wrapping_add(u64::from(w)))
    }
}

struct Pair;

const P: u64 = 2147483647;
const Q: u64 = 2013265921;

// Remainders are below 2^31, so that two products and a remainder fit 64 bits before they are reduced.
#[inline(always)]
fn balances_modulo<const M: u64>([a, b, c, d, e, f, g]: [u64; 7]) -> bool {
    let left = (a % M) * (b % M) + (c % M) * (d % M);
    let right = (e % M) * (f % M) + g % M;
    left % M == right % M
}

#[inline(always)]
fn fold_modulo<const M: u64>(total: u64, weight: u64, w: u32) -> u64 {
    (total * weight + u64::from(w)) % M
}

impl Engine for Pair {
    #[inline(always)]
    fn balances(n: [u64; 7]) -> bool {
        balances_modulo::<P>(n) & balances_modulo::<Q>(n)
    }

    #[inline(always)]
    fn fold(weight: u64, words: impl Iterator<Item = u32>) -> u64 {
        let (v, w) = (weight % P, weight % Q);
        let (x, y) = words.fold((0, 0), |(x, y), word| (fold_modulo::<P>(x, v, word), fold_modulo::<Q>(y, w, word)));
        // The steps of P from x to a number that leaves y modulo Q; 1039104991 is the inverse of P there.
        x + P * ((y + 2 * Q - x) % Q * 1039104991 % Q)
    }
}

#[inline(always)]
fn wide(hint: u32) -> Result<(), (u32, u32)> {
    Err((6, hint))
}

#[inline(always)]
fn examine_rounded<E: Engine>(f: &Frame, claimed: u32, h: &[u64; 6]) -> Result<(), (u32, u32)> {
    let [main, rest, lift, keep, drop, up] = *h;
    let (width, limit) = match f.kind {
        Kind::Sum | Kind::Difference => (51, 1),
        Kind::Product => (48, 1),
        Kind::Quotient => (27, f.m2),
        Kind::Root => (26, main.wrapping_mul(2).wrapping_add(1)),
    };
    if main >> width != 0 {
        return wide(1);
    }
    if rest >= limit {
        return wide(2);
    }
    if lift > 50 || main >> (50 - lift) != 1 {
        return wide(3);
    }
    let (base, k) = place(f.s, lift as i32);
    if keep >> 51u32.saturating_sub(k) != 0 {
        return wide(4);
    }
    if drop >> k != 0 {
        return wide(5);
    }
    if up > 1 {
        return wide(6);
    }
    let first = match f.kind {
        Kind::Sum => [f.m1, 1 << 26, f.m2, 1 << f.shift, main, 1, 0],
        Kind::Difference => [main, 1, f.m2, 1 << f.shift, f.m1, 1 << 26, 0],
        Kind::Product => [f.m1, f.m2, 0, 0, main, 1, 0],
        Kind::Quotient => [f.m1, 1 << 26, 0, 0, main, f.m2, rest],
        Kind::Root => [f.m1, 1 << f.shift, 0, 0, main, main, rest],
    };
    if !E::balances(first) {
        return Err((7, 0));
    }
    if !E::balances([main, 1 << lift, 0, 0, keep, 1 << k, drop]) {
        return Err((8, 0));
    }
    if up != rounds_up(k, rest, keep, drop) {
        return Err((9, 0));
    }
    if claimed != word(f.sign, base, keep, up) {
        return Err((10, 0));
    }
    Ok(())
}

#[inline(always)]
fn examine_direct(w: u32, claimed: u32, h: &[u64; 6]) -> Result<(), (u32, u32)> {
    if h.iter().any(|x| *x != 0) {
        return wide(h.iter().position(|x| *x != 0).map_or(0, |i| i as u32 + 1));
    }
    if claimed == w { Ok(()) } else { Err((10, 0)) }
}

#[inline(always)]
fn examine<E: Engine>(code: u32, a: u32, b: u32, claimed: u32, h: &[u64; 6]) -> Result<(), (u32, u32)> {
    match prepared(code, a, b) {
        None => Err((2, 0)),
        Some(Prepared::Direct(w)) => examine_direct(w, claimed, h),
        Some(Prepared::Rounded(f)) => examine_rounded::<E>(&f, claimed, h),
    }
}

#[inline(never)]
pub fn check_step(system: u32, code: u32, first: u32, second: u32, claimed: u32, hints: &[u64], named: &mut [u64]) -> u32 {
    let (Some(h), Some(named)) = (hints.first_chunk::<6>(), named.first_mut()) else {
        return 101;
    };
    let found = match system {
        1 => examine::<Wrapping>(code, first, second, claimed, h),
        2 => examine::<Pair>(code, first, second, claimed, h),
        _ => return 103,
    };
    let (number, hint) = found.err().unwrap_or((0, 0));
    *named = u64::from(hint);
    number
}

#[derive(Clone, Copy)]
enum Cell {
    Free,
    Accepted,
    Pending { code: u32, first: u8, second: u8 },
    Struck,
}

// A cell's word stands apart from its state, so that operands are found quickly.
struct Sheet {
    serial: u32,
    weight: u64,
    taken: usize,
    words: [u32; 256],
    cells: [Cell; 256],
}

struct Ticket {
    serial: u32,
    cell: usize,
}

// A number and what is told besides.
type Refusal = (u32, u64, u32);

impl Sheet {
    #[inline(always)]
    fn open(serial: u32, weight: u64) -> Sheet {
        Sheet { serial, weight, taken: 0, words: [0; 256], cells: [Cell::Free; 256] }
    }

    #[inline(always)]
    fn take(&mut self, cell: Cell, word: u32) -> usize {
        let n = self.taken;
        self.cells[n] = cell;
        self.words[n] = word;
        self.taken = n + 1;
        n
    }

    #[inline(always)]
    fn input(&mut self, word: u32) -> Result<(), Refusal> {
        if self.taken == 256 {
            return Err((1, 0, 0));
        }
        self.take(Cell::Accepted, word);
        Ok(())
    }

    #[inline(always)]
    fn accepted(&self, n: u64) -> bool {
        matches!(self.cells[n as usize & 255], Cell::Accepted)
    }

    #[inline(always)]
    fn enter(&mut self, code: u32, first: u64, second: u64, word: u32) -> Result<Ticket, Refusal> {
        if self.taken == 256 {
            return Err((1, 0, 0));
        }
        if code.wrapping_sub(1) >= 8 {
            return Err((2, 0, 0));
        }
        let second = if code == 5 { first } else { second };
        let taken = self.taken as u64;
        if first >= taken {
            return Err((3, 1, 0));
        }
        if second >= taken {
            return Err((3, 2, 0));
        }
        if !self.accepted(first) {
            return Err((4, 1, 0));
        }
        if !self.accepted(second) {
            return Err((4, 2, 0));
        }
        let cell = self.take(Cell::Pending { code, first: first as u8, second: second as u8 }, word);
        Ok(Ticket { serial: self.serial, cell })
    }

    #[inline(always)]
    fn settle<E: Engine>(&mut self, ticket: Ticket, h: &[u64; 6]) -> Result<(), Refusal> {
        let Ticket { serial, cell } = ticket;
        if serial != self.serial || cell >= 256 {
            return Err((5, 0, 0));
        }
        let Cell::Pending { code, first, second } = self.cells[cell] else {
            return Err((5, 0, 0));
        };
        let (a, b) = (self.words[first as usize], self.words[second as usize]);
        match examine::<E>(code, a, b, self.words[cell], h) {
            Ok(()) => {
                self.cells[cell] = Cell::Accepted;
                Ok(())
            }
            Err((number, hint)) => {
                self.cells[cell] = Cell::Struck;
                Err((number, cell as u64, hint))
            }
        }
    }

    #[inline(always)]
    fn closing_number<E: Engine>(&self) -> u64 {
        let cells = self.words[..self.taken].iter().zip(&self.cells[..self.taken]);
        E::fold(self.weight, cells.filter(|(_, cell)| matches!(cell, Cell::Accepted)).map(|(word, _)| *word))
    }
}

#[inline(always)]
fn put<E: Engine>(sheet: &mut Sheet, row: &[u64; 10]) -> Result<(), Refusal> {
    let Ok(word) = u32::try_from(row[3]) else {
        return Err((104, 0, 0));
    };
    if row[0] == 0 {
        return sheet.input(word);
    }
    let code = row[0].min(0xFFFF_FFFF) as u32;
    let ticket = sheet.enter(code, row[1], row[2], word)?;
    sheet.settle::<E>(ticket, row.last_chunk().unwrap())
}

#[inline(always)]
fn conclude<E: Engine>(serial: u32, weight: u64, rows: &[[u64; 10]]) -> [u64; 5] {
    let mut sheet = Sheet::open(serial, weight);
    for (n, row) in rows.iter().enumerate() {
        if let Err((number, first, second)) = put::<E>(&mut sheet, row) {
            return [u64::from(number), n as u64, first, u64::from(second), 0];
        }
    }
    [0, rows.len() as u64, 0, 0, sheet.closing_number::<E>()]
}

#[inline(never)]
pub fn check_sheet(system: u32, serial: u32, weight: u64, numbers: &[u64], told: &mut [u64]) -> u32 {
    let Some(told) = told.first_chunk_mut::<5>() else {
        return 101;
    };
    let (rows, rest) = numbers.as_chunks::<10>();
    if !rest.is_empty() {
        return 102;
    }
    *told = match system {
        1 => conclude::<Wrapping>(serial, weight, rows),
        2 => conclude::<Pair>(serial, weight, rows),
        _ => return 103,
    };
    told[0] as u32
}
