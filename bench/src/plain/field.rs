//! The field of 256 symbols by tables. They are made once, when the program is compiled.

/// Powers of 2, twice over, so that a sum of two logarithms needs no remainder.
const POWERS: [u8; 510] = powers();
const LOGS: [u8; 256] = logs();

/// All products. A row is one factor's table.
pub static PRODUCTS: [[u8; 256]; 256] = products();
/// 1 / x, and zero for zero.
pub static INVERSES: [u8; 256] = inverses();

const fn powers() -> [u8; 510] {
    let mut table = [0; 510];
    let (mut x, mut i) = (1u32, 0);
    while i < 510 {
        table[i] = x as u8;
        x <<= 1;
        if x > 255 {
            x ^= 285;
        }
        i += 1;
    }
    table
}

const fn logs() -> [u8; 256] {
    let mut table = [0; 256];
    let mut i = 0;
    while i < 255 {
        table[POWERS[i] as usize] = i as u8;
        i += 1;
    }
    table
}

const fn products() -> [[u8; 256]; 256] {
    let mut table = [[0; 256]; 256];
    let mut a = 1;
    while a < 256 {
        let mut b = 1;
        while b < 256 {
            table[a][b] = POWERS[LOGS[a] as usize + LOGS[b] as usize];
            b += 1;
        }
        a += 1;
    }
    table
}

const fn inverses() -> [u8; 256] {
    let mut table = [0; 256];
    let mut a = 1;
    while a < 256 {
        table[a] = POWERS[255 - LOGS[a] as usize];
        a += 1;
    }
    table
}

#[inline(always)]
pub fn times(a: u8, b: u8) -> u8 {
    PRODUCTS[a as usize][b as usize]
}

#[inline(always)]
pub fn over(a: u8, b: u8) -> u8 {
    times(a, INVERSES[b as usize])
}

/// x^n; x^0 is 1 for every x.
pub fn power(x: u8, n: usize) -> u8 {
    match (x, n) {
        (_, 0) => 1,
        (0, _) => 0,
        _ => POWERS[LOGS[x as usize] as usize * n % 255],
    }
}

/// The sum of the products of two runs, entry by entry.
#[inline(always)]
pub fn dot(a: &[u8], b: &[u8]) -> u8 {
    a.iter().zip(b).fold(0, |sum, (x, y)| sum ^ times(*x, *y))
}
