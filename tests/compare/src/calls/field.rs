//! The calls of the field. The boundary proper does not have them.

use crate::case::{Operation, Reply};
use independent::field::{power, product, quotient};

extern "C" {
    fn corkpaddle_product(a: u8, b: u8) -> u8;
    fn corkpaddle_quotient(a: u8, b: u8) -> u8;
    fn corkpaddle_power(a: u8, n: usize) -> u8;
}

fn symbol(value: u8) -> Reply {
    [value as u64, 0, 0, 0]
}

pub const OPERATIONS: [Operation; 3] = [
    Operation {
        name: "product",
        library: |v| symbol(unsafe { corkpaddle_product(v[0].byte(), v[1].byte()) }),
        independent: |v| symbol(product(v[0].byte(), v[1].byte())),
    },
    Operation {
        name: "quotient",
        library: |v| symbol(unsafe { corkpaddle_quotient(v[0].byte(), v[1].byte()) }),
        independent: |v| symbol(quotient(v[0].byte(), v[1].byte())),
    },
    Operation {
        name: "power",
        library: |v| symbol(unsafe { corkpaddle_power(v[0].byte(), v[1].number() as usize) }),
        independent: |v| symbol(power(v[0].byte(), v[1].number() as usize)),
    },
];
