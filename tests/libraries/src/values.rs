//! Operations on unsigned numbers of 1 to 64 bits, their widths and their text.

use std::alloc::AllocError;
use value::{
    Comparison, Value, Width, add, bit_and, bit_or, bit_xor, compare, least_width, not, resize, sub,
};

#[test]
fn a_value_fits_its_width(rt: HostRuntime) {
    assert!(rt; Value::new(256, 8).is_none());
    assert!(rt; Value::new(0, 0).is_none());
    assert!(rt; Value::new(0, 65).is_none());
    assert_eq!(rt; Value::new(255, 8), Some(Value::make(255, 8)));
    assert_eq!(rt; Value::new(u64::MAX, 64), Some(Value::make(u64::MAX, 64)));
    assert_eq!(rt; Value::make(5, 3).bits(), 5);
    assert_eq!(rt; Value::make(5, 3).width(), 3);
    assert_eq!(rt; Value::zero(7), Value::make(0, 7));
    assert_ne!(rt; Value::make(1, 1), Value::make(1, 2));
}

#[test]
fn sums_keep_the_carry(rt: HostRuntime) {
    assert_eq!(rt;
        add(Value::make(255, 8), Value::make(1, 1)),
        Value::make(256, 9)
    );
    let largest = Value::make(u64::MAX >> 1, 63);
    assert_eq!(rt; add(largest, largest), Value::make(u64::MAX - 1, 64));
}

#[test]
fn differences_wrap(rt: HostRuntime) {
    assert_eq!(rt; sub(Value::zero(1), Value::make(1, 1)), Value::make(1, 1));
    assert_eq!(rt;
        sub(Value::make(200, 8), Value::make(201, 8)),
        Value::make(255, 8)
    );
    assert_eq!(rt;
        sub(Value::make(9, 4), Value::make(2, 2)),
        Value::make(7, 4)
    );
    assert_eq!(rt;
        sub(Value::zero(1), Value::make(1, 64)),
        Value::make(u64::MAX, 64)
    );
    assert_eq!(rt;
        sub(Value::zero(64), Value::make(u64::MAX, 64)),
        Value::make(1, 64)
    );
}

#[test]
fn bits_one_by_one(rt: HostRuntime) {
    let (a, b) = (Value::make(12, 4), Value::make(5, 3));
    assert_eq!(rt; bit_and(a, b), Value::make(4, 4));
    assert_eq!(rt; bit_or(a, b), Value::make(13, 4));
    assert_eq!(rt; bit_xor(a, b), Value::make(9, 4));
    assert_eq!(rt; not(b), Value::make(2, 3));
    assert_eq!(rt; not(Value::zero(64)), Value::make(u64::MAX, 64));
}

#[test]
fn comparisons_are_unsigned(rt: HostRuntime) {
    let (low, high) = (Value::make(1, 1), Value::make(u64::MAX, 64));
    let (no, yes) = (Value::zero(1), Value::make(1, 1));
    assert_eq!(rt; compare(Comparison::Equal, low, Value::make(1, 8)), yes);
    assert_eq!(rt; compare(Comparison::NotEqual, low, low), no);
    assert_eq!(rt; compare(Comparison::Less, low, high), yes);
    assert_eq!(rt; compare(Comparison::Greater, low, high), no);
    assert_eq!(rt; compare(Comparison::LessOrEqual, low, low), yes);
    assert_eq!(rt; compare(Comparison::GreaterOrEqual, low, high), no);
}

#[test]
fn widths_change(rt: HostRuntime) {
    assert_eq!(rt; resize(Value::make(256, 9), 8), Value::zero(8));
    assert_eq!(rt; resize(Value::make(1, 1), 64), Value::make(1, 64));
    assert_eq!(rt; resize(Value::make(u64::MAX, 64), 1), Value::make(1, 1));
    assert_eq!(rt; least_width(0), 1);
    assert_eq!(rt; least_width(1), 1);
    assert_eq!(rt; least_width(255), 8);
    assert_eq!(rt; least_width(256), 9);
    assert_eq!(rt; least_width(u64::MAX), 64);
}

#[test]
fn prints_in_decimal(rt: HostRuntime) -> Result<(), AllocError> {
    let text = Value::make(u64::MAX, 64).to_string(rt.alloc())?;
    assert_eq!(rt; text.as_str(), "18446744073709551615");
    Ok(())
}

#[test]
fn widths_are_from_1_to_64(rt: HostRuntime) {
    assert!(rt; Width::new(0).is_none());
    assert!(rt; Width::new(65).is_none());
    assert!(rt; Width::new(1).is_some_and(|w| w.bits() == 1));
    assert!(rt; Width::new(64).is_some_and(|w| w.bits() == 64));
}
