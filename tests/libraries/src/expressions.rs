//! Expressions that no description has (a sum of 65 bits, a variable that is not there, a value that is put for a channel)
//! and lists of variables.

use std::test::Fail;
use system::{Expression, Operator, Use, Variables};
use value::{Value, Width};

#[test]
fn a_sum_is_cut_at_sixty_four_bits(rt: HostRuntime) {
    let sum = Operator::Add.apply(Value::make(u64::MAX, 64), Value::make(2, 2));
    assert_eq!(rt; sum, Value::make(1, 64));
}

#[test]
fn a_received_value_stands_for_its_channel(rt: HostRuntime) -> Result<(), Fail> {
    let width = Width::new(8).ok_or("a width")?;
    let missing = Expression::Variable(
        Use {
            number: 3,
            offset: 0,
        },
        width,
    );
    assert_eq!(rt; missing.value(&[]), Value::make(0, 8));
    let named = Expression::Received(1, width);
    let other = named.with_received(rt.alloc(), 0, Value::make(9, 4))?;
    assert_eq!(rt; other.value(&[]), Value::make(0, 8));
    // It is cut to the width of the channel.
    let put = other.with_received(rt.alloc(), 1, Value::make(257, 9))?;
    assert_eq!(rt; put.value(&[]), Value::make(1, 8));
    Ok(())
}

#[test]
fn a_variable_is_inserted_at_its_place(rt: HostRuntime) -> Result<(), Fail> {
    let mut found = Variables::from_vec(vec![in rt.alloc(); 2, 9]?);
    found.insert(5)?;
    assert_eq!(rt; found.as_slice(), [2, 5, 9].as_slice());
    Ok(())
}
