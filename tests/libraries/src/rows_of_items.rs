//! A list in rows against a plain one.

use crate::random::Random;
use rows::Rows;
use std::test::Fail;

#[test]
fn a_list_in_rows_is_a_list(rt: HostRuntime) -> Result<(), Fail> {
    let mut random = Random::new(7);
    let mut rows = Rows::new(rt.alloc());
    let mut list: Vec<u64> = Vec::new(rt.alloc());
    for number in 0..6_000 {
        let takes = random.below(8) < if number < 2_000 { 2 } else { 5 };
        if takes && !list.is_empty() {
            let index = random.below(list.len() as u64) as usize;
            assert_eq!(rt; rows.remove(index), list.remove(index));
        } else {
            list.push(number)?;
            assert!(rt; rows.push(number).is_ok(), "put {number}");
        }
        if !list.is_empty() {
            let index = random.below(list.len() as u64) as usize;
            let was = std::mem::replace(&mut list[index], number * 3);
            assert_eq!(rt; rows.replace(index, number * 3), was);
        }
        assert_eq!(rt; rows.len(), list.len());
        if number % 50 == 0 {
            for index in 0..list.len() {
                assert_eq!(rt; *rows.get(index), list[index]);
            }
        }
    }
    Ok(())
}
