//! Exact decimals, both ways.
mod common;
use common::Dice;
use desk::decimal::{parse, shown, Money, NotExact};

#[test]
fn read() {
    for (cell, decimals, number) in [
        ("0", 6, 0),
        ("1", 6, 1_000_000),
        ("0.15", 6, 150_000),
        ("+2.5", 6, 2_500_000),
        ("-0.000001", 6, -1),
        ("007.10", 6, 7_100_000),
        ("18446744073709.551615", 6, i128::from(u64::MAX)),
        ("95.25", 2, 9_525),
        ("10000", 0, 10_000),
        ("000000000000000000000000000000000000001", 0, 1),
    ] {
        assert_eq!(parse(cell, decimals, '.'), Ok(number), "{cell}");
    }
    assert_eq!(parse("0,15", 6, ','), Ok(150_000));
}

#[test]
fn not_read() {
    for cell in [
        "", "-", "+", ".", ".5", "5.", "1.2.3", "1 000", "1,5", "0x10", "1e3", "--1", "+-1", "1-", "٣", "½", "NaN",
        "inf", "-.5",
    ] {
        assert_eq!(parse(cell, 6, '.'), Err(NotExact::NoNumber), "{cell}");
    }
    assert_eq!(parse("0.15", 6, ','), Err(NotExact::NoNumber));
    assert_eq!(parse("0.0000000", 6, '.'), Err(NotExact::TooManyDecimals));
    assert_eq!(parse("1.5", 0, '.'), Err(NotExact::TooManyDecimals));
    assert_eq!(parse(&"9".repeat(31), 0, '.'), Err(NotExact::TooManyDigits));
}

#[test]
fn there_and_back() {
    let mut dice = Dice::new(7);
    for _ in 0..20_000 {
        let number = i128::from(dice.any() as i64) >> dice.below(60);
        for decimals in [0, 2, 4, 6] {
            for mark in ['.', ','] {
                assert_eq!(parse(&shown(number, decimals, mark), decimals, mark), Ok(number));
            }
        }
    }
}

#[test]
fn money() {
    let plain = Money { mark: '.', currency: None };
    let euros = Money { mark: ',', currency: Some("EUR".to_owned()) };
    assert_eq!((plain.amount(1_800u64), euros.amount(1_800u64)), ("0.0018".to_owned(), "0,0018 EUR".to_owned()));
    assert_eq!(
        (plain.bare(-300i64), plain.bare(0u64), plain.bare(12_000_000u64)),
        ("-0.0003".into(), "0".into(), "12".into())
    );
}
