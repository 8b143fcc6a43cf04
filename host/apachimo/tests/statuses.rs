//! Statuses as numbers and names.

use apachimo::{Status, UnknownStatus};

#[test]
fn numbers_and_statuses_are_inverse() {
    let known: Vec<u32> = Status::ALL.iter().map(|&status| status.into()).collect();
    for number in 0..0x200 {
        let expected = known.contains(&number);
        match Status::try_from(number) {
            Ok(status) => assert!(expected && u32::from(status) == number, "{number:#X}"),
            Err(UnknownStatus(given)) => assert!(!expected && given == number, "{number:#X}"),
        }
    }
    assert_eq!(Status::try_from(u32::MAX), Err(UnknownStatus(u32::MAX)));
}

#[test]
fn names_are_the_ordinary_kernels() {
    for status in Status::ALL {
        let ordinary = ordinary::Status(status.number());
        let name = ordinary.name(0);
        let expected = match name.starts_with("TX_") {
            true => name.to_string(),
            false => format!("APACHIMO_{name}"),
        };
        assert_eq!(status.to_string(), expected);
        assert_eq!(status.is_carried_out(), ordinary.is_carried_out());
    }
}
