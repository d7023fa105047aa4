//! Prints each cause of the Rust wrapper with its number, and checks its version against the library's.
//! Not proved.

use numaplan::{Core, Refused, VERSION, version};
use std::error::Error;

fn main() -> Result<(), Box<dyn Error>> {
    let number = version() & !(1 << 31); // (which tells that it isn't proved)
    let parts = format!("{}.{}.{}", number / 1_000_000, number / 1_000 % 1_000, number % 1_000);
    assert_eq!(parts, VERSION);
    for cause in (1..200).map(Refused).filter(|cause| !cause.name().is_empty()) {
        println!("{} {cause}", cause.0);
        assert_eq!(cause.to_string(), format!("{}: {}", cause.name(), cause.words()));
        assert_eq!(format!("{cause:?}"), format!("Refused({cause})"));
    }
    assert_eq!(Refused(99).to_string(), "answer 99 of the library");
    let refused = Core::open("0-1", &[1, 1], &[10, 10, 20, 10], 1).unwrap_err();
    assert_eq!(refused, Refused::BAD_DISTANCE);
    Ok(())
}
