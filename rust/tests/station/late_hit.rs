//! A hit that comes when the asker's line has closed never goes to the line's new owner.

use crate::{hit, own, query, station};
use lunozhar::Refusal;

#[test]
fn a_late_hit_is_refused_after_the_line_is_opened_again() {
    let mut station = station(&[1, 3]);
    station.message(3, 0, &own(), &query(7, "river")).unwrap();
    assert!(station.message(1, 10, &own(), &hit(7)).unwrap().sent.lines().eq([3]));

    station.close(3).unwrap();
    assert_eq!(station.message(1, 20, &own(), &hit(7)).unwrap_err().refusal, Refusal::AskerClosed);
    station.open(3).unwrap();
    let refused = station.message(1, 30, &own(), &hit(7)).unwrap_err();
    assert_eq!((refused.refusal, refused.used), (Refusal::AskerClosed, 50));

    // The new owner's own queries are answered, and the old number is no way in.
    assert_eq!(station.message(3, 40, &own(), &query(7, "river")).unwrap_err().refusal, Refusal::Repeated);
    station.message(3, 50, &own(), &query(8, "lake")).unwrap();
    assert!(station.message(1, 60, &own(), &hit(8)).unwrap().sent.lines().eq([3]));
    assert_eq!(station.message(1, 70, &own(), &hit(7)).unwrap_err().refusal, Refusal::AskerClosed);
}

#[test]
fn a_number_that_has_left_the_last_512_is_unknown() {
    let mut station = station(&[1, 3]);
    station.message(3, 0, &own(), &query(7, "river")).unwrap();
    station.close(3).unwrap();
    for number in 0..512u16 {
        assert_eq!(station.message(1, 1, &own(), &hit(7)).unwrap_err().refusal, Refusal::AskerClosed);
        let mut bytes = [0; 16];
        bytes[..2].copy_from_slice(&number.to_le_bytes());
        station.ask(bytes, b"lake").unwrap();
    }
    assert_eq!(station.message(1, 2, &own(), &hit(7)).unwrap_err().refusal, Refusal::NotFound);
    assert!(station.in_order());
}
