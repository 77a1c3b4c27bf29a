//! Room watching at B: the two edges of the wanted mark, and rooms apart from each other.

mod common;

use common::{small, Given};
use second::recorder::Recorder;
use second::units::OctetTimes;

/// Priorities 0 and 1 enabled, hysteresis 10: wanted below 326, no longer from 336 on.
fn recorder() -> Recorder {
    let given = Given {
        enabled: 0x03,
        hysteresis: 10,
        rooms: [400; 8],
        ..small()
    };
    let settings = given.settings();
    Recorder::new(&settings, &settings.accept().unwrap())
}

const NOW: OctetTimes = OctetTimes(1);

#[test]
fn the_mark_rises_below_headroom_and_m_and_falls_at_the_hysteresis() {
    let mut recorder = recorder();
    // Free room falls: 336, 326, 325.
    for (length, free, wanted) in [(64, 336, false), (10, 326, false), (1, 325, true)] {
        recorder.arrive(0, length, NOW);
        assert_eq!(recorder.room(0).free(), free);
        assert_eq!(recorder.room(0).wanted, wanted, "free {free}");
    }
    // It rises again: 326, 335, 336.
    for (octets, free, wanted) in [(1, 326, true), (9, 335, true), (1, 336, false)] {
        recorder.take(0, octets, NOW).unwrap();
        assert_eq!(recorder.room(0).free(), free);
        assert_eq!(recorder.room(0).wanted, wanted, "free {free}");
    }
    // And falls once more without reaching the mark.
    recorder.arrive(0, 10, NOW);
    assert!(!recorder.room(0).wanted);
}

#[test]
fn only_a_change_of_a_mark_makes_pfc_due() {
    let mut recorder = recorder();
    recorder.arrive(0, 74, OctetTimes(5));
    assert_eq!(recorder.due_since(), None);
    recorder.arrive(0, 1, OctetTimes(6));
    assert_eq!(recorder.due_since(), Some(OctetTimes(6)));
    recorder.start_pfc(OctetTimes(7));
    recorder.arrive(0, 1, OctetTimes(8));
    recorder.take(0, 1, OctetTimes(9)).unwrap();
    assert_eq!(recorder.due_since(), None);
    // Still wanted, so the refresh comes I = 100 after the start.
    assert_eq!(recorder.refresh_moment(), Some(OctetTimes(107)));
}

#[test]
fn each_priority_has_its_own_room() {
    let mut recorder = recorder();
    recorder.arrive(1, 75, NOW);
    assert!(recorder.room(1).wanted);
    assert!(!recorder.room(0).wanted);
    assert_eq!(recorder.room(0).held, 0);
    assert_eq!(recorder.start_pfc(NOW).times[..3], [0, 65_535, 0]);
    recorder.arrive(2, 75, NOW);
    assert_eq!(recorder.room(2).held, 0);
    assert!(!recorder.room(2).wanted);
}
