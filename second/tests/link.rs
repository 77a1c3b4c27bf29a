//! The link of document 02's L1: its numbers, what it owes over every cable that is accepted, and
//! how far it lies from what document 01 had before.

mod common;

use common::{bare_inputs, number};
use second::headroom::{calculate, Inputs};
use second::order::{with_pairs_met, Line, Pair};
use second::slips::{with_slip, Slip};
use second::units::BitTimes;

const RATES: [u64; 3] = [10_000, 40_000, 100_000];
const LONGEST_PATH: u64 = 134_217_728;

/// A cable with nothing beside it that takes time but the frames.
fn cable(metres: u64, rate: u64, percentage: u64) -> Inputs {
    Inputs {
        rate,
        metres,
        percentage,
        ..bare_inputs()
    }
}

fn link(metres: u64, rate: u64, percentage: u64) -> u64 {
    calculate(&cable(metres, rate, percentage)).unwrap().link.0
}

/// Document 01 before L1: "metres × rate × 100 / (percentage × 300), rounded up".
fn link_by_300(metres: u64, rate: u64, percentage: u64) -> u64 {
    (metres * rate * 100).div_ceil(percentage * 300)
}

/// The links of every length at one rate and percentage, from 0 metres up.
fn links(rate: u64, percentage: u64) -> Vec<u64> {
    (0..=100_000)
        .map(|metres| link(metres, rate, percentage))
        .collect()
}

#[test]
fn links_with_the_figures_before() {
    for (metres, rate, percentage, before, bits) in [
        (100, 10_000, 60, 5_556, 5_560),
        (1, 10_000, 60, 56, 56),
        (0, 10_000, 60, 0, 0),
        (80_000, 10_000, 67, 3_980_100, 3_982_855),
        (100_000, 100_000, 40, 83_333_334, 83_391_024),
        (100_000, 10_000, 100, 3_333_334, 3_335_641),
        // The shortest cables whose bits change at each rate, and neighbours whose bits do not.
        (2, 10_000, 46, 145, 146),
        (2, 10_000, 47, 142, 142),
        (1, 40_000, 46, 290, 291),
        (1, 40_000, 45, 297, 297),
        (1, 100_000, 42, 794, 795),
        (1, 100_000, 40, 834, 834),
        // The longest cable whose bits do not change, and a metre more.
        (38, 10_000, 93, 1_363, 1_363),
        (39, 10_000, 93, 1_398, 1_399),
        // The quotients nearest above and below whole bits: 1,775,856.0000002 and
        // 3,384,610.99999997.
        (45_253, 10_000, 85, 1_774_628, 1_775_857),
        (47_690, 10_000, 47, 3_382_270, 3_384_611),
        // 83,388,522.07: 299,792,459 in place of 299,792,458 would give a bit less.
        (99_997, 100_000, 40, 83_330_834, 83_388_523),
    ] {
        let of = format!("{metres} m at {rate} and {percentage} %");
        assert_eq!(link(metres, rate, percentage), bits, "{of}");
        assert_eq!(link_by_300(metres, rate, percentage), before, "{of}");
    }
}

/// What each way to get it wrong makes of the numbers above.
#[test]
fn a_wrong_link_shows_in_the_numbers_of_l1() {
    for (slip, (metres, percentage), wrong) in [
        (Slip::LightAt300, (100, 60), 5_556),
        // 8 × 10^16 / (67 × 299,792,000) = 3,982,860.95.
        (Slip::LightCutShort, (80_000, 67), 3_982_861),
        // 60 hundredths of 3,335.6.
        (Slip::PercentageOnWrongSide, (100, 60), 2_002),
        (Slip::LinkBitsRoundedDown, (100, 60), 5_559),
        (Slip::LinkBitsOneMore, (0, 60), 1),
    ] {
        let bits = with_slip(slip, || link(metres, 10_000, percentage));
        assert_eq!(bits, wrong, "{}", slip.text());
        assert_ne!(bits, link(metres, 10_000, percentage), "{}", slip.text());
    }
}

/// "metres × rate × 100,000,000 / (percentage × 299,792,458), rounded up": the fewest bits that
/// times the divisor are not below the dividend.
#[test]
fn every_link_is_the_fewest_bits_that_cover_the_quotient() {
    for rate in RATES {
        for percentage in 40..=100 {
            let divisor = u128::from(percentage) * 299_792_458;
            for (metres, bits) in (0u128..).zip(links(rate, percentage)) {
                let dividend = metres * u128::from(rate) * 100_000_000;
                let covered = u128::from(bits) * divisor;
                let is_fewest = covered >= dividend && covered < dividend + divisor;
                assert!(is_fewest, "{metres} m at {rate} and {percentage} %: {bits}");
            }
        }
    }
}

/// The law of L1 over every accepted cable: never below the figure before, at most one in 1,400
/// above it and one bit; it rises with the metres and falls with the percentage, which a fraction
/// the wrong way up would not.
#[test]
fn every_link_keeps_the_law() {
    for rate in RATES {
        let mut of_slower = links(rate, 40);
        for percentage in 40..=100 {
            let bits = links(rate, percentage);
            for metres in 0..=100_000 {
                let of = || format!("{metres} m at {rate} and {percentage} %");
                let new = bits[metres];
                let old = link_by_300(metres as u64, rate, percentage);
                assert!(new >= old, "{}: {new} below {old}", of());
                assert!(new <= old + old / 1_400 + 1, "{}: {new}, {old}", of());
                assert!(metres == 0 || new > bits[metres - 1], "{}", of());
                assert!(new <= of_slower[metres], "{}", of());
            }
            of_slower = bits;
        }
        // The fall is a fall: from 40 to 100 per cent the bits go down wherever there is a cable.
        let of_slowest = links(rate, 40);
        assert!((1..=100_000).all(|metres| of_slower[metres] < of_slowest[metres]));
    }
}

#[test]
fn beyond_38_metres_every_link_has_more_bits_than_before() {
    for rate in RATES {
        for percentage in 40..=100 {
            for metres in (39..2_000).chain((2_000..=100_000).step_by(97)) {
                let of = format!("{metres} m at {rate} and {percentage} %");
                let old = link_by_300(metres, rate, percentage);
                assert!(link(metres, rate, percentage) > old, "{of}");
            }
        }
    }
}

/// 14 tries the request path with the new link in it; halt, which brings it there, gives 19.
#[test]
fn a_request_path_at_its_limit_by_the_new_link() {
    for (metres, rate, percentage) in [
        (80_000, 10_000, 67),
        (1, 40_000, 46),
        (100_000, 40_000, 100),
        (100_000, 100_000, 40),
    ] {
        let delays = 1_048_576 + 7;
        let answer = |link: u64, past: u64| {
            number(calculate(&Inputs {
                b_transmit: BitTimes(1_048_576),
                a_receive: BitTimes(7),
                halt: BitTimes(LONGEST_PATH - delays - link + past),
                ..cable(metres, rate, percentage)
            }))
        };
        let new = link(metres, rate, percentage);
        let old = link_by_300(metres, rate, percentage);
        assert!(old < new);
        assert_eq!(answer(new, 0), 19, "{metres} m");
        assert_eq!(answer(new, 1), 14, "{metres} m");
        // By the old figure this would lie at the limit.
        assert_eq!(answer(old, 0), 14, "{metres} m");
    }
}

#[test]
fn links_of_refused_inputs_are_neither_wrapped_nor_divided_by_0() {
    const WIDE: [u64; 8] = [0, 1, 39, 101, 100_001, 1 << 32, 1 << 63, u64::MAX];
    for metres in WIDE {
        for rate in WIDE.into_iter().chain(RATES) {
            for percentage in WIDE.into_iter().chain([40, 100]) {
                let of = format!("{metres} m at {rate} and {percentage} %");
                let inputs = cable(metres, rate, percentage);
                let bits = inputs.link().0;
                // Whether it is past every path, worked out without a wide product.
                let share = metres as f64 * rate as f64 / percentage as f64 / 2.997_924_58;
                if percentage == 0 {
                    assert_eq!(bits, 0, "{of}");
                } else {
                    assert_eq!(bits > LONGEST_PATH, share > LONGEST_PATH as f64, "{of}");
                }
                if !RATES.contains(&rate) {
                    assert_eq!(number(calculate(&inputs)), 10, "{of}");
                }
            }
        }
    }
    // Where 14 holds besides, which a wrapped product would hide.
    for (earlier, inputs) in [
        (10, cable(100_000, u64::MAX, 40)),
        (10, cable(100_000, 1 << 40, 100)),
        (11, cable(u64::MAX, 10_000, 100)),
        (11, cable(1 << 40, 100_000, 40)),
        (12, cable(100_000, 100_000, 1)),
    ] {
        let (answer, met) = with_pairs_met(|| number(calculate(&inputs)));
        let pair = Pair {
            line: Line::Headroom,
            earlier,
            later: 14,
        };
        assert_eq!(answer, earlier);
        assert!(met.contains(&pair), "{inputs:?}");
    }
}
