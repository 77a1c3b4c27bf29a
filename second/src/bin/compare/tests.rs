//! Tests of the comparison itself: its inputs are what they claim, and it notices and shrinks.

use second::bench::{run, LONGEST_INPUT};
use second::hex::octets_of_text;
use second::order::with_pairs_met;
use second::refusal::Refusal;
use second::slips::Slip;
use second::vectors::cases;

use crate::bench_inputs::{make, record_starts, BenchKind, REACHABLE_REFUSALS};
use crate::both_hold::bench_pairs;
use crate::commented::commented;
use crate::comparison::{compare, make_run};
use crate::other::{Other, SlippedLibrary};
use crate::random::Random;
use crate::shrink::shrink;
use crate::tally::{Tally, LOWERING_SLIPS};
use crate::vector_inputs::make_file;

#[test]
fn the_same_seed_gives_the_same_runs() {
    let input = |seed| make(&mut Random::of_run(seed, 3), BenchKind::DeepRun);
    assert_eq!(input(1), input(1));
    assert_ne!(input(1), input(2));
}

#[test]
fn runs_that_should_be_accepted_are() {
    for seed in 0..20 {
        for kind in [BenchKind::DeepRun, BenchKind::LatestRun] {
            let input = make(&mut Random::new(seed), kind);
            assert_eq!(run(&input).refusal, None, "seed {seed}, {kind:?}");
        }
    }
}

#[test]
fn no_run_drops_a_frame_or_passes_the_headroom() {
    let mut tally = Tally::default();
    for seed in 0..60 {
        for kind in [BenchKind::DeepRun, BenchKind::LatestRun] {
            tally.count_bench(kind, &make(&mut Random::new(seed), kind));
        }
    }
    assert_eq!(tally.promise_broken, 0);
}

#[test]
fn runs_refused_on_purpose_reach_their_number() {
    for number in REACHABLE_REFUSALS {
        for seed in 0..6 {
            let mut random = Random::new(seed);
            let input = make(&mut random, BenchKind::RefusedLast(number));
            let reached = run(&input).refusal.map(Refusal::number);
            assert_eq!(reached, Some(number), "seed {seed}");
        }
    }
}

#[test]
fn inputs_made_for_a_pair_meet_it() {
    for pair in bench_pairs() {
        for seed in 0..3 {
            let input = make(&mut Random::new(seed), BenchKind::BothHold(pair));
            let (report, met) = with_pairs_met(|| run(&input));
            assert!(met.contains(&pair), "{pair:?}, seed {seed}");
            let given = report.refusal.map(Refusal::number);
            assert_eq!(given, Some(pair.earlier), "{pair:?}, seed {seed}");
        }
    }
}

#[test]
fn full_and_too_long_inputs_have_their_lengths() {
    let length = |kind| make(&mut Random::new(1), kind).len();
    assert_eq!(length(BenchKind::Full), LONGEST_INPUT);
    assert_eq!(length(BenchKind::TooLong), LONGEST_INPUT + 1);
    assert_eq!(length(BenchKind::Empty), 0);
}

#[test]
fn vector_files_stay_under_900_000_octets_and_hold_their_cases() {
    for seed in 0..30 {
        let (file, kinds) = make_file(&mut Random::new(seed));
        assert!(file.len() < 900_000);
        assert_eq!(cases(&file).count(), kinds.len());
    }
}

/// The tally of a few vector files.
fn tally_of_files() -> Tally {
    let mut tally = Tally::default();
    for seed in 0..10 {
        let (file, kinds) = make_file(&mut Random::new(seed));
        tally.count_vectors(&kinds, &file);
    }
    tally
}

#[test]
fn head_cases_tell_one_stroke_from_what_is_nearly_that() {
    let tally = tally_of_files();
    let cases = tally.count_of("vector, the head");
    assert!(cases > 0);
    for (count, slip) in tally.otherwise_lowered.into_iter().zip(LOWERING_SLIPS) {
        let one_in = match slip {
            // Needs a timer of 65,535 and no count after the one that leaves 1 of it.
            Slip::CountStopsAt65534 => 30,
            Slip::CountCutTo32Bits => 20,
            Slip::TimerAtCountKept => 10,
            Slip::CountCutTo16Bits => 6,
            _ => 2,
        };
        let what = slip.text();
        assert!(count * one_in > cases, "{what}: {count} of {cases}");
    }
}

#[test]
fn headroom_cases_tell_light_from_300_metres_per_microsecond() {
    let tally = tally_of_files();
    let cases = tally.count_of("vector, headroom");
    assert!(cases > 0);
    // Most by the bits; by the refusal, and with a path at its limit, not just here and there.
    for (what, count, one_in) in [
        ("other bits", tally.other_link, 2),
        ("another refusal", tally.other_refusal, 20),
        ("a path near its limit", tally.path_near_limit, 20),
    ] {
        assert!(count * one_in > cases, "{what}: {count} of {cases}");
    }
}

#[test]
fn commented_text_reads_back_as_the_input() {
    for seed in 0..10 {
        let input = make(&mut Random::new(seed), BenchKind::DamagedRun);
        let text = commented(&input);
        assert_eq!(octets_of_text(text.as_bytes()), Ok(input));
    }
}

#[test]
fn shrinking_leaves_what_a_difference_needs() {
    let input = make(&mut Random::new(4), BenchKind::DeepRun);
    // Stands for a difference seen wherever a wait of at least 5 octet times is left.
    let needs = |input: &[u8]| {
        let starts = record_starts(input);
        let mut records = starts.windows(2).map(|pair| &input[pair[0]..pair[1]]);
        records.any(|record| matches!(*record, [1, a, b] if u16::from_be_bytes([a, b]) >= 5))
    };
    assert!(needs(&input));
    assert_eq!(shrink(&input, needs), [1, 0, 5]);
}

#[test]
fn a_slip_is_noticed_shrunk_and_shown() {
    let mut other = SlippedLibrary(Slip::MarkAtHeadroom);
    let mut tally = Tally::default();
    let mut difference = (0..100)
        .find_map(|run| compare(&mut other, &make_run(1, run), &mut tally))
        .expect("it shows in the first runs");
    let records = difference.shrink(&mut other).expect("it is a bench input");
    assert!(records <= 12, "{records} records");
    let text = difference.text(&mut other);
    let hex_lines = text.lines().skip(1).take_while(|line| *line != "ours:");
    let hex: String = hex_lines.map(|line| format!("{line}\n")).collect();
    let input = octets_of_text(hex.as_bytes()).expect("what is shown can be fed again");
    assert_ne!(
        other.bench(&input),
        Ok(run(&input).to_string().into_bytes())
    );
}
