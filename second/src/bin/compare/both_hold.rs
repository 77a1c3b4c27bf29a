//! Makes inputs whose last record is refused where two of its order line hold: the order decides.

use second::bench::{run, Record};
use second::order::{with_pairs_met, Line, Pair, ALL_LINES};

use crate::bench_inputs::{
    cut_first_record, refused_form, some_settings, too_long, without_settings,
};
use crate::crowds::{with_data_under_way, with_pfc_under_way};
use crate::random::Random;
use crate::run_under_way::Run;
use crate::settings_record;

/// Every pair that an input of the bench can meet; vector files meet the others.
pub fn bench_pairs() -> Vec<Pair> {
    let of_bench = |line: &Line| *line >= Line::Settings;
    let lines = ALL_LINES.into_iter().filter(of_bench);
    lines.flat_map(Line::pairs).collect()
}

/// An input that meets this pair.
pub fn make(random: &mut Random, pair: Pair) -> Vec<u8> {
    loop {
        let input = match pair.line {
            Line::Settings => settings_record::near_limits(random).octets(),
            Line::Records => records(random, pair),
            _ => match step(random, pair) {
                Some(input) => return input,
                None => continue,
            },
        };
        if meets(pair, || run(&input)) {
            return input;
        }
    }
}

fn meets<T>(pair: Pair, work: impl FnOnce() -> T) -> bool {
    with_pairs_met(work).1.contains(&pair)
}

/// An input that may meet a pair of the order line of records.
fn records(random: &mut Random, pair: Pair) -> Vec<u8> {
    if pair.earlier == 45 {
        return too_long(random);
    }
    match random.between(0, 2) {
        0 => without_settings(random),
        1 => cut_first_record(random),
        _ => refused_form(random, 44),
    }
}

/// A run whose last record meets the pair, if one is found.
fn step(random: &mut Random, pair: Pair) -> Option<Vec<u8>> {
    let mut run = match (pair.line, pair.later) {
        (Line::Kind02, 36) => with_data_under_way(random),
        (_, 36) => with_pfc_under_way(random),
        _ => Run::new(some_settings(random)),
    };
    for _ in 0..60 {
        if let Some(record) = record_that_meets(random, &run, pair) {
            let mut input = run.input;
            record.write_to(&mut input);
            return Some(input);
        }
        go_on_towards(random, &mut run, pair);
    }
    None
}

fn go_on_towards(random: &mut Random, run: &mut Run, pair: Pair) {
    if pair.later == 36 {
        // All stay under way: the wire becomes free, or PFC due, and nothing else.
        run.wait_to_some_moment(random);
        return;
    }
    let records = random.pick(&[3, 3, 3, 60]);
    run.go_on(random, records);
    let number = random.pick(&[pair.earlier, pair.later]);
    if pair.has(34) && pair.has(38) {
        run.make_busy_past_g(random);
    } else {
        run.bring_to_an_edge(random, number);
    }
}

fn record_that_meets(random: &mut Random, run: &Run, pair: Pair) -> Option<Record> {
    (0..20).find_map(|_| {
        let record = likely(random, run, pair);
        meets(pair, || run.bench.clone().step(record)).then_some(record)
    })
}

/// A record of the pair's kind with the wrong numbers that the pair asks for, the others right.
fn likely(random: &mut Random, run: &Run, pair: Pair) -> Record {
    let priority = if pair.has(32) {
        random.pick(&[8, 9, 0x80, 0xFF])
    } else {
        random.between(0, 7) as u8
    };
    let length = if pair.has(33) {
        run.some_refused_length(random)
    } else {
        run.some_length(random)
    };
    match pair.line {
        Line::Kind02 => Record::StartData { priority, length },
        Line::Kind04 => Record::StartOther { length },
        Line::Kind05 => Record::StartPfc,
        _ => Record::DiskTakes {
            priority,
            octets: random.pick(&[0, 1, 65_535]),
        },
    }
}
