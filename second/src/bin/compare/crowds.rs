//! Makes runs with 128 frames under way in one direction, the last of them just started.

use second::bench::{Record, MOST_UNDER_WAY};
use second::PRIORITIES;

use crate::random::Random;
use crate::run_under_way::Run;
use crate::settings_record::{self, SettingsRecord};

/// So many records fill a direction: a start, a wait, a refresh and its effect for each frame.
const MOST_RECORDS: usize = 6 * MOST_UNDER_WAY;

/// 128 data frames are under way, none of them of a priority that is paused; one is.
pub fn with_data_under_way(random: &mut Random) -> Run {
    loop {
        let mut run = Run::new(crowdable_settings(random));
        let enabled = random.pick(&run.enabled_priorities());
        make_wanted(&mut run, enabled);
        let pause = [
            Record::StartPfc,
            Record::Wait { n: 84 },
            Record::PfcTakesEffect,
        ];
        add_all(&mut run, &pause);
        let start = start_smallest((enabled + random.between(1, 7) as u8) % 8);
        // The refreshes go on meanwhile, each as late as it may.
        let others = [Record::StartPfc, Record::PfcTakesEffect];
        if fill(&mut run, start, &others, data_under_way) {
            return run;
        }
    }
}

/// 128 PFC frames are under way: one priority is wanted, and each refresh starts one more.
pub fn with_pfc_under_way(random: &mut Random) -> Run {
    loop {
        let mut run = Run::new(crowdable_settings(random));
        let enabled = random.pick(&run.enabled_priorities());
        make_wanted(&mut run, enabled);
        if fill(&mut run, Record::StartPfc, &[], pfc_under_way) {
            return run;
        }
    }
}

fn data_under_way(run: &Run) -> usize {
    run.bench.data_direction().under_way()
}

fn pfc_under_way(run: &Run) -> usize {
    run.bench.request_direction().under_way()
}

/// Paths so long that 128 frames can be under way, rooms so tight that one frame is wanted. PFC is
/// due again while the last PFC frame holds the wire, or only after: I is up to two of its times.
fn crowdable_settings(random: &mut Random) -> SettingsRecord {
    loop {
        let mut settings = settings_record::accepted_small(random);
        // 128 starts, each 168 octet times after the one before, take 172,032 bit times.
        settings.request_path = random.between(180_000, 300_000) as u32;
        settings.data_path = random.between(100_000, 300_000) as u32;
        settings.i = random.between(1, 168) as u32;
        settings.t = 65_535;
        let tight = settings.settings().unwanted_from(&settings.delays()) as u32;
        settings.rooms = [tight; PRIORITIES];
        if settings.settings().accept().is_ok() {
            return settings;
        }
    }
}

/// One frame of this priority arrives, which is enough in rooms so tight.
fn make_wanted(run: &mut Run, priority: u8) {
    let records = [
        start_smallest(priority),
        Record::Wait { n: 84 },
        Record::DataArrives,
    ];
    add_all(run, &records);
}

/// Starts frames and lets none arrive until 128 are under way; the answer is whether they are.
/// The other records are those added where a bound forbids to wait.
fn fill(run: &mut Run, start: Record, others: &[Record], under_way: fn(&Run) -> usize) -> bool {
    for _ in 0..MOST_RECORDS {
        if under_way(run) == MOST_UNDER_WAY {
            return true;
        }
        let n = run.longest_wait().min(84) as u16;
        let added = run.add(start)
            || (n > 0 && run.add(Record::Wait { n }))
            || others.iter().any(|&other| run.add(other));
        if !added {
            return false;
        }
    }
    false
}

fn start_smallest(priority: u8) -> Record {
    Record::StartData {
        priority,
        length: 64,
    }
}

fn add_all(run: &mut Run, records: &[Record]) {
    for &record in records {
        run.add(record);
    }
}
