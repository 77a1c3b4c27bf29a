//! Makes vector files: many cases around every limit, packed into one file.

use second::frame::{Address, Request, GROUP_ADDRESS};
use second::head::Head;
use second::headroom::LONGEST_PATH;
use second::units::{Quanta, OCTET_TIMES_PER_QUANTUM};
use second::vectors::headroom_inputs;
use second::PRIORITIES;

use crate::random::Random;
use crate::settings_record;

/// A file is kept to this many octets, but for a cut case at its end.
pub const LARGEST_FILE: usize = 890_000;

/// The kinds of cases; the text is what the counts call them.
#[derive(Clone, Copy, Debug, PartialEq, Eq)]
pub enum CaseKind {
    Reading,
    Building,
    Head,
    Choice,
    Headroom,
    Settings,
    Sender,
    Odd,
}

pub const CASE_KINDS: [CaseKind; 8] = [
    CaseKind::Reading,
    CaseKind::Building,
    CaseKind::Head,
    CaseKind::Choice,
    CaseKind::Headroom,
    CaseKind::Settings,
    CaseKind::Sender,
    CaseKind::Odd,
];

impl CaseKind {
    pub fn text(self) -> &'static str {
        match self {
            CaseKind::Reading => "vector, reading",
            CaseKind::Building => "vector, building",
            CaseKind::Head => "vector, the head",
            CaseKind::Choice => "vector, the choice",
            CaseKind::Headroom => "vector, headroom",
            CaseKind::Settings => "vector, settings",
            CaseKind::Sender => "vector, the sender",
            CaseKind::Odd => "vector, cut short or unknown",
        }
    }
}

/// A file of random size with cases of all kinds, and the kind of each case.
pub fn make_file(random: &mut Random) -> (Vec<u8>, Vec<CaseKind>) {
    let size = if random.once_in(20) {
        LARGEST_FILE
    } else {
        random.between(1_000, 150_000) as usize
    };
    let mut file = Vec::new();
    let mut kinds = Vec::new();
    loop {
        let kind = random.pick(&CASE_KINDS);
        let case = make_case(random, kind);
        if file.len() + case.len() + 2 > size {
            break;
        }
        file.extend(framed(&case));
        kinds.push(kind);
    }
    if random.once_in(4) {
        // A last case that is cut short is no case.
        file.extend(random.pick(&[&[0x00][..], &[0x00, 0x02], &[0x00, 0x05, 0x04, 0x08]]));
    }
    (file, kinds)
}

/// A case with its length in front.
pub fn framed(case: &[u8]) -> Vec<u8> {
    let length = u16::try_from(case.len()).expect("cases are short");
    [&length.to_be_bytes(), case].concat()
}

pub fn make_case(random: &mut Random, kind: CaseKind) -> Vec<u8> {
    match kind {
        CaseKind::Reading => reading(random),
        CaseKind::Building => building(random),
        CaseKind::Head => head(random),
        CaseKind::Choice => choice(random),
        CaseKind::Headroom => headroom(random),
        CaseKind::Settings => settings(random),
        CaseKind::Sender => sender(random),
        CaseKind::Odd => odd(random),
    }
}

fn reading(random: &mut Random) -> Vec<u8> {
    let m = largest_frame(random);
    let own = own_address(random);
    let mut case = vec![0x01];
    case.extend(m.to_be_bytes());
    case.extend(own);
    let length = frame_length(random, m);
    case.extend(some_frame(random, &own, length));
    case
}

/// M, mostly one that is accepted and not so large that the lines grow long.
fn largest_frame(random: &mut Random) -> u64 {
    match random.between(0, 9) {
        0 => random.pick(&[0, 1, 63, 9_217, 65_536, (1 << 32) + 64, u64::MAX]),
        1 => random.pick(&[9_216, 2_000, 1_518]),
        2 => 64,
        3 => random.between(64, 9_216),
        _ => random.between(64, 200),
    }
}

fn own_address(random: &mut Random) -> Address {
    match random.between(0, 5) {
        0 => GROUP_ADDRESS,
        1 => [0xFF; 6],
        _ => std::array::from_fn(|_| random.octet()),
    }
}

fn frame_length(random: &mut Random, m: u64) -> usize {
    let longest = m.clamp(64, 9_216) - 4;
    let length = match random.between(0, 9) {
        0 => random.pick(&[0, 1, 11, 12, 13, 14, 58]),
        1 => 59,
        2 | 3 => 60,
        4 => longest,
        5 => longest + 1,
        6 => longest - 1,
        7 => longest + random.between(0, 6),
        _ => random.between(60, 200),
    };
    length as usize
}

fn some_frame(random: &mut Random, own: &Address, length: usize) -> Vec<u8> {
    let mut frame = destination(random, own).to_vec();
    frame.extend(random.octets(6));
    frame.extend(random.pick(&[
        [0x88, 0x08],
        [0x88, 0x08],
        [0x88, 0x08],
        [0x88, 0x08],
        [0x08, 0x00],
        [0x81, 0x00],
        [0x88, 0x09],
        [0x08, 0x88],
        [0x00, 0x08],
    ]));
    frame.extend(random.pick(&[
        [0x01, 0x01],
        [0x01, 0x01],
        [0x01, 0x01],
        [0x00, 0x01],
        [0x01, 0x00],
        [0x01, 0x02],
        [0x00, 0x00],
    ]));
    let more = length.saturating_sub(frame.len());
    frame.extend(random.octets(more));
    frame.truncate(length);
    frame
}

fn destination(random: &mut Random, own: &Address) -> Address {
    let mut address = match random.between(0, 4) {
        0 | 1 => GROUP_ADDRESS,
        2 | 3 => *own,
        _ => std::array::from_fn(|_| random.octet()),
    };
    // One bit off, now and then.
    if random.once_in(6) {
        address[random.between(0, 5) as usize] ^= 1 << random.between(0, 7);
    }
    address
}

fn building(random: &mut Random) -> Vec<u8> {
    let mut case = vec![0x02];
    let mut source = random.octets(6);
    if !random.once_in(4) {
        source[0] &= 0xFE;
    }
    case.extend(source);
    case.extend(request_octets(&request(random)));
    let length = match random.between(0, 3) {
        0 => random.pick(&[58, 59, 60, 61]),
        1 => random.between(60, 80),
        _ => random.between(0, 80),
    };
    case.extend(random.octets(length as usize));
    case
}

fn request(random: &mut Random) -> Request {
    Request {
        e: random.octet(),
        times: times(random),
    }
}

fn request_octets(request: &Request) -> Vec<u8> {
    [vec![request.e], times_octets(&request.times)].concat()
}

fn times_octets(times: &[u16; PRIORITIES]) -> Vec<u8> {
    times.iter().flat_map(|time| time.to_be_bytes()).collect()
}

/// Eight times, now and then neighbours of one another, so that one count is at, below and above.
fn times(random: &mut Random) -> [u16; PRIORITIES] {
    if !random.once_in(3) {
        return std::array::from_fn(|_| some_time(random));
    }
    let least = random.edge_or_between(&[0, 65_528], 0, 65_528) as u16;
    let first = random.between(0, 7) as u16;
    std::array::from_fn(|n| least + (first + n as u16) % 8)
}

fn some_time(random: &mut Random) -> u16 {
    match random.between(0, 4) {
        0 => random.pick(&[0, 0, 1, 2, 65_534, 65_535, 65_535]),
        1 => random.between(0, 20) as u16,
        2 => random.number2(),
        _ => random.of_any_width(16) as u16,
    }
}

fn head(random: &mut Random) -> Vec<u8> {
    let mut head = Head {
        enabled: random.pick(&[0xFF, 0xFF, 0x00, 0x08]) & random.octet() | random.octet() & 0x55,
        indications: random.pick(&[0, 1, u32::MAX - 1, u32::MAX, 0x1234_5678]),
        timers: times(random),
    };
    let mut case = vec![0x03, head.enabled];
    case.extend(head.indications.to_be_bytes());
    case.extend(times_octets(&head.timers));
    // Few, so that what one count makes of a timer is seen at the end; or many.
    let actions = match random.between(0, 19) {
        0 => random.between(40, 150),
        1..=12 => random.between(1, 3),
        _ => random.between(0, 12),
    };
    for _ in 0..actions {
        case.extend(action(random, &mut head));
    }
    match random.between(0, 5) {
        0 => case.push(random.between(2, 255) as u8),
        1 => {
            let cut = random.between(0, 9) as usize;
            case.truncate((case.len() - cut).max(22));
        }
        _ => (),
    }
    case
}

/// An action, done at this head as well: a count goes by the timers as they stand.
fn action(random: &mut Random, head: &mut Head) -> Vec<u8> {
    if random.once_in(2) {
        let request = request(random);
        head.take_request(&request);
        return [vec![0x00], request_octets(&request)].concat();
    }
    let count = count_of_quanta(random, &head.timers);
    head.pass(Quanta(count));
    [&[0x01], &count.to_be_bytes()[..]].concat()
}

/// A count at one of the timers or beside it, or one that only its bits past the 16 of a timer tell
/// from such a count; small ones, tens of thousands, and those at the end of a width.
fn count_of_quanta(random: &mut Random, timers: &[u16; PRIORITIES]) -> u64 {
    let timer = u64::from(random.pick(timers));
    let beside = random.pick(&[timer.saturating_sub(1), timer, timer + 1]);
    match random.between(0, 9) {
        0..=2 => beside,
        3 | 4 => beside.saturating_add(multiple_of_65536(random)),
        5 => random.pick(&[65_534, 65_535, 65_536, 65_537, u64::MAX - 1, u64::MAX]),
        6 => random.pick(&[0, 1, (1 << 32) - 1, 1 << 32, (1 << 32) + 1]),
        7 => random.between(10_000, 65_535),
        _ => random.between(0, 12),
    }
}

/// 65,536 or more: the next few, any, or those of 2^32, which a cut to 32 bits leaves out as well.
fn multiple_of_65536(random: &mut Random) -> u64 {
    let times = match random.between(0, 2) {
        0 => random.between(1, 4),
        1 => random.of_any_width(48).max(1),
        _ => random.of_any_width(32).max(1) << 16,
    };
    times << 16
}

fn choice(random: &mut Random) -> Vec<u8> {
    let mut class_of: [u8; PRIORITIES] = match random.between(0, 3) {
        0 => std::array::from_fn(|n| n as u8),
        1 => [random.between(0, 7) as u8; PRIORITIES],
        _ => std::array::from_fn(|_| random.between(0, 7) as u8),
    };
    let mut heads: [u8; PRIORITIES] = std::array::from_fn(|class| {
        let of_class: Vec<u8> = (0..PRIORITIES as u8)
            .filter(|&n| usize::from(class_of[usize::from(n)]) == class)
            .collect();
        if of_class.is_empty() || random.once_in(3) {
            return 8;
        }
        random.pick(&of_class)
    });
    for _ in 0..random.pick(&[0, 0, 0, 1, 2]) {
        let place = random.between(0, 7) as usize;
        heads[place] = random.pick(&[0, 3, 7, 8, 9, 255]);
    }
    let place = random.between(0, 7) as usize;
    if random.once_in(6) {
        class_of[place] = random.pick(&[0, 7, 8, 9, 255]);
    }
    let paused = random.octet() & random.pick(&[0xFF, 0xFF, 0x55, 0x00]);
    [&[0x04], &heads[..], &class_of, &[paused]].concat()
}

/// Ten numbers, mostly within their limits, a few on or past one.
fn headroom(random: &mut Random) -> Vec<u8> {
    let mut numbers = [0u64; 10];
    numbers[0] = random.pick(&[10_000, 40_000, 100_000]);
    numbers[1] = metres(random);
    numbers[2] = match random.between(0, 2) {
        0 => random.pick(&[40, 60, 66, 67, 99, 100]),
        _ => random.between(40, 100),
    };
    numbers[3] = random.edge_or_between(&[64, 65, 2_000, 9_215, 9_216], 64, 9_216);
    for delay in &mut numbers[4..9] {
        *delay = random.edge_or_between(&[0, 1, 7, 8, 1_048_575, 1_048_576], 0, 50_000);
    }
    let halt_limit = numbers[0] * 6_144 / 10_000;
    numbers[9] = random.edge_or_between(&[0, halt_limit], 0, halt_limit);
    if random.once_in(5) {
        bring_path_to_its_limit(random, &mut numbers);
    } else {
        for _ in 0..random.pick(&[0, 0, 1, 2, 2]) {
            spoil(random, &mut numbers, halt_limit);
        }
    }
    headroom_case(&numbers)
}

fn headroom_case(numbers: &[u64; 10]) -> Vec<u8> {
    let mut case = vec![0x05];
    case.extend(numbers.iter().flat_map(|number| number.to_be_bytes()));
    case
}

fn spoil(random: &mut Random, numbers: &mut [u64; 10], halt_limit: u64) {
    let field = random.between(0, 10) as usize;
    let edges: &[u64] = match field {
        0 => &[0, 9_999, 10_001, 25_000, 1_000, (1 << 32) + 10_000],
        1 => &[100_001, 1 << 32, u64::MAX],
        2 => &[0, 39, 101, (1 << 32) + 60, u64::MAX],
        3 => &[0, 63, 9_217, (1 << 32) + 64, u64::MAX],
        4..=8 => &[1_048_577, 1 << 32, u64::MAX, u64::MAX - 1_048_575],
        9 => &[1_048_577, 134_217_728, 134_217_729, 1 << 32, u64::MAX],
        _ => &[],
    };
    if !edges.is_empty() {
        numbers[field] = random.pick(edges);
        return;
    }
    // The halt delay just past its limit, or the request path just at or past its own.
    numbers[9] = halt_limit + 1;
    if random.once_in(2) {
        bring_path_to_its_limit(random, numbers);
    }
}

/// Cables of every length: up to 38 metres the link can have as many bits by light at 300 metres
/// per microsecond, beyond that it never has.
fn metres(random: &mut Random) -> u64 {
    match random.between(0, 4) {
        0 => random.pick(&[0, 0, 1, 2, 3, 99_999, 100_000]),
        1 => random.between(0, 40),
        2 => random.between(0, 2_000),
        _ => random.between(0, 100_000),
    }
}

/// A halt delay, above its own limit, with which the request path is at its limit, a bit or two
/// beside it, or so far past it that with a link of too few bits it would not be.
fn bring_path_to_its_limit(random: &mut Random, numbers: &mut [u64; 10]) {
    numbers[9] = 0;
    let inputs = headroom_inputs(&headroom_case(numbers)).expect("the case is whole");
    let without_halt = inputs.request_path(inputs.link()).0;
    let past = random.pick(&[-2, -1, 0, 0, 0, 1, 1, 1, 2, 3, 10, 100]);
    let path = LONGEST_PATH.0.saturating_add_signed(past);
    // Delays that are refused on their own can be longer than that already.
    numbers[9] = path.saturating_sub(without_halt);
}

fn settings(random: &mut Random) -> Vec<u8> {
    let record = if random.once_in(3) {
        settings_record::accepted(random)
    } else {
        settings_record::near_limits(random)
    };
    let mut given = record.settings();
    // What only the wider fields of a vector can hold; a wrap to 32 bits would hide it.
    if random.once_in(6) {
        let wide = random.pick(&[
            1 << 32,
            1 << 33,
            u64::MAX,
            u64::MAX - OCTET_TIMES_PER_QUANTUM,
        ]);
        let n = random.between(0, 7) as usize;
        match random.between(0, 6) {
            0 => given.largest_frame |= wide,
            1 => given.generation.0 |= wide,
            2 => given.request_path.0 |= wide,
            3 => given.data_path.0 |= wide,
            4 => given.refresh.0 |= wide,
            5 => given.hysteresis |= wide,
            _ => given.rooms[n] |= wide,
        }
    }
    let mut case = vec![0x06, given.enabled];
    let front = [
        given.largest_frame,
        given.generation.0,
        given.request_path.0,
        given.data_path.0,
    ];
    case.extend(front.iter().flat_map(|number| number.to_be_bytes()));
    case.extend(given.pause_time.to_be_bytes());
    let back = [given.refresh.0, given.hysteresis];
    let numbers = back.iter().chain(&given.rooms);
    case.extend(numbers.flat_map(|number| number.to_be_bytes()));
    case
}

fn sender(random: &mut Random) -> Vec<u8> {
    let control = random.edge_or_between(&[0, 1, 58, 59, 60, 60, 61], 0, 80) as u16;
    let data = random.edge_or_between(&[0, 0, 1, 60], 0, 200) as u16;
    let mut case = vec![0x08, random.pick(&[0, 0, 1, 1, 2, 255])];
    case.extend(control.to_be_bytes());
    case.extend(data.to_be_bytes());
    let octets = usize::from(control) + usize::from(data);
    let lent = match random.between(0, 7) {
        0 => octets.saturating_sub(1),
        1 => octets + 3,
        _ => octets,
    };
    case.extend(random.octets(lent));
    case
}

/// A case of an unknown kind, cut short, or with octets to spare.
fn odd(random: &mut Random) -> Vec<u8> {
    let kind = random.pick(&CASE_KINDS[..7]);
    let mut case = make_case(random, kind);
    match random.between(0, 4) {
        0 => case.truncate(random.between(0, case.len() as u64) as usize),
        1 => case[0] = random.pick(&[0x00, 0x07, 0x09, 0x10, 0xFF]),
        2 => case.truncate(1),
        3 => {
            let spare = random.octets(5);
            case.extend(spare);
        }
        _ => case.truncate(random.pick(&[0, 5, 14, 15, 17, 18, 21, 22, 23, 24, 80, 81, 115, 116])),
    }
    case
}
