//! Random cases: mostly valid, often at a limit, sometimes far outside.

use crate::cases::{Call, Case};
use crate::families::{Family, FAMILIES};
use crate::lists::Lists;
use crate::random::Random;
use crate::reference::limits::{MAX_BOUND, MAX_CAPACITY, MAX_FILE_BYTES, MAX_FRAMES, MAX_HARVEST, NO_UPPER_END};
use crate::reference::wordfile::file_bytes;
use crate::reference::Reference;
use energy::{Energy, Figures, Frames, Present, Shift, Terms, Totals, LISTING_BYTES};

/// How many frames: mostly few, now and then a day, seldom at the limit.
fn frames(random: &mut Random) -> usize {
    match random.up_to(999) {
        0 => MAX_FRAMES + 1 - random.up_to(2) as usize,
        1..=9 => 0,
        10..=12 => 100 + random.up_to(MAX_FRAMES as u64 - 100) as usize,
        13..=29 => 30 + random.up_to(70) as usize,
        30..=159 => 10 + random.up_to(20) as usize,
        _ => 1 + random.up_to(9) as usize,
    }
}

/// The largest harvest of a list.
fn magnitude(random: &mut Random) -> u32 {
    *random.pick(&[1, 3, 10, 30, 1_000, MAX_HARVEST])
}

/// Harvests of any family, now and then with one at or above the limit.
fn harvest(frames: usize, random: &mut Random) -> Vec<u32> {
    let most = magnitude(random);
    let family: Family = *random.pick(&FAMILIES);
    let mut list = match random.up_to(3) {
        0 => family.harvest(frames, most, random),
        1 => (0..frames)
            .map(|_| if random.one_in(3) { random.up_to_u32(most) } else { 0 })
            .collect(),
        _ => random.list(frames, most),
    };
    if frames > 0 && random.one_in(12) {
        let place = random.up_to(frames as u64 - 1) as usize;
        list[place] = *random.pick(&[MAX_HARVEST, MAX_HARVEST + 1, 1 << 30, u32::MAX]);
    }
    list
}

/// A number near a limit, or any at all.
fn near(limit: u32, random: &mut Random) -> u32 {
    match random.up_to(3) {
        0 => limit,
        1 => limit.saturating_add(1),
        2 => limit.saturating_sub(1),
        _ => random.bits() as u32,
    }
}

/// Figures for the harvests: mostly valid and within reach.
fn figures(harvest: &[u32], random: &mut Random) -> Figures {
    let all: u64 = harvest.iter().map(|&h| u64::from(h.min(MAX_HARVEST))).sum();
    let some = all.min(u64::from(MAX_CAPACITY) / 2) as u32;
    let capacity = match random.up_to(9) {
        0 => 0,
        1 => near(MAX_CAPACITY, random),
        2 => MAX_CAPACITY,
        3..=5 => random.up_to_u32(some),
        _ => random.up_to_u32(some / 4 + 3),
    };
    let part = |random: &mut Random| match random.up_to(19) {
        0 => near(capacity, random),
        1 | 2 => capacity,
        3..=5 => 0,
        6..=9 => random.up_to_u32(capacity),
        _ => random.up_to_u32(capacity.min(some / 2 + 1)),
    };
    Figures {
        capacity,
        start: part(random),
        end: part(random),
    }
}

/// A request of so many frames: mostly valid and within reach, with bounds or without.
fn request(frames: usize, random: &mut Random) -> (Figures, Lists) {
    let harvest = harvest(frames, random);
    let figures = figures(&harvest, random);
    let mut lists = Lists::unbounded(harvest);
    bound(figures, &mut lists, random);
    (figures, lists)
}

/// Bounds of every sort: none, scattered ones, such around the plan, and now and then one at its limit or a bad one.
fn bound(figures: Figures, lists: &mut Lists, random: &mut Random) {
    match random.up_to(9) {
        0..=2 => {}
        3 | 4 => bound_around_plan(figures, lists, random),
        _ => scatter_bounds(figures, lists, random),
    }
    if lists.count() > 0 && random.one_in(10) {
        let place = random.up_to(lists.count() as u64 - 1) as usize;
        bound_at_limit(&mut lists.least[place], &mut lists.most[place], random);
    }
}

/// Leasts and mosts in some of the frames, up to a share of what there is for each; some frames are bound to one budget.
fn scatter_bounds(figures: Figures, lists: &mut Lists, random: &mut Random) {
    let all: u64 = lists.harvest.iter().map(|&h| u64::from(h)).sum();
    let mean = (u64::from(figures.start) + all) / lists.count().max(1) as u64;
    let share = mean.min(u64::from(MAX_BOUND) / 4) as u32;
    let (low, high) = (*random.pick(&[0, share / 2, share, share * 2]), share * 2 + 1);
    let (leasts, mosts) = (*random.pick(&[1, 3, 6]), *random.pick(&[1, 2, 4]));
    for (least, most) in lists.least.iter_mut().zip(&mut lists.most) {
        if random.one_in(leasts) {
            *least = random.up_to_u32(low);
        }
        if random.one_in(mosts) {
            *most = *least + random.up_to_u32(high);
        }
        if random.one_in(16) {
            *most = *least;
        }
    }
}

/// Leasts and mosts at the budgets of the plan without bounds, or one beside them.
fn bound_around_plan(figures: Figures, lists: &mut Lists, random: &mut Random) {
    let mut plan = vec![0; lists.count()];
    // A refusal leaves zeros, which are as good a list as any.
    let _ = Reference.plan(figures, lists.frames(), &mut plan);
    let (away, leasts, mosts) = (random.up_to_u32(3), random.one_in(2), random.one_in(2));
    for (i, &budget) in plan.iter().enumerate() {
        if leasts && random.one_in(2) {
            lists.least[i] = (budget + u32::from(random.one_in(9))).saturating_sub(random.up_to_u32(away));
        }
        if mosts && random.one_in(2) {
            lists.most[i] = lists.least[i].max(budget.saturating_sub(1) + random.up_to_u32(away));
        }
    }
}

/// Puts one bound of a frame at or above its limit, or the least above the most.
fn bound_at_limit(least: &mut u32, most: &mut u32, random: &mut Random) {
    match random.up_to(6) {
        0 => *least = MAX_BOUND + random.up_to_u32(1),
        1 => *most = MAX_BOUND + random.up_to_u32(1),
        2 => *most = *random.pick(&[1 << 30, NO_UPPER_END - 1, NO_UPPER_END]),
        3 => *least = *random.pick(&[1 << 30, NO_UPPER_END - 1, NO_UPPER_END]),
        4 => (*least, *most) = (random.bits() as u32, random.bits() as u32),
        _ => {
            *most = random.up_to_u32(9);
            *least = *most + 1;
        }
    }
}

/// Now and then a wrong length for one of the lists of bounds.
fn lend(lists: &mut Lists, random: &mut Random) {
    let least = length(lists.least.len(), random);
    lists.least.resize(least, 0);
    let most = length(lists.most.len(), random);
    lists.most.resize(most, NO_UPPER_END);
}

/// The right length, or now and then a wrong one.
fn length(right: usize, random: &mut Random) -> usize {
    match random.up_to(39) {
        0 => right + 1,
        1 => right.saturating_sub(1),
        2 => random.up_to(3) as usize,
        _ => right,
    }
}

/// A list of budgets to trace or grade: a plan, a changed plan, or any numbers.
fn budgets(figures: Figures, harvest: &[u32], random: &mut Random) -> Vec<u32> {
    let count = length(harvest.len(), random);
    let mut list = vec![0; count];
    let most = magnitude(random);
    match random.up_to(3) {
        0 => list = random.list(count, u32::MAX),
        1 => list = random.list(count, most),
        _ => {
            // A refusal leaves zeros, which are as good a list as any.
            let _ = Reference.plan(figures, Frames::unbounded(harvest), &mut list);
            if count > 0 && random.one_in(2) {
                let place = random.up_to(count as u64 - 1) as usize;
                list[place] = list[place].wrapping_add(random.up_to_u32(2)).wrapping_sub(1);
            }
        }
    }
    list
}

/// A call on a shift's record, given the lists that it was started from.
fn call(shift: &Shift, started: &Lists, random: &mut Random) -> Call {
    let next = started.harvest.get(shift.now.recorded as usize).copied().unwrap_or(0);
    match random.up_to(9) {
        0..=2 => rest(shift, started, random),
        3 => Call::Part {
            budgets: length(started.count(), random),
        },
        _ => {
            let harvest = match random.up_to(9) {
                0 => near(MAX_HARVEST, random),
                1 | 2 => random.up_to_u32(next.saturating_mul(2).min(MAX_HARVEST)),
                _ => next,
            };
            let have = u64::from(shift.now.charge) + u64::from(harvest);
            let used = match random.up_to(9) {
                0 => have + random.up_to(2),
                1 => random.bits() & 0xffff_ffff,
                2 | 3 => have,
                4 => 0,
                _ => random.up_to(have),
            };
            Call::Record {
                harvest,
                used: used.min(u32::MAX.into()) as u32,
            }
        }
    }
}

/// Planning the rest with the lists of the start, or with other harvests or other bounds.
fn rest(shift: &Shift, started: &Lists, random: &mut Random) -> Call {
    let mut lists = started.clone();
    if random.one_in(3) {
        lists.harvest = harvest(lists.count(), random);
    }
    if random.one_in(3) {
        let now = Figures {
            capacity: shift.terms.capacity,
            start: shift.now.charge,
            end: shift.terms.end,
        };
        lists = Lists::unbounded(lists.harvest);
        bound(now, &mut lists, random);
    }
    lend(&mut lists, random);
    let harvests = length(lists.count(), random);
    lists.harvest.resize(harvests, 5);
    Call::Rest {
        lists,
        budgets: length(started.count(), random),
    }
}

/// A shift from its start, with calls that go past its last frame.
fn run(random: &mut Random) -> Case {
    let (figures, mut lists) = request(frames(random).min(100), random);
    lend(&mut lists, random);
    let mut calls = Vec::new();
    if let Ok(mut shift) = Reference.shift_start(figures, lists.frames()) {
        for _ in 0..random.up_to(2 * lists.count() as u64 + 3) {
            let call = call(&shift, &lists, random);
            if let Call::Record { harvest, used } = call {
                shift = Reference.shift_record(shift, harvest, used).unwrap_or(shift);
            }
            calls.push(call);
        }
    }
    Case::Run { figures, lists, calls }
}

/// One call on a record: a good one, one with a field changed, a balanced one with an impossible history, or any.
fn on(random: &mut Random) -> Case {
    let (figures, lists) = request(1 + frames(random).min(30), random);
    let count = lists.count();
    let mut shift = Reference
        .shift_start(figures, lists.frames())
        .unwrap_or_else(|_| balanced(count, random));
    for &h in lists.harvest.iter().take(random.up_to(count as u64) as usize) {
        let used = random.up_to(u64::from(shift.now.charge) + u64::from(h)) as u32;
        shift = Reference.shift_record(shift, h, used).unwrap_or(shift);
    }
    match random.up_to(3) {
        0 => change(&mut shift, random),
        1 => shift = balanced(count, random),
        _ => {}
    }
    let call = call(&shift, &lists, random);
    Case::On { shift, call }
}

/// Changes one field.
fn change(shift: &mut Shift, random: &mut Random) {
    let most = MAX_FRAMES as u32;
    let small = random.up_to_u32(most);
    let any = *random.pick(&[0, 1, small, most, most + 1, MAX_CAPACITY, MAX_CAPACITY + 1, u32::MAX]);
    let wide = *random.pick(&[0, 1, u64::from(any), u64::MAX, u64::MAX - u64::from(any), 1 << 63]);
    let Shift { terms, now } = shift;
    let totals = &mut now.totals;
    match random.up_to(9) {
        0 => terms.frames = any,
        1 => now.recorded = any,
        2 => terms.capacity = any,
        3 => terms.start = any,
        4 => terms.end = any,
        5 => now.charge = any,
        6 => totals.harvested = wide,
        7 => totals.used = wide,
        8 => totals.lost = wide,
        _ => {
            totals.used = totals.used.wrapping_add(wide);
            totals.lost = totals.lost.wrapping_sub(wide);
        }
    }
}

/// A record whose totals balance, whatever its history would have to be.
fn balanced(frames: usize, random: &mut Random) -> Shift {
    let frames = frames as u32;
    let recorded = random.up_to_u32(frames);
    let capacity = *random.pick(&[0, 5, 1_000, MAX_CAPACITY, MAX_CAPACITY + 1]);
    let start = random.up_to_u32(capacity);
    let charge = random.up_to_u32(capacity);
    let least = u64::from(charge.saturating_sub(start));
    let harvested = least + random.up_to(u64::from(MAX_HARVEST) * u64::from(recorded));
    let gone = u64::from(start) + harvested - u64::from(charge);
    let used = random.up_to(gone);
    let totals = Totals {
        harvested,
        used,
        lost: gone - used,
    };
    Shift {
        terms: Terms {
            frames,
            capacity,
            start,
            end: random.up_to_u32(capacity),
        },
        now: Present {
            recorded,
            charge,
            totals,
        },
    }
}

/// A file: written, then perhaps damaged; words of likely kinds; or any bytes.
fn file(random: &mut Random) -> Vec<u8> {
    match random.up_to(9) {
        0 => {
            let length = random.up_to(40) as usize;
            (0..length).map(|_| random.bits() as u8).collect()
        }
        1 => likely_words(random),
        2 => sized_file(random),
        _ => {
            let mut bytes = well_formed(frames(random), random);
            for _ in 0..random.up_to(2) {
                damage(&mut bytes, random);
            }
            bytes
        }
    }
}

/// A file of the right form, whose figures may be refused.
fn well_formed(frames: usize, random: &mut Random) -> Vec<u8> {
    let (figures, lists) = request(frames, random);
    let leaves_out = !random.one_in(4);
    form(figures, &lists, |bound, absent| leaves_out && bound == absent)
}

/// The words of a request, each number cut to what its word can hold; bounds that are left out are told by the bound and
/// the one that means absent.
fn form(figures: Figures, lists: &Lists, left_out: impl Fn(u32, u32) -> bool) -> Vec<u8> {
    let (value, amount) = (0x3fff_ffff, 0x1fff_ffff);
    let mut words = vec![figures.capacity & value, figures.start & value, figures.end & value];
    for (i, &harvest) in lists.harvest.iter().enumerate() {
        words.push(harvest & value | 1 << 30);
        if !left_out(lists.least[i], 0) {
            words.push(lists.least[i] & amount | 2 << 30);
        }
        if !left_out(lists.most[i], NO_UPPER_END) {
            words.push(lists.most[i] & amount | 2 << 30 | 1 << 29);
        }
    }
    words.push(3 << 30 | lists.count() as u32);
    words.iter().flat_map(|word| word.to_le_bytes()).collect()
}

/// Words whose kinds are mostly those that the place wants.
fn likely_words(random: &mut Random) -> Vec<u8> {
    let count = random.up_to(9);
    let mut words = Vec::new();
    for place in 0..count {
        let kind = match place {
            _ if random.one_in(8) => random.up_to_u32(3),
            0..=2 => 0,
            _ => 1 + u32::from(random.one_in(2)),
        };
        let most = u32::from(kind == 2 && random.one_in(2)) << 29;
        words.push(kind << 30 | most | random.up_to_u32(9));
    }
    if random.one_in(2) {
        let harvests = words.iter().filter(|&word| word >> 30 == 1).count() as u32;
        words.push(3 << 30 | harvests.saturating_add(random.up_to_u32(8) / 8));
    }
    words.iter().flat_map(|word| word.to_le_bytes()).collect()
}

/// A file near the largest size, or of more frames than there may be; seldom, since it takes long to compare.
fn sized_file(random: &mut Random) -> Vec<u8> {
    if !random.one_in(20) {
        return well_formed(1, random);
    }
    if random.one_in(3) {
        let frames = MAX_FRAMES + random.up_to(MAX_FILE_BYTES as u64 / 4) as usize;
        return form(Figures::default(), &Lists::unbounded(vec![1; frames]), |_, _| true);
    }
    let (figures, lists) = request(MAX_FRAMES - random.up_to(1) as usize, random);
    let mut bytes = form(figures, &lists, |_, _| false);
    match random.up_to(3) {
        0 => bytes.resize(MAX_FILE_BYTES + random.up_to(5) as usize, 0),
        1 => bytes.truncate(MAX_FILE_BYTES - random.up_to(5) as usize),
        _ => {}
    }
    bytes
}

/// One damage: a bit, a byte, a cut, surplus, or two words exchanged.
fn damage(bytes: &mut Vec<u8>, random: &mut Random) {
    let last = match bytes.len().checked_sub(1) {
        Some(last) => last,
        None => return,
    };
    let place = random.up_to(last as u64) as usize;
    match random.up_to(5) {
        0 => bytes[place] ^= 1 << random.up_to(7),
        1 => bytes[place] = random.bits() as u8,
        2 => bytes.truncate(place),
        3 => bytes.extend(vec![0; 1 + random.up_to(8) as usize]),
        4 => bytes
            .iter_mut()
            .skip(place | 3)
            .take(1)
            .for_each(|byte| *byte = byte.wrapping_add(0x40)),
        _ => {
            let (a, b) = (place / 4 * 4, random.up_to(last as u64) as usize / 4 * 4);
            if a.max(b) + 4 <= bytes.len() {
                (0..4).for_each(|i| bytes.swap(a + i, b + i));
            }
        }
    }
}

/// Room in a list: enough, more than enough, or too little.
fn room(needed: usize, random: &mut Random) -> usize {
    match random.up_to(5) {
        0 => needed + 1 + random.up_to(9) as usize,
        1 => needed.saturating_sub(1 + random.up_to(3) as usize),
        _ => needed,
    }
}

/// Planning calls: a plan, a needed capacity.
fn planning(random: &mut Random) -> Case {
    let (figures, mut lists) = request(frames(random), random);
    lend(&mut lists, random);
    if random.one_in(4) {
        return Case::Needed { figures, lists };
    }
    Case::Plan {
        figures,
        budgets: length(lists.count(), random),
        lists,
    }
}

/// A request for calls that take no planning, at the limit of the frames more often.
fn plain_request(random: &mut Random) -> (Figures, Lists) {
    let frames = if random.one_in(20) {
        MAX_FRAMES + random.up_to(1) as usize
    } else {
        frames(random)
    };
    request(frames, random)
}

/// Tracing any budgets.
fn trace(figures: Figures, harvest: Vec<u32>, random: &mut Random) -> Case {
    Case::Trace {
        budgets: budgets(figures, &harvest, random),
        charges: length(harvest.len(), random),
        losses: length(harvest.len(), random),
        figures,
        harvest,
    }
}

/// Calls that take no planning: tracing, grading, writing.
fn plain(random: &mut Random) -> Case {
    let (figures, lists) = plain_request(random);
    match random.up_to(4) {
        0 | 1 => trace(figures, lists.harvest, random),
        2 => Case::Grade {
            budgets: budgets(figures, &lists.harvest, random),
        },
        _ => write(figures, lists, random),
    }
}

/// Writing a file.
fn write(figures: Figures, mut lists: Lists, random: &mut Random) -> Case {
    let room = room(file_bytes(lists.frames()), random);
    lend(&mut lists, random);
    Case::Write { figures, lists, room }
}

/// Reading a file into lists that have room, now and then one of them too little.
fn read(random: &mut Random) -> Case {
    let file = file(random);
    let harvests = file.chunks_exact(4).filter(|word| word[3] >> 6 == 1).count();
    let mut rooms = [0; 3].map(|_| harvests + random.up_to(4).saturating_sub(2) as usize);
    if random.one_in(6) {
        rooms[random.up_to(2) as usize] = harvests.saturating_sub(1 + random.up_to(3) as usize);
    }
    Case::Read { file, rooms }
}

/// Listing a file.
fn listing(random: &mut Random) -> Case {
    let room = if random.one_in(10) {
        random.up_to(100) as usize
    } else {
        LISTING_BYTES
    };
    Case::Listing {
        file: file(random),
        room,
    }
}

/// Any case.
pub fn any_case(random: &mut Random) -> Case {
    match random.up_to(99) {
        0..=29 => planning(random),
        30..=54 => plain(random),
        55..=64 => run(random),
        65..=79 => on(random),
        80..=92 => read(random),
        _ => listing(random),
    }
}

/// A trace.
pub fn any_trace(random: &mut Random) -> Case {
    let (figures, lists) = plain_request(random);
    trace(figures, lists.harvest, random)
}

/// A whole shift with its calls.
pub fn any_run(random: &mut Random) -> Case {
    run(random)
}

/// A file read or listed.
pub fn any_file_case(random: &mut Random) -> Case {
    if random.one_in(3) {
        listing(random)
    } else {
        read(random)
    }
}
