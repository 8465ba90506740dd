//! Files that are and that are not order files: "file under 12 or over 652 bytes, or lists and
//! trailer disagree", "whose longest length becomes 844".

use super::Random;
use crate::independent::{write, Order};

const TRAILER: usize = 12;

/// The order's file with the jobs first, which is right as well.
pub fn jobs_first(order: &Order) -> Vec<u8> {
    let written = write(order);
    let jobs_at = 4 * order.memories.len();
    let trailer_at = written.len() - TRAILER;
    let jobs = &written[jobs_at..trailer_at];
    let mut file = [jobs, &written[..jobs_at]].concat();
    file.extend((jobs.len() as u32).to_le_bytes());
    file.extend(0_u32.to_le_bytes());
    file.extend(&written[trailer_at + 8..]);
    file
}

/// A right file in one of the two orders of lists.
pub fn file_of(random: &mut Random, order: &Order) -> Vec<u8> {
    if random.once_in(3) {
        jobs_first(order)
    } else {
        write(order)
    }
}

/// A file that is damaged, or only looks so.
pub fn doubtful(random: &mut Random, order: &Order) -> Vec<u8> {
    let mut file = file_of(random, order);
    match random.below(14) {
        0 => flip(random, &mut file, 0),
        1 => flip_in_trailer(random, &mut file),
        2 => file.truncate(random.below(file.len() + 1)),
        3 => drop(file.remove(random.below(file.len()))),
        4 => lengthen_front(random, &mut file),
        5 => file.extend(vec![random.number() as u8; 1 + random.below(12)]),
        6 => swap_places(&mut file),
        7 => change_place(random, &mut file),
        8 => change_count(random, &mut file),
        9 => file = empty_list(random),
        10 => file = of_length(random),
        11 if random.once_in(8) => lengthen_far(&mut file),
        12 => file = without_makers(order),
        _ => file = any_bytes(random),
    }
    file
}

/// Damages the trailer alone; some damages only look so.
pub fn damage_trailer(random: &mut Random, file: &mut [u8]) {
    match random.below(4) {
        0 => flip_in_trailer(random, file),
        1 => swap_places(file),
        2 => change_place(random, file),
        _ => change_count(random, file),
    }
}

/// Cuts bytes off or adds some, before the lists, among them or after the trailer.
pub fn damage_length(random: &mut Random, file: &mut Vec<u8>) {
    match random.below(4) {
        0 => file.truncate(random.below(file.len())),
        1 => drop(file.remove(random.below(file.len()))),
        2 => lengthen_front(random, file),
        _ => file.extend(vec![random.number() as u8; 1 + random.below(12)]),
    }
}

/// Flips one bit of a byte at or after `from`.
fn flip(random: &mut Random, file: &mut [u8], from: usize) {
    let place = from + random.below(file.len() - from);
    file[place] ^= 1 << random.below(8);
}

fn flip_in_trailer(random: &mut Random, file: &mut [u8]) {
    flip(random, file, file.len() - TRAILER);
}

fn lengthen_front(random: &mut Random, file: &mut Vec<u8>) {
    let more = random.pick(&[1, 4, 12, 16]);
    file.splice(0..0, vec![0; more]);
}

fn swap_places(file: &mut [u8]) {
    let at = file.len() - TRAILER;
    let (processors, jobs) = file[at..at + 8].split_at_mut(4);
    processors.swap_with_slice(jobs);
}

fn change_place(random: &mut Random, file: &mut [u8]) {
    let at = file.len() - TRAILER + random.pick(&[0, 4]);
    let length = file.len() as u32;
    let place = random.pick(&[0, 1, 4, 12, 16, length - 12, length, u32::MAX, u32::MAX - 3]);
    file[at..at + 4].copy_from_slice(&place.to_le_bytes());
}

fn change_count(random: &mut Random, file: &mut [u8]) {
    let at = file.len() - TRAILER + random.pick(&[8, 10]);
    let count = u16::from_le_bytes([file[at], file[at + 1]]);
    let changed = random.pick(&[0, 1, 3, 16, 48, count.wrapping_add(1), u16::MAX, 1 << 14]);
    file[at..at + 2].copy_from_slice(&changed.to_le_bytes());
}

/// A file without processors, without jobs or without both, and with any of several places.
fn empty_list(random: &mut Random) -> Vec<u8> {
    let processors = random.pick(&[0, 0, 1, 17, 208, 209]);
    let jobs = match processors {
        0 => random.pick(&[0, 1, 48, 49, 52, 53]),
        _ => 0,
    };
    let ends = [0, 4 * processors, 16 * jobs, 12 * jobs, 4];
    let places = [random.pick(&ends), random.pick(&ends)];
    listed(random, places, processors, jobs)
}

/// A file whose lists and trailer agree and whose length is near 844 or 652, or one of up to 14
/// bytes.
fn of_length(random: &mut Random) -> Vec<u8> {
    if random.once_in(3) {
        let length = random.below(15);
        let byte = random.pick(&[0, 0, 1]);
        return vec![byte; length];
    }
    let exact = random.pick(&[(16, 48), (4, 51), (204, 1), (208, 0), (16, 36)]);
    let longer = random.pick(&[(17, 48), (1, 52), (17, 36)]);
    let (processors, jobs) = random.pick(&[(16, 48), exact, exact, longer]);
    let first = [0, 4 * processors];
    let places = random.pick(&[first, first, [16 * jobs, 0], [12 * jobs, 0]]);
    listed(random, places, processors, jobs)
}

/// Lists of any numbers, small ones often, and a trailer.
fn listed(random: &mut Random, places: [u32; 2], processors: u32, jobs: u32) -> Vec<u8> {
    let most = random.pick(&[1, 9, u32::MAX.into()]);
    let mut file: Vec<u8> = (0..processors + 4 * jobs)
        .flat_map(|_| (random.between(1, most) as u32).to_le_bytes())
        .collect();
    file.extend(places[0].to_le_bytes());
    file.extend(places[1].to_le_bytes());
    file.extend((processors as u16).to_le_bytes());
    file.extend((jobs as u16).to_le_bytes());
    file
}

/// The order's file with 12 bytes to a job.
fn without_makers(order: &Order) -> Vec<u8> {
    let written = write(order);
    let (jobs_at, trailer_at) = (4 * order.memories.len(), written.len() - TRAILER);
    let jobs = written[jobs_at..trailer_at].chunks_exact(16);
    let jobs: Vec<&[u8]> = jobs.map(|job| &job[..12]).collect();
    [&written[..jobs_at], &jobs.concat(), &written[trailer_at..]].concat()
}

/// A length that looks right to whoever counts in 16 bits.
fn lengthen_far(file: &mut Vec<u8>) {
    file.resize(file.len() + 65_536, 0);
}

fn any_bytes(random: &mut Random) -> Vec<u8> {
    let length = random.below(900);
    (0..length).map(|_| random.number() as u8).collect()
}
