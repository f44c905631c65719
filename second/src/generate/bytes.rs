//! Damage to the bytes of a file: bits flipped, bytes cut, inserted, appended, numbers malformed.

use super::file::encoded;
use super::random::Random;

type Damage = fn(&mut Random, &mut Vec<u8>);

/// All kinds of damage with their names; some stand here more than once to be met more often.
const DAMAGES: [(&str, Damage); 14] = [
    ("bits flipped", |random, file| flip(random, file)),
    ("bits flipped", |random, file| flip(random, file)),
    ("cut", cut),
    ("cut", cut),
    ("cut in or after a number", cut_at_number),
    ("byte inserted", insert),
    ("byte removed", remove),
    ("bytes appended", append),
    ("malformed number", malformed),
    ("malformed number", malformed),
    ("number not minimal", not_minimal),
    ("number replaced", replace),
    ("other version", version),
    ("any bytes", any_bytes),
];

/// Forms that a number may begin with or have, sound and malformed, up to six groups.
const FORMS: [&[u8]; 20] = [
    &[0x80, 0x00],
    &[0x81, 0x00],
    &[0xFF, 0x00],
    &[0x80, 0x80, 0x00],
    &[0x80, 0x80, 0x80, 0x00],
    &[0x80, 0x80, 0x80, 0x80, 0x00],
    &[0x80, 0x80, 0x80, 0x80, 0x01],
    &[0x80, 0x80, 0x80, 0x80, 0x0F],
    &[0x80, 0x80, 0x80, 0x80, 0x10],
    &[0xFF, 0xFF, 0xFF, 0xFF, 0x0F],
    &[0xFF, 0xFF, 0xFF, 0xFF, 0x10],
    &[0xFF, 0xFF, 0xFF, 0xFF, 0x1F],
    &[0xFF, 0xFF, 0xFF, 0xFF, 0x7F],
    &[0x80, 0x80, 0x80, 0x80, 0x80],
    &[0x80, 0x80, 0x80, 0x80, 0x8F],
    &[0xFF, 0xFF, 0xFF, 0xFF, 0xFF],
    &[0x80, 0x80, 0x80, 0x80, 0x80, 0x00],
    &[0x81, 0x80, 0x80, 0x80, 0x80, 0x01],
    &[0xFF, 0xFF, 0xFF, 0x7F],
    &[0x80, 0x80, 0x80, 0x01],
];

/// Damages a file and gives the name of the damage.
pub fn damage(random: &mut Random, file: &mut Vec<u8>) -> &'static str {
    let (name, damage) = random.pick(&DAMAGES);
    damage(random, file);
    name
}

/// Damages a file at a place that it is refused for, or just behind, so that two faults meet.
pub fn damage_near(random: &mut Random, file: &mut Vec<u8>, place: usize) -> &'static str {
    let place = file
        .len()
        .min(place + random.pick(&[0, 0, 0, 0, 1, 1, 1, 2, 2, 3, 3, 4, 5, 8]));
    match random.below(3) {
        0 => {
            file.truncate(place);
            "cut near the fault"
        }
        1 => {
            let form = random.pick(&FORMS);
            file.splice(place..place, form.iter().copied());
            "a form put near the fault"
        }
        _ => {
            file.truncate(place);
            let open = random.below(5);
            file.extend(std::iter::repeat_n(0xFF, open));
            "open groups near the fault"
        }
    }
}

/// First and last byte of some number of the file.
fn some_number(random: &mut Random, file: &[u8]) -> (usize, usize) {
    let is_last = |place: &usize| file[*place] < 0x80;
    let ends: Vec<usize> = (0..file.len()).filter(is_last).collect();
    let number = random.below(ends.len());
    let first = if number == 0 { 0 } else { ends[number - 1] + 1 };
    (first, ends[number])
}

fn flip(random: &mut Random, file: &mut [u8]) {
    for _ in 0..random.within(1, 3) {
        let place = random.below(file.len());
        file[place] ^= 1 << random.below(8);
    }
}

fn cut(random: &mut Random, file: &mut Vec<u8>) {
    let length = random.below(file.len());
    file.truncate(length);
}

/// Cuts before, inside or behind a number, some of whose groups may be left open.
fn cut_at_number(random: &mut Random, file: &mut Vec<u8>) {
    let (first, _) = some_number(random, file);
    file.truncate(first);
    let open = random.below(5);
    file.extend(std::iter::repeat_n(random.pick(&[0x80, 0xFF]), open));
}

fn insert(random: &mut Random, file: &mut Vec<u8>) {
    let place = random.below(file.len() + 1);
    file.insert(place, random.bits() as u8);
}

fn remove(random: &mut Random, file: &mut Vec<u8>) {
    let place = random.below(file.len());
    file.remove(place);
}

fn append(random: &mut Random, file: &mut Vec<u8>) {
    let count = random.pick(&[1, 1, 1, 2, 5, 100, 3000]);
    let byte = random.pick(&[0x00, 0x01, 0x80, 0xFF]);
    file.extend(std::iter::repeat_n(byte, count));
}

/// Puts one of the forms in the place of a number; the file may end with it.
fn malformed(random: &mut Random, file: &mut Vec<u8>) {
    let (first, last) = some_number(random, file);
    let form = random.pick(&FORMS);
    if random.chance(20) {
        file.truncate(first);
        file.extend(form);
    } else {
        file.splice(first..=last, form.iter().copied());
    }
}

/// Adds a zero group to a number.
fn not_minimal(random: &mut Random, file: &mut Vec<u8>) {
    let (_, last) = some_number(random, file);
    file[last] |= 0x80;
    file.insert(last + 1, 0);
}

fn replace(random: &mut Random, file: &mut Vec<u8>) {
    let (first, last) = some_number(random, file);
    file.splice(first..=last, encoded(random.word()));
}

fn version(random: &mut Random, file: &mut Vec<u8>) {
    let version = match random.below(4) {
        0 => encoded(0),
        1 => encoded(2),
        2 => encoded(random.word()),
        _ => random.pick(&FORMS).to_vec(),
    };
    file.splice(0..1, version);
}

fn any_bytes(random: &mut Random, file: &mut Vec<u8>) {
    let length = random.pick(&[0, 0, 1, 2, 3, 10, 100, 2600, 4096]);
    *file = (0..length).map(|_| random.bits() as u8).collect();
    if length > 2 && random.chance(70) {
        file[0] = 1;
        file[1] = random.within(1, 12) as u8;
    }
}
