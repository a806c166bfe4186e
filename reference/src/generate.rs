//! Seeded recordings: good ones, tied ones, wrong ones.

use crate::{
    description,
    measure::ERASED,
    random::Random,
    random_channel::{self, Size, Spread},
    recording::{self, block, MOST_BYTES},
};

/// The recording of a seed and an index.
pub fn recording(seed: u64, index: u64) -> Vec<u8> {
    let random = &mut Random::new(seed, index);
    match random.below(100) {
        0..=29 => good(random).concat(),
        30..=54 => tied(random).concat(),
        55..=64 => misdescribed(random).concat(),
        65..=76 => misnumbered(random).concat(),
        77..=91 => damaged(random),
        92..=95 => crowded(random).concat(),
        96..=98 => noise(random),
        _ => huge(random),
    }
}

/// A small problem whose paths can mostly be listed.
pub fn small(random: &mut Random) -> Vec<u8> {
    let spread = random.pick(&[Spread::Narrow, Spread::Wide]);
    let lines = random_channel::lines(random, Size::Any, spread);
    let count = random.below(8);
    from_lines(random, &lines, count, 3).concat()
}

/// Samples near the labels of some path.
fn good(random: &mut Random) -> Vec<Vec<u8>> {
    let size = random.pick(&[Size::Any, Size::Any, Size::Full]);
    let lines = random_channel::lines(random, size, Spread::Wide);
    let count = sample_count(random);
    from_lines(random, &lines, count, 12)
}

/// Many equally cheap paths: small alphabets, and many erased samples.
fn tied(random: &mut Random) -> Vec<Vec<u8>> {
    let size = random.pick(&[Size::Any, Size::Full]);
    let lines = random_channel::lines(random, size, Spread::Narrow);
    let count = sample_count(random);
    let erased_once_in = random.pick(&[1, 1, 2, 3]);
    from_lines(random, &lines, count, erased_once_in)
}

fn sample_count(random: &mut Random) -> usize {
    match random.below(40) {
        0 => 512,
        1 => random.below(513),
        2..=5 => 60 + random.below(12),
        6..=9 => 0,
        _ => random.below(14),
    }
}

/// A recording about as long in samples as it may be.
fn crowded(random: &mut Random) -> Vec<Vec<u8>> {
    let spread = random.pick(&[Spread::Narrow, Spread::Wide]);
    let lines = random_channel::lines(random, Size::Full, spread);
    let count = 508 + random.below(8);
    from_lines(random, &lines, count, 5)
}

fn text_of(lines: &[String]) -> String {
    lines.iter().map(|line| format!("{line}\n")).collect()
}

/// The blocks of a recording with these lines and so many samples.
fn from_lines(
    random: &mut Random,
    lines: &[String],
    count: usize,
    erased_once_in: usize,
) -> Vec<Vec<u8>> {
    let text = text_of(lines);
    let samples = samples_for(random, &text, count, erased_once_in);
    let mut blocks = vec![recording::description_block(&text)];
    blocks.extend(sample_blocks(random, &samples));
    blocks.push(recording::end_block());
    blocks
}

/// The samples of a walk along the branches, with some noise. Where no branch leads on, any sample will do.
pub fn samples_for(
    random: &mut Random,
    text: &str,
    count: usize,
    erased_once_in: usize,
) -> Vec<i16> {
    let channel = description::read(text.as_bytes(), 0).ok();
    let mut state = channel.as_ref().and_then(|c| c.start).unwrap_or(0);
    let mut samples = Vec::with_capacity(count);
    for _ in 0..count {
        let mut label = 0;
        if let Some(channel) = &channel {
            let branches: Vec<_> = channel.trellis.branches_from(state).collect();
            if !branches.is_empty() {
                let (_, branch) = random.pick(&branches);
                state = branch.next;
                label = branch.label;
            }
        }
        samples.push(if random.once_in(erased_once_in) {
            ERASED
        } else {
            noisy(random, label)
        });
    }
    samples
}

fn noisy(random: &mut Random, label: i32) -> i16 {
    match random.below(50) {
        0 => random.next() as i16,
        1 => random.pick(&[i16::MIN + 1, i16::MAX, -1, 0, 255, 256]),
        2..=30 => (label + random.between(-2, 2)) as i16,
        _ => label as i16,
    }
}

/// The samples in one block or in several, with empty blocks among them.
fn sample_blocks(random: &mut Random, samples: &[i16]) -> Vec<Vec<u8>> {
    let mut blocks = Vec::new();
    let mut rest = samples;
    while !rest.is_empty() {
        if random.once_in(6) {
            blocks.push(recording::sample_block(&[]));
        }
        let taken = if random.once_in(2) {
            rest.len()
        } else {
            1 + random.below(rest.len())
        };
        let (now, later) = rest.split_at(taken);
        blocks.push(recording::sample_block(now));
        rest = later;
    }
    if random.once_in(6) {
        blocks.push(recording::sample_block(&[]));
    }
    blocks
}

/// A description with something wrong in it, mostly.
fn misdescribed(random: &mut Random) -> Vec<Vec<u8>> {
    let mut lines = random_channel::lines(random, Size::Any, Spread::Wide);
    for _ in 0..1 + random.below(3) {
        edit_lines(random, &mut lines);
    }
    let mut text = text_of(&lines).into_bytes();
    if random.once_in(3) {
        edit_bytes(random, &mut text);
    }
    with_any_samples(random, &text)
}

/// A description whose lines are well formed, with some number out of its range, mostly.
fn misnumbered(random: &mut Random) -> Vec<Vec<u8>> {
    let mut lines = random_channel::lines(random, Size::Any, Spread::Wide);
    for _ in 0..1 + random.below(2) {
        let at = random.below(lines.len());
        lines[at] = renumbered_line(random, &lines[at]);
    }
    with_any_samples(random, text_of(&lines).as_bytes())
}

fn renumbered_line(random: &mut Random, line: &str) -> String {
    let mut words: Vec<&str> = line.split(' ').collect();
    let is_figure = |word: &str| word.ends_with(|last: char| last.is_ascii_digit());
    let figures: Vec<usize> = (0..words.len())
        .filter(|&at| is_figure(words[at]))
        .collect();
    let is_list = matches!(words[0], "taps" | "code");
    if is_list && random.once_in(4) {
        let room = 7_usize.saturating_sub(figures.len());
        words.extend(vec!["1"; random.below(room + 1)]);
    } else if !figures.is_empty() {
        let at = random.pick(&figures);
        let is_generator = words[0] == "code" && at > 2;
        words[at] = random.pick(if is_generator { OCTALS } else { NUMBERS });
    }
    words.join(" ")
}

/// A recording with this description and a few samples.
fn with_any_samples(random: &mut Random, text: &[u8]) -> Vec<Vec<u8>> {
    let count = random.below(5);
    let samples = samples_for(random, "", count, 4);
    vec![
        block(recording::DESCRIPTION, text),
        recording::sample_block(&samples),
        recording::end_block(),
    ]
}

/// Well-formed numbers, in range for some and out of range for others.
const NUMBERS: &[&str] = &[
    "-128", "-127", "-1", "-0", "0", "1", "2", "3", "4", "5", "6", "7", "8", "9", "15", "16", "31",
    "32", "63", "64", "65", "127", "128", "007", "000002", "-999999", "999999",
];

const OCTALS: &[&str] = &[
    "0", "1", "2", "3", "7", "10", "17", "20", "77", "100", "177", "200", "007",
];

/// Words that a description may have, in the right place or in a wrong one.
const WORDS: &[&str] = &[
    "code", "rll", "taps", "measure", "start", "end", "square", "bits", "any", "0", "1", "2", "3",
    "4", "5", "7", "8", "9", "10", "63", "64", "65", "127", "128", "-1", "-0", "-127", "-128",
    "007", "000001", "0000001", "-000001", "999999", "1000000", "-", "--1", "1-", "177", "200",
    "78", "a", "Any", "+1", "1.5", "\t", "\r", "",
];

const LINES: &[&str] = &[
    "taps 2 1 1",
    "taps 4 1 -1",
    "taps 3 1",
    "taps 4 1 1 1 1 1",
    "taps 2 128",
    "code 3 0 7 5",
    "code 8 0 1",
    "code 3 0 1 1 1 1 1",
    "code 3 0 7 0",
    "code 3 4 7 5",
    "code 7 1 171 133",
    "rll 1 3",
    "rll 3 2",
    "rll 0 63",
    "rll 0 64",
    "measure square",
    "measure bits 0",
    "measure bits 9",
    "measure bits 2",
    "start any",
    "start 64",
    "start -1",
    "end any",
    "end 64",
    "end 1",
    "",
];

fn edit_lines(random: &mut Random, lines: &mut Vec<String>) {
    let at = random.below(lines.len() + 1);
    if at == lines.len() || random.once_in(6) {
        lines.insert(at, random.pick(LINES).to_string());
        return;
    }
    match random.below(6) {
        0 => {
            lines.remove(at);
        }
        1 => {
            let copy = lines[at].clone();
            lines.push(copy);
        }
        2 => lines[at] = random.pick(LINES).to_string(),
        _ => lines[at] = edited_line(random, &lines[at]),
    }
}

fn edited_line(random: &mut Random, line: &str) -> String {
    let mut words: Vec<&str> = line.split(' ').collect();
    let at = random.below(words.len());
    match random.below(4) {
        0 => {
            words.remove(at);
        }
        1 => words.insert(at + 1, random.pick(WORDS)),
        _ => words[at] = random.pick(WORDS),
    }
    words.join(" ")
}

fn edit_bytes(random: &mut Random, bytes: &mut Vec<u8>) {
    if bytes.is_empty() {
        bytes.push(random.byte());
        return;
    }
    let at = random.below(bytes.len());
    match random.below(6) {
        0 => bytes[at] ^= 1 << random.below(8),
        1 => bytes[at] = random.byte(),
        2 => bytes.truncate(at),
        3 => bytes.insert(at, random.pick(b" \n0-a\t\r\0")),
        4 => {
            bytes.remove(at);
        }
        _ => bytes.push(random.pick(b" \n0-a\t\r\0")),
    }
}

/// A recording of any kind whose blocks or bytes are then disturbed.
fn damaged(random: &mut Random) -> Vec<u8> {
    let mut blocks = match random.below(4) {
        0 => good(random),
        1 => tied(random),
        2 => misdescribed(random),
        _ => crowded(random),
    };
    for _ in 0..random.below(3) {
        disturb(random, &mut blocks);
    }
    let mut bytes = blocks.concat();
    for _ in 0..random.below(3) {
        edit_bytes(random, &mut bytes);
    }
    bytes
}

fn disturb(random: &mut Random, blocks: &mut Vec<Vec<u8>>) {
    let kind = random.pick(&[0, 1, 2, 3, 4, 5, 6, 257, 258, 259, 256, 65_535]);
    let at = random.below(blocks.len());
    match random.below(8) {
        0 => blocks[at][2..4].copy_from_slice(&u16::to_le_bytes(kind)),
        1 => {
            let length = random.pick(&[0, 1, 2, 3, 1_024, 65_535]);
            blocks[at][0..2].copy_from_slice(&u16::to_le_bytes(length));
        }
        2 => {
            let length = random.below(4);
            let payload: Vec<u8> = (0..length).map(|_| random.byte()).collect();
            blocks.insert(at, block(kind, &payload));
        }
        3 if blocks.len() > 1 => {
            blocks.remove(at);
        }
        4 => {
            let copy = blocks[at].clone();
            blocks.insert(at, copy);
        }
        5 => random.shuffle(blocks),
        6 => blocks[at].extend((0..=random.below(5)).map(|_| random.byte())),
        _ => {
            let payload = vec![0; 2 * random.below(3) + 1];
            blocks.insert(at, block(recording::SAMPLES, &payload));
        }
    }
}

/// Bytes that are no recording, or look like one at the front.
fn noise(random: &mut Random) -> Vec<u8> {
    let count = random.below(24);
    let bytes: Vec<u8> = (0..count).map(|_| random.byte()).collect();
    match random.below(3) {
        0 => bytes,
        1 => block(recording::DESCRIPTION, &bytes),
        _ => {
            let small: Vec<u8> = bytes.iter().map(|byte| byte % 4).collect();
            let text = text_of(&random_channel::lines(random, Size::Any, Spread::Narrow));
            [recording::description_block(&text), small].concat()
        }
    }
}

/// A recording about as long in bytes as it may be, filled up with spaces or with empty sample blocks.
fn huge(random: &mut Random) -> Vec<u8> {
    let mut lines = random_channel::lines(random, Size::Any, Spread::Narrow);
    let count = random.below(10);
    let samples = samples_for(random, &text_of(&lines), count, 2);
    let after = [recording::sample_block(&samples), recording::end_block()].concat();
    let total = MOST_BYTES - 6 + random.below(10);
    let mut room = total - 4 - text_of(&lines).len() - after.len();
    let mut filling = Vec::new();
    if random.once_in(2) {
        let empty_blocks = room / 4;
        filling = recording::sample_block(&[]).repeat(empty_blocks);
        room -= 4 * empty_blocks;
    }
    lines[0] = lines[0].replacen(' ', &" ".repeat(1 + room), 1);
    let text = text_of(&lines);
    [recording::description_block(&text), filling, after].concat()
}
