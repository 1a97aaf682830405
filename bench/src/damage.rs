//! Words, texts and names with something wrong, or of no program, and rooms of all kinds.

use crate::random::Random;
use crate::reference::limits::*;

/// The same words with some changed, put in or taken out.
pub fn damaged_words(random: &mut Random, words: &[u16]) -> Vec<u16> {
    let mut words = words.to_vec();
    for _ in 0..random.between(1, 3) {
        let at = random.below(words.len() + 1);
        let near = words.get(at).copied().unwrap_or(0);
        let word = match random.below(6) {
            0 => random.next() as u16,
            1 => near.wrapping_add(1),
            2 => near.wrapping_sub(1),
            3 => near ^ FIRST_VARIABLE,
            4 => FIRST_VARIABLE + random.below(18) as u16,
            _ => random.below(70) as u16,
        };
        match random.below(6) {
            0 => words.insert(at, word),
            1 => words.truncate(at),
            2 if at < words.len() => drop(words.remove(at)),
            3 => words.push(word),
            _ if at < words.len() => words[at] = word,
            _ => {}
        }
    }
    if random.once_in(100) {
        words.resize(WORDS + random.below(3), 0);
    }
    words
}

/// The same text with some bytes, tokens or lines changed.
pub fn damaged_text(random: &mut Random, text: &[u8]) -> Vec<u8> {
    let mut text = text.to_vec();
    for _ in 0..random.pick(&[1, 1, 1, 2, 4]) {
        text = match random.below(6) {
            0 | 1 => damaged_pieces(random, &text, b'\t'),
            2 => damaged_pieces(random, &text, b'\n'),
            3 => other_mark(random, text),
            _ => damaged_bytes(random, text),
        };
    }
    text
}

fn damaged_bytes(random: &mut Random, mut text: Vec<u8>) -> Vec<u8> {
    let at = random.below(text.len() + 1);
    let byte = if random.once_in(4) { random.next() as u8 } else { random.pick(b"\t\n\r VG0189aZz_\0") };
    match random.below(6) {
        0 => text.truncate(at),
        1 if at < text.len() => drop(text.remove(at)),
        2 => text.insert(at, byte),
        3 => text.push(byte),
        _ if at < text.len() => text[at] = byte,
        _ => {}
    }
    text
}

/// `G` for a `V` or the other way, in the last line oftenest.
fn other_mark(random: &mut Random, mut text: Vec<u8>) -> Vec<u8> {
    let marks: Vec<usize> = (0..text.len()).filter(|i| matches!(text[*i], b'V' | b'G')).collect();
    if !marks.is_empty() {
        let among = if random.once_in(8) { marks.len() } else { marks.len().min(4) };
        let at = marks[marks.len() - 1 - random.below(among)];
        text[at] ^= b'V' ^ b'G';
    }
    text
}

const TOKENS: [&[u8]; 24] = [
    b"", b"V0", b"V1", b"V15", b"V16", b"V00", b"V", b"G0", b"G1", b"G16", b"V4294967296", b"G99999999999999999999",
    b"pred", b"func", b"clause", b"query", b"0", b"8", b"9", b"08", b"a23456789_123456",
    b"a23456789_1234567", b"pred\ta\t0\n", b"A",
];

/// Tokens or lines put in, taken out, swapped, written twice or replaced.
fn damaged_pieces(random: &mut Random, text: &[u8], between: u8) -> Vec<u8> {
    let mut pieces: Vec<&[u8]> = text.split(|b| *b == between).collect();
    let (at, other) = (random.below(pieces.len()), random.below(pieces.len()));
    match random.below(6) {
        0 => pieces.insert(at, random.pick(&TOKENS)),
        1 => drop(pieces.remove(at)),
        2 => pieces.swap(at, other),
        3 => pieces.insert(at, pieces[other]),
        4 => pieces[at] = pieces[other],
        _ => pieces[at] = random.pick(&TOKENS),
    }
    pieces.join(&between)
}

/// Bytes of all kinds, or tokens and tabs and LFs in any order.
pub fn random_text(random: &mut Random) -> Vec<u8> {
    let length = random.pick(&[0, 1, 2, 5, 20, 100, 1000]);
    if random.once_in(3) {
        return (0..length).map(|_| random.next() as u8).collect();
    }
    let mut text = Vec::new();
    for _ in 0..length {
        text.extend_from_slice(random.pick(&TOKENS));
        text.push(random.pick(b"\t\t\t\n"));
    }
    text
}

/// A text with some of its clause lines written again, up to 64 clauses: it may have too many words.
pub fn longer_text(random: &mut Random, text: &[u8]) -> Vec<u8> {
    let mut lines: Vec<&[u8]> = text.split_inclusive(|b| *b == b'\n').collect();
    let is_clause = |line: &&[u8]| line.starts_with(b"clause");
    let clauses: Vec<&[u8]> = lines.iter().copied().filter(is_clause).collect();
    if clauses.is_empty() {
        return text.to_vec();
    }
    let query = lines.pop().expect("a query");
    let more = random.below(CLAUSES + 2 - clauses.len());
    lines.extend((0..more).map(|_| random.pick(&clauses)));
    lines.push(query);
    lines.concat()
}

/// A few words of any value, small ones oftenest.
pub fn random_words(random: &mut Random) -> Vec<u16> {
    let length = random.pick(&[0, 1, 3, 6, 12, 40, WORDS, WORDS + 1]);
    let word = |random: &mut Random| match random.below(4) {
        0 => FIRST_VARIABLE + random.below(4) as u16,
        1 => random.next() as u16,
        _ => random.below(3) as u16,
    };
    (0..length).map(|_| word(random)).collect()
}

/// Names with a fault: too short, too long, ill formed or twice.
pub fn damaged_names(random: &mut Random, names: &[u8]) -> Vec<u8> {
    let mut names = names.to_vec();
    match random.below(4) {
        0 => names.truncate(random.below(names.len() + 1)),
        1 => names.extend(vec![b'a'; random.between(1, 17)]),
        2 => {
            let at = random.below(names.len() / NAME_BYTES) * NAME_BYTES;
            let from = random.below(names.len() / NAME_BYTES) * NAME_BYTES;
            names.copy_within(from..from + NAME_BYTES, at);
        }
        _ => {
            let at = random.below(names.len());
            names[at] = random.pick(b"\0\0aZ_9\t\xff");
        }
    }
    names
}

/// A room near what is needed: enough, just enough, one too few, none, or anything below.
pub fn room(random: &mut Random, needed: usize) -> usize {
    match random.below(8) {
        0 => needed,
        1 => needed.saturating_sub(1),
        2 => random.below(needed + 1),
        3 => random.below(6),
        4 => needed + random.below(40),
        _ => needed + 7,
    }
}
