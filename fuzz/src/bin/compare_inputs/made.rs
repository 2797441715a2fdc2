//! Inputs that are made of seeds by a few small changes. Each follows from its number.
use fuzz_target::FIXED;

/// What the fuzzer puts into inputs.
const WORDS: &str = include_str!("../../../words.dict");
const LONGEST: usize = 2048;
/// So many bytes are removed or put once more at most.
const PART: usize = 24;

pub struct Maker<'a> {
    seeds: &'a [Vec<u8>],
    words: Vec<Vec<u8>>,
}

type Change = fn(&Maker, &mut Vec<u8>, &mut Random);
/// Some are chosen more often.
const CHANGES: [Change; 12] = [
    flip_bit,
    set_byte,
    add,
    add,
    put_word,
    insert_word,
    insert_word,
    remove,
    repeat,
    splice,
    splice,
    set_number,
];

impl<'a> Maker<'a> {
    pub fn new(seeds: &'a [Vec<u8>]) -> Maker<'a> {
        let lines = WORDS.lines().filter(|line| line.starts_with('"'));
        Maker {
            seeds,
            words: lines.map(word_of).collect(),
        }
    }

    /// A seed with one to four changes.
    pub fn input(&self, number: u64) -> Vec<u8> {
        let mut random = Random(number.wrapping_mul(0xd134_2543_de82_ef95));
        let mut input = random.of(self.seeds).clone();
        for _ in 0..=random.below(4) {
            random.of(&CHANGES)(self, &mut input, &mut random);
        }
        input.truncate(LONGEST);
        input
    }
}

/// The bytes of a line of words.dict: text between quotes, in which \xNN is a byte.
fn word_of(line: &str) -> Vec<u8> {
    let mut parts = line.trim_matches('"').split("\\x");
    let mut word = parts.next().unwrap_or_default().as_bytes().to_vec();
    for part in parts {
        let (digits, text) = part.split_at(2);
        word.push(u8::from_str_radix(digits, 16).expect("two digits"));
        word.extend(text.as_bytes());
    }
    word
}

fn flip_bit(_: &Maker, input: &mut Vec<u8>, random: &mut Random) {
    let place = random.place(input);
    input[place] ^= 1 << random.below(8);
}

fn set_byte(_: &Maker, input: &mut Vec<u8>, random: &mut Random) {
    let place = random.place(input);
    input[place] = random.below(256) as u8;
}

/// Adds a number from -8 to 8.
fn add(_: &Maker, input: &mut Vec<u8>, random: &mut Random) {
    let place = random.place(input);
    input[place] = input[place]
        .wrapping_add(random.below(17) as u8)
        .wrapping_sub(8);
}

fn put_word(maker: &Maker, input: &mut Vec<u8>, random: &mut Random) {
    let (word, place) = (random.of(&maker.words), random.place(input));
    for (byte, new) in input[place..].iter_mut().zip(word) {
        *byte = *new;
    }
}

fn insert_word(maker: &Maker, input: &mut Vec<u8>, random: &mut Random) {
    let (word, place) = (random.of(&maker.words), random.place_behind(input));
    input.splice(place..place, word.iter().copied());
}

fn remove(_: &Maker, input: &mut Vec<u8>, random: &mut Random) {
    let part = random.part(input);
    input.drain(part);
}

fn repeat(_: &Maker, input: &mut Vec<u8>, random: &mut Random) {
    let part = input[random.part(input)].to_vec();
    let place = random.place_behind(input);
    input.splice(place..place, part);
}

/// Ends the input as another seed ends.
fn splice(maker: &Maker, input: &mut Vec<u8>, random: &mut Random) {
    let other = random.of(maker.seeds);
    input.truncate(random.place_behind(input));
    input.extend(&other[random.place_behind(other)..]);
}

/// Makes one of the five numbers another one, or one that is near it.
fn set_number(_: &Maker, input: &mut Vec<u8>, random: &mut Random) {
    let [from, to] = [(); 2].map(|()| 2 + 8 * random.below(5));
    let number = u64::from_le_bytes(input[from..from + 8].try_into().expect("8 bytes"));
    let near = number.wrapping_add(random.below(9) as u64).wrapping_sub(4);
    input[to..to + 8].copy_from_slice(&near.to_le_bytes());
}

/// SplitMix64.
struct Random(u64);

impl Random {
    fn next(&mut self) -> u64 {
        self.0 = self.0.wrapping_add(0x9e37_79b9_7f4a_7c15);
        let mixed = (self.0 ^ (self.0 >> 30)).wrapping_mul(0xbf58_476d_1ce4_e5b9);
        let mixed = (mixed ^ (mixed >> 27)).wrapping_mul(0x94d0_49bb_1331_11eb);
        mixed ^ (mixed >> 31)
    }

    fn below(&mut self, end: usize) -> usize {
        (self.next() % end as u64) as usize
    }

    fn of<'a, T>(&mut self, values: &'a [T]) -> &'a T {
        &values[self.below(values.len())]
    }

    /// A place in an input: one of eight in the bytes that each input has.
    fn place(&mut self, input: &[u8]) -> usize {
        if self.below(8) == 0 || input.len() == FIXED {
            self.below(FIXED)
        } else {
            FIXED + self.below(input.len() - FIXED)
        }
    }

    /// A place behind the bytes that each input has, or the end.
    fn place_behind(&mut self, input: &[u8]) -> usize {
        FIXED + self.below(input.len() - FIXED + 1)
    }

    /// A part behind these bytes.
    fn part(&mut self, input: &[u8]) -> std::ops::Range<usize> {
        let start = self.place_behind(input);
        start..(start + 1 + self.below(PART)).min(input.len())
    }
}
