//! The arguments that the comparisons try: limits of what an argument ranges over, and random ones
//! from a generator whose seed is printed.

/// What an argument ranges over.
#[derive(Debug, Clone, Copy, PartialEq, Eq)]
pub enum Argument {
    /// 64 bits.
    Word,
    /// 64 bits that the original does not look at.
    Unread,
    /// 64 bits of which a token takes 48.
    Id,
    /// 8 bits.
    Byte,
    /// 8 bits of which a token takes 4.
    Nibble,
    /// 32 bits.
    Rights,
    /// The number of one of the four flags.
    Flag,
    /// Up to 16 flags, one a hex digit, the first lowest; the digit 0 ends the list.
    Flags,
    /// 8 bits: which of the nine constants of `Rights`, or past the last.
    Constant,
}

impl Argument {
    /// The limits for the live comparison: all that matter, in all combinations.
    fn limits(self) -> Vec<u64> {
        match self {
            Argument::Word | Argument::Id => around_powers(64),
            Argument::Unread => vec![0, u64::MAX],
            Argument::Byte | Argument::Nibble => vec![0, 1, 2, 14, 15, 16, 17, 127, 128, 254, 255],
            Argument::Rights => around_powers(32),
            Argument::Flag | Argument::Constant => (0..=255).collect(),
            Argument::Flags => (0..=0xFFFF).collect(),
        }
    }

    /// The limits for the fixed list: few, and one argument at a time.
    fn few_limits(self) -> Vec<u64> {
        match self {
            Argument::Word | Argument::Id => {
                vec![0, 1, (1 << 48) - 1, 1 << 48, 1 << 56, 1 << 60, u64::MAX]
            }
            Argument::Byte | Argument::Nibble => vec![0, 1, 15, 16, 255],
            Argument::Rights => vec![0, 1, 8, 15, 16, 255, 1 << 16, 1 << 31, u32::MAX.into()],
            Argument::Flag => vec![0, 1, 2, 3, 4, 8, 9, 255],
            Argument::Flags => vec![0, 1, 0x8421, 0x1248, 0x11, 0x3, 0x14, 0x801, 0x31, u64::MAX / 15],
            Argument::Constant => (0..=8).collect(),
            Argument::Unread => self.limits(),
        }
    }

    fn random(self, random: &mut Random) -> u64 {
        match self {
            Argument::Word | Argument::Unread => random.up_to_width(64),
            Argument::Id => random.mostly_up_to_width(48, 64),
            Argument::Byte => random.up_to_width(8),
            Argument::Nibble => random.mostly_up_to_width(4, 8),
            Argument::Rights => random.up_to_width(32),
            Argument::Flag => 1 << random.below(4),
            Argument::Flags => (0..random.below(17)).fold(0, |list, _| list << 4 | 1 << random.below(4)),
            Argument::Constant => random.below(9),
        }
    }
}

/// Every combination of the arguments' limits.
pub fn all_limits(arguments: &[Argument]) -> impl Iterator<Item = [u64; 4]> {
    let lists: Vec<Vec<u64>> = arguments.iter().map(|argument| argument.limits()).collect();
    let count = lists.iter().map(Vec::len).product();
    (0..count).map(move |number| {
        let mut rest: usize = number;
        let mut words = [0; 4];
        for (word, list) in words.iter_mut().zip(&lists) {
            *word = list[rest % list.len()];
            rest /= list.len();
        }
        words
    })
}

/// Each argument at each of its few limits, the others random.
pub fn few_limits(arguments: &[Argument], random: &mut Random) -> Vec<[u64; 4]> {
    let mut calls = Vec::new();
    for (place, argument) in arguments.iter().enumerate() {
        for limit in argument.few_limits() {
            let mut words = random_arguments(arguments, random);
            words[place] = limit;
            calls.push(words);
        }
    }
    calls
}

pub fn random_arguments(arguments: &[Argument], random: &mut Random) -> [u64; 4] {
    let mut words = [0; 4];
    for (word, argument) in words.iter_mut().zip(arguments) {
        *word = argument.random(random);
    }
    words
}

/// Lists of at most two bytes, whatever they are.
pub fn short_byte_lists() -> impl Iterator<Item = Vec<u8>> {
    let ones = (0..=255).map(|byte| vec![byte]);
    let twos = (0..=255).flat_map(|first| (0..=255).map(move |second| vec![first, second]));
    [vec![]].into_iter().chain(ones).chain(twos)
}

/// Up to 32 flags' numbers, or one time in two with one byte among them that may be any other.
pub fn random_byte_list(random: &mut Random) -> Vec<u8> {
    let mut bytes: Vec<u8> = (0..random.below(33)).map(|_| 1 << random.below(4)).collect();
    if !bytes.is_empty() && random.below(2) == 0 {
        let place = random.below(bytes.len() as u64);
        bytes[place as usize] = random.below(256) as u8;
    }
    bytes
}

/// Each power of two below the width, its neighbours, all bits but that one, and all bits.
fn around_powers(width: u32) -> Vec<u64> {
    let all = u64::MAX >> (64 - width);
    let mut words: Vec<u64> =
        (0..width).map(|k| 1 << k).flat_map(|bit: u64| [bit - 1, bit, bit + 1, all - bit]).chain([all]).collect();
    words.sort_unstable();
    words.dedup();
    words
}

/// SplitMix64.
pub struct Random(u64);

impl Random {
    pub fn new(seed: u64) -> Self {
        Self(seed)
    }

    pub fn word(&mut self) -> u64 {
        self.0 = self.0.wrapping_add(0x9E37_79B9_7F4A_7C15);
        let mut z = self.0;
        z = (z ^ (z >> 30)).wrapping_mul(0xBF58_476D_1CE4_E5B9);
        z = (z ^ (z >> 27)).wrapping_mul(0x94D0_49BB_1331_11EB);
        z ^ (z >> 31)
    }

    pub fn below(&mut self, n: u64) -> u64 {
        self.word() % n
    }

    /// A number of `width` bits at most: half of them of any bits, half of a random width, so that
    /// small ones come up too.
    pub fn up_to_width(&mut self, width: u32) -> u64 {
        let bits = if self.below(2) == 0 { width } else { self.below(width.into()) as u32 + 1 };
        self.word() >> (64 - bits)
    }

    /// A number that fits `width`, or one time in eight one of `wider` bits at most.
    pub fn mostly_up_to_width(&mut self, width: u32, wider: u32) -> u64 {
        let most = if self.below(8) == 0 { wider } else { width };
        self.up_to_width(most)
    }
}
