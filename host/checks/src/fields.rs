//! The fields of a state's image, for building one and for looking into one.

pub const IMAGE_LEN: usize = 1024;
pub const HEARD: usize = 16;
pub const CANDIDATES: usize = 276;
pub const ECHOES: usize = 536;
pub const FIRST_ROUNDS: usize = 796;
pub const RESERVED: usize = 860;

#[derive(Clone, Debug)]
pub struct Fields {
    pub number: u32,
    pub round: u32,
    pub bit: u8,
    pub said: u8,
    pub strong: u8,
    pub king: u32,
    pub decision: u8,
    pub heard: Vec<u32>,
    pub candidates: Vec<u32>,
    pub echoes: Vec<u32>,
    /// One for each number of heard.
    pub first_rounds: Vec<u8>,
}

impl Fields {
    /// The image of these fields; each list has at most 64 numbers.
    pub fn image(&self) -> Vec<u8> {
        let mut image = vec![0; IMAGE_LEN];
        put(&mut image, 0, self.number);
        put(&mut image, 4, self.round);
        image[8] = self.bit;
        image[9] = self.said;
        image[10] = self.strong;
        put(&mut image, 11, self.king);
        image[15] = self.decision;
        put_list(&mut image, HEARD, &self.heard);
        put_list(&mut image, CANDIDATES, &self.candidates);
        put_list(&mut image, ECHOES, &self.echoes);
        image[FIRST_ROUNDS..][..self.heard.len()].copy_from_slice(&self.first_rounds);
        image
    }

    /// The fields of a sound image.
    pub fn of(image: &[u8]) -> Fields {
        let heard = list(image, HEARD);
        Fields {
            number: get(image, 0),
            round: get(image, 4),
            bit: image[8],
            said: image[9],
            strong: image[10],
            king: get(image, 11),
            decision: image[15],
            candidates: list(image, CANDIDATES),
            echoes: list(image, ECHOES),
            first_rounds: image[FIRST_ROUNDS..][..heard.len()].to_vec(),
            heard,
        }
    }

    /// Every heard number with its first round.
    pub fn record(&self) -> Vec<(u32, u32)> {
        let rounds = self.first_rounds.iter().map(|&round| u32::from(round));
        self.heard.iter().copied().zip(rounds).collect()
    }

    pub fn undecided(&self) -> bool {
        self.decision == 2
    }
}

/// Numbers in an image are little-endian.
pub fn put(image: &mut [u8], at: usize, number: u32) {
    image[at..at + 4].copy_from_slice(&number.to_le_bytes());
}

pub fn get(image: &[u8], at: usize) -> u32 {
    u32::from_le_bytes([image[at], image[at + 1], image[at + 2], image[at + 3]])
}

fn put_list(image: &mut [u8], at: usize, list: &[u32]) {
    put(image, at, list.len() as u32);
    for (place, &number) in list.iter().enumerate() {
        put(image, at + 4 + 4 * place, number);
    }
}

fn list(image: &[u8], at: usize) -> Vec<u32> {
    (0..get(image, at) as usize)
        .map(|place| get(image, at + 4 + 4 * place))
        .collect()
}
