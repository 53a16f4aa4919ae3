//! Keccak with a rate of 136 bytes and a digest of 32, as FIPS 202 describes
//! it; the first byte of the padding is a parameter, since that alone tells
//! Keccak-256 from SHA3-256. Rotations and round constants are computed by
//! their rules.

/// Keccak-256 (02, Item 10).
pub const KECCAK: u8 = 0x01;
/// SHA3-256.
pub const SHA3: u8 = 0x06;

/// The bytes of a block.
pub const RATE: usize = 136;

/// `state[x][y]` is the lane at x, y.
type State = [[u64; 5]; 5];

/// How far rho rotates the lane at x, y (3.2.2, Algorithm 2).
fn offsets() -> [[u32; 5]; 5] {
    let mut offsets = [[0; 5]; 5];
    let (mut x, mut y) = (1, 0);
    for t in 0..24 {
        offsets[x][y] = (t + 1) * (t + 2) / 2 % 64;
        (x, y) = (y, (2 * x + 3 * y) % 5);
    }
    offsets
}

/// The bits of a shift register, one for each step (3.2.5, Algorithm 5).
fn register() -> impl Iterator<Item = bool> {
    let mut bits = 1u32;
    std::iter::from_fn(move || {
        let out = bits & 1 == 1;
        bits <<= 1;
        if bits & 0x100 != 0 {
            bits ^= 0x171;
        }
        Some(out)
    })
}

/// What iota does to the lane at 0, 0 in each round (3.2.5, Algorithm 6).
fn constants() -> [u64; 24] {
    let mut bits = register();
    std::array::from_fn(|_| {
        (0..7).filter_map(|j| bits.next().filter(|set| *set).map(|_| 1u64 << ((1 << j) - 1))).sum::<u64>()
    })
}

fn theta(a: State) -> State {
    let column: [u64; 5] = std::array::from_fn(|x| a[x].iter().fold(0, |c, lane| c ^ lane));
    std::array::from_fn(|x| {
        let d = column[(x + 4) % 5] ^ column[(x + 1) % 5].rotate_left(1);
        a[x].map(|lane| lane ^ d)
    })
}

fn rho(a: State, offsets: &[[u32; 5]; 5]) -> State {
    std::array::from_fn(|x| std::array::from_fn(|y| a[x][y].rotate_left(offsets[x][y])))
}

fn pi(a: State) -> State {
    std::array::from_fn(|x| std::array::from_fn(|y| a[(x + 3 * y) % 5][x]))
}

fn chi(a: State) -> State {
    std::array::from_fn(|x| std::array::from_fn(|y| a[x][y] ^ (!a[(x + 1) % 5][y] & a[(x + 2) % 5][y])))
}

/// The permutation with its tables.
pub struct Keccak {
    offsets: [[u32; 5]; 5],
    constants: [u64; 24],
}

impl Default for Keccak {
    fn default() -> Self {
        Keccak { offsets: offsets(), constants: constants() }
    }
}

impl Keccak {
    fn permute(&self, mut a: State) -> State {
        for constant in self.constants {
            a = chi(pi(rho(theta(a), &self.offsets)));
            a[0][0] ^= constant;
        }
        a
    }

    /// The digest of a message: padded to whole blocks, absorbed block by
    /// block, and the first 32 bytes of the state.
    pub fn digest(&self, message: &[u8], padding: u8) -> [u8; 32] {
        let mut padded = message.to_vec();
        padded.push(padding);
        padded.resize(padded.len().next_multiple_of(RATE), 0);
        *padded.last_mut().expect("a block") |= 0x80;

        let mut a = [[0; 5]; 5];
        for block in padded.chunks_exact(RATE) {
            for (i, lane) in block.chunks_exact(8).enumerate() {
                a[i % 5][i / 5] ^= u64::from_le_bytes(lane.try_into().expect("eight bytes"));
            }
            a = self.permute(a);
        }
        let mut out = [0; 32];
        for (i, lane) in out.chunks_exact_mut(8).enumerate() {
            lane.copy_from_slice(&a[i][0].to_le_bytes());
        }
        out
    }
}

/// Keccak-256 of a message.
pub fn keccak256(message: &[u8]) -> [u8; 32] {
    Keccak::default().digest(message, KECCAK)
}
