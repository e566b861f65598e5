//! SHA-384 by FIPS 180-4, for the second implementation. Its constants are computed from their
//! definition, the roots of the first primes, and not copied from a table.

struct Constants {
    rounds: [u64; 80],
    start: [u64; 8],
}

impl Constants {
    fn new() -> Constants {
        let primes = primes(80);
        let mut constants = Constants {
            rounds: [0; 80],
            start: [0; 8],
        };
        for (k, &prime) in primes.iter().enumerate() {
            constants.rounds[k] = fraction_of_root(prime, 3);
        }
        for k in 0..8 {
            constants.start[k] = fraction_of_root(primes[8 + k], 2);
        }
        constants
    }
}

thread_local! {
    static CONSTANTS: Constants = Constants::new();
}

fn primes(count: usize) -> Vec<u32> {
    let mut found: Vec<u32> = Vec::new();
    let mut candidate = 2;
    while found.len() < count {
        if found.iter().all(|prime| candidate % prime != 0) {
            found.push(candidate);
        }
        candidate += 1;
    }
    found
}

/// The first 64 bits of the fraction of the square root (`power` 2) or cube root (3) of a prime:
/// the largest whole x with x^power at most prime * 2^(64 * power), without its part above 2^64.
fn fraction_of_root(prime: u32, power: usize) -> u64 {
    let mut bound = vec![0; 2 * power];
    bound.push(prime);
    let mut root: u128 = 0;
    for bit in (0..70).rev() {
        let tried = root | 1 << bit;
        let limbs: Vec<u32> = (0..3).map(|k| (tried >> (32 * k)) as u32).collect();
        let raised = (1..power).fold(limbs.clone(), |product, _| multiply(&product, &limbs));
        if !above(&raised, &bound) {
            root = tried;
        }
    }
    root as u64
}

/// The product of two whole numbers, held as 32-bit limbs from the lowest up.
fn multiply(a: &[u32], b: &[u32]) -> Vec<u32> {
    let mut product = vec![0; a.len() + b.len()];
    for (i, &x) in a.iter().enumerate() {
        let mut carry = 0;
        for (j, &y) in b.iter().enumerate() {
            let sum = u64::from(x) * u64::from(y) + u64::from(product[i + j]) + carry;
            product[i + j] = sum as u32;
            carry = sum >> 32;
        }
        product[i + b.len()] = carry as u32;
    }
    product
}

fn above(a: &[u32], b: &[u32]) -> bool {
    let limb = |number: &[u32], k: usize| number.get(k).copied().unwrap_or(0);
    for k in (0..a.len().max(b.len())).rev() {
        if limb(a, k) != limb(b, k) {
            return limb(a, k) > limb(b, k);
        }
    }
    false
}

pub fn sha384(message: &[u8]) -> [u8; 48] {
    CONSTANTS.with(|constants| hash(constants, message))
}

/// The initial hash value.
pub fn start() -> [u64; 8] {
    CONSTANTS.with(|constants| constants.start)
}

/// The hash value after one more block.
pub fn after_block(hash: [u64; 8], block: &[u8; 128]) -> [u64; 8] {
    let mut next = hash;
    CONSTANTS.with(|constants| compress(constants, &mut next, block));
    next
}

/// The hash value's left-most 384 bits.
pub fn left_most(hash: &[u64; 8]) -> [u8; 48] {
    let mut digest = [0; 48];
    for k in 0..6 {
        digest[8 * k..8 * k + 8].copy_from_slice(&hash[k].to_be_bytes());
    }
    digest
}

fn hash(constants: &Constants, message: &[u8]) -> [u8; 48] {
    let mut state = constants.start;
    let whole = message.len() / 128 * 128;
    for block in message[..whole].chunks(128) {
        compress(constants, &mut state, block);
    }
    let mut rest = message[whole..].to_vec();
    rest.push(0x80);
    while rest.len() % 128 != 112 {
        rest.push(0);
    }
    rest.extend((message.len() as u128 * 8).to_be_bytes());
    for block in rest.chunks(128) {
        compress(constants, &mut state, block);
    }
    left_most(&state)
}

fn compress(constants: &Constants, state: &mut [u64; 8], block: &[u8]) {
    let mut w = [0u64; 80];
    for t in 0..16 {
        let mut word = [0; 8];
        word.copy_from_slice(&block[8 * t..8 * t + 8]);
        w[t] = u64::from_be_bytes(word);
    }
    for t in 16..80 {
        let low = w[t - 15].rotate_right(1) ^ w[t - 15].rotate_right(8) ^ (w[t - 15] >> 7);
        let high = w[t - 2].rotate_right(19) ^ w[t - 2].rotate_right(61) ^ (w[t - 2] >> 6);
        w[t] = high
            .wrapping_add(w[t - 7])
            .wrapping_add(low)
            .wrapping_add(w[t - 16]);
    }
    let [mut a, mut b, mut c, mut d, mut e, mut f, mut g, mut h] = *state;
    for t in 0..80 {
        let sum1 = e.rotate_right(14) ^ e.rotate_right(18) ^ e.rotate_right(41);
        let choice = (e & f) ^ (!e & g);
        let one = h
            .wrapping_add(sum1)
            .wrapping_add(choice)
            .wrapping_add(constants.rounds[t])
            .wrapping_add(w[t]);
        let sum0 = a.rotate_right(28) ^ a.rotate_right(34) ^ a.rotate_right(39);
        let majority = (a & b) ^ (a & c) ^ (b & c);
        let two = sum0.wrapping_add(majority);
        h = g;
        g = f;
        f = e;
        e = d.wrapping_add(one);
        d = c;
        c = b;
        b = a;
        a = one.wrapping_add(two);
    }
    for (word, more) in state.iter_mut().zip([a, b, c, d, e, f, g, h]) {
        *word = word.wrapping_add(more);
    }
}
