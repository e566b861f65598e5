//! What the benchmarks share: three SHA-384s, a clock that is fair to all that it times, and what is
//! said of the machine.

use std::ffi::CStr;
use std::os::raw::{c_char, c_int, c_uint, c_void};
use std::time::Instant;

pub type Digest = [u8; 48];

// ---- this repository's

pub fn proved(message: &[u8]) -> Digest {
    tdload::sha384(message)
}

// ---- OpenSSL's

extern "C" {
    fn EVP_sha384() -> *const c_void;
    fn EVP_Digest(data: *const c_void, count: usize, md: *mut u8, size: *mut c_uint, kind: *const c_void, engine: *mut c_void) -> c_int;
    fn OpenSSL_version(which: c_int) -> *const c_char;
}

pub fn openssl(message: &[u8]) -> Digest {
    let mut digest = [0; 48];
    let (null, no_size) = (std::ptr::null_mut(), std::ptr::null_mut());
    let done = unsafe { EVP_Digest(message.as_ptr().cast(), message.len(), digest.as_mut_ptr(), no_size, EVP_sha384(), null) };
    assert_eq!(done, 1, "EVP_Digest failed");
    digest
}

// ---- the plain one: FIPS 180-4 as it is written, with its schedule of 80 words

const K: [u64; 80] = [
    0x428a2f98d728ae22, 0x7137449123ef65cd, 0xb5c0fbcfec4d3b2f, 0xe9b5dba58189dbbc,
    0x3956c25bf348b538, 0x59f111f1b605d019, 0x923f82a4af194f9b, 0xab1c5ed5da6d8118,
    0xd807aa98a3030242, 0x12835b0145706fbe, 0x243185be4ee4b28c, 0x550c7dc3d5ffb4e2,
    0x72be5d74f27b896f, 0x80deb1fe3b1696b1, 0x9bdc06a725c71235, 0xc19bf174cf692694,
    0xe49b69c19ef14ad2, 0xefbe4786384f25e3, 0x0fc19dc68b8cd5b5, 0x240ca1cc77ac9c65,
    0x2de92c6f592b0275, 0x4a7484aa6ea6e483, 0x5cb0a9dcbd41fbd4, 0x76f988da831153b5,
    0x983e5152ee66dfab, 0xa831c66d2db43210, 0xb00327c898fb213f, 0xbf597fc7beef0ee4,
    0xc6e00bf33da88fc2, 0xd5a79147930aa725, 0x06ca6351e003826f, 0x142929670a0e6e70,
    0x27b70a8546d22ffc, 0x2e1b21385c26c926, 0x4d2c6dfc5ac42aed, 0x53380d139d95b3df,
    0x650a73548baf63de, 0x766a0abb3c77b2a8, 0x81c2c92e47edaee6, 0x92722c851482353b,
    0xa2bfe8a14cf10364, 0xa81a664bbc423001, 0xc24b8b70d0f89791, 0xc76c51a30654be30,
    0xd192e819d6ef5218, 0xd69906245565a910, 0xf40e35855771202a, 0x106aa07032bbd1b8,
    0x19a4c116b8d2d0c8, 0x1e376c085141ab53, 0x2748774cdf8eeb99, 0x34b0bcb5e19b48a8,
    0x391c0cb3c5c95a63, 0x4ed8aa4ae3418acb, 0x5b9cca4f7763e373, 0x682e6ff3d6b2b8a3,
    0x748f82ee5defb2fc, 0x78a5636f43172f60, 0x84c87814a1f0ab72, 0x8cc702081a6439ec,
    0x90befffa23631e28, 0xa4506cebde82bde9, 0xbef9a3f7b2c67915, 0xc67178f2e372532b,
    0xca273eceea26619c, 0xd186b8c721c0c207, 0xeada7dd6cde0eb1e, 0xf57d4f7fee6ed178,
    0x06f067aa72176fba, 0x0a637dc5a2c898a6, 0x113f9804bef90dae, 0x1b710b35131c471b,
    0x28db77f523047d84, 0x32caab7b40c72493, 0x3c9ebe0a15c9bebc, 0x431d67c49c100d4c,
    0x4cc5d4becb3e42b6, 0x597f299cfc657e2a, 0x5fcb6fab3ad6faec, 0x6c44198c4a475817,
];

const H: [u64; 8] = [
    0xcbbb9d5dc1059ed8, 0x629a292a367cd507, 0x9159015a3070dd17, 0x152fecd8f70e5939,
    0x67332667ffc00b31, 0x8eb44a8768581511, 0xdb0c2e0d64f98fa7, 0x47b5481dbefa4fa4,
];

fn compress(h: &mut [u64; 8], block: &[u8]) {
    let mut w = [0u64; 80];
    for (word, bytes) in w.iter_mut().zip(block.chunks_exact(8)) {
        *word = u64::from_be_bytes(bytes.try_into().unwrap());
    }
    for t in 16..80 {
        let (x, y) = (w[t - 15], w[t - 2]);
        let s0 = x.rotate_right(1) ^ x.rotate_right(8) ^ (x >> 7);
        let s1 = y.rotate_right(19) ^ y.rotate_right(61) ^ (y >> 6);
        w[t] = w[t - 16].wrapping_add(s0).wrapping_add(w[t - 7]).wrapping_add(s1);
    }
    let [mut a, mut b, mut c, mut d, mut e, mut f, mut g, mut last] = *h;
    for t in 0..80 {
        let s1 = e.rotate_right(14) ^ e.rotate_right(18) ^ e.rotate_right(41);
        let choice = (e & f) ^ (!e & g);
        let t1 = last.wrapping_add(s1).wrapping_add(choice).wrapping_add(K[t]).wrapping_add(w[t]);
        let s0 = a.rotate_right(28) ^ a.rotate_right(34) ^ a.rotate_right(39);
        let majority = (a & b) ^ (a & c) ^ (b & c);
        let t2 = s0.wrapping_add(majority);
        (last, g, f, e) = (g, f, e, d.wrapping_add(t1));
        (d, c, b, a) = (c, b, a, t1.wrapping_add(t2));
    }
    for (word, add) in h.iter_mut().zip([a, b, c, d, e, f, g, last]) {
        *word = word.wrapping_add(add);
    }
}

pub fn plain(message: &[u8]) -> Digest {
    let mut h = H;
    let blocks = message.chunks_exact(128);
    let rest = blocks.remainder();
    // The rest, a one bit, zeros and the length in bits as 16 bytes fill one block or two.
    let mut end = [0; 256];
    let size = if rest.len() < 112 { 128 } else { 256 };
    end[..rest.len()].copy_from_slice(rest);
    end[rest.len()] = 0x80;
    end[size - 16..size].copy_from_slice(&(message.len() as u128 * 8).to_be_bytes());
    for block in blocks.chain(end[..size].chunks_exact(128)) {
        compress(&mut h, block);
    }
    let mut digest = [0; 48];
    for (bytes, word) in digest.chunks_exact_mut(8).zip(h) {
        bytes.copy_from_slice(&word.to_be_bytes());
    }
    digest
}

// ---- the clock

/// Bytes with no pattern, from a xorshift generator, so that no run is on zeros.
pub fn noise(length: usize) -> Vec<u8> {
    let mut state = 384u64;
    let mut next = || {
        state ^= state << 13;
        state ^= state >> 7;
        state ^= state << 17;
        state as u8
    };
    (0..length).map(|_| next()).collect()
}

fn seconds(job: &mut dyn FnMut()) -> f64 {
    let start = Instant::now();
    job();
    start.elapsed().as_secs_f64()
}

/// The median and the least time of each job. Each round times all of them, in an order that turns by
/// one each round, so that a slow moment of the machine falls on all and none is always first.
pub fn times(jobs: &mut [&mut dyn FnMut()], rounds: usize) -> Vec<(f64, f64)> {
    let count = jobs.len();
    let mut times = vec![Vec::new(); count];
    for job in jobs.iter_mut() {
        job(); // a warm-up, not counted
    }
    for round in 0..rounds {
        for turn in 0..count {
            let which = (round + turn) % count;
            let time = seconds(&mut *jobs[which]);
            times[which].push(time);
        }
    }
    for each in &mut times {
        each.sort_by(f64::total_cmp);
    }
    times.iter().map(|each| (each[rounds / 2], each[0])).collect()
}

// ---- the machine

fn cpu_model() -> String {
    let info = std::fs::read_to_string("/proc/cpuinfo").unwrap_or_default();
    let line = info.lines().find_map(|line| line.strip_prefix("model name"));
    line.map_or("not known".into(), |rest| rest.trim_start_matches([' ', '\t', ':']).into())
}

/// Says what the times were taken on.
pub fn print_machine() {
    let load = std::fs::read_to_string("/proc/loadavg").unwrap_or_default();
    println!("CPU      {}", cpu_model());
    println!("load     {} (/proc/loadavg, before)", load.trim_end());
    println!("rustc    {}", env!("RUSTC_VERSION"));
    println!("OpenSSL  {}", unsafe { CStr::from_ptr(OpenSSL_version(0)) }.to_string_lossy());
    println!();
}
