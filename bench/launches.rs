//! Images and maps for the benchmarks, and the largest launch.

use crate::common::noise;

pub const PAGE: u64 = 4096;
pub const RAM: u32 = 1;
pub const FIRMWARE: u32 = 2;
pub const HIGH: u64 = 0x1_0000_0000;

/// A section: data offset, raw size, memory address, memory size, type, attributes.
pub type Section = (u32, u32, u64, u64, u32, u32);
/// A map record: start, length, kind.
pub type Record = (u64, u64, u32);

pub struct Launch {
    pub image: Vec<u8>,
    pub map: Vec<u8>,
    pub plan: Vec<u8>,
    pub hob: Vec<u8>,
}

impl Launch {
    pub fn new(length: usize, sections: &[Section], records: &[Record]) -> Launch {
        let mut descriptor = b"TDVF".to_vec();
        for word in [16 + 32 * sections.len() as u32, 1, sections.len() as u32] {
            descriptor.extend(word.to_le_bytes());
        }
        for (offset, raw, address, size, sort, attributes) in sections {
            descriptor.extend([offset.to_le_bytes(), raw.to_le_bytes()].concat());
            descriptor.extend([address.to_le_bytes(), size.to_le_bytes()].concat());
            descriptor.extend([sort.to_le_bytes(), attributes.to_le_bytes()].concat());
        }
        let mut image = noise(length);
        let start = length - 32 - descriptor.len();
        image[start..length - 32].copy_from_slice(&descriptor);
        image[length - 32..length - 28].copy_from_slice(&(start as u32).to_le_bytes());
        let mut map = Vec::new();
        for (start, length, kind) in records {
            map.extend([start.to_le_bytes(), length.to_le_bytes()].concat());
            map.extend([kind.to_le_bytes(), [0; 4]].concat());
        }
        Launch { image, map, plan: vec![0; tdload::PLAN_SIZE], hob: vec![0; tdload::HOB_SIZE] }
    }

    pub fn run(&mut self) -> tdload::Accepted {
        let accepted = tdload::launch(&self.image, &self.map, 48, &mut self.plan, &mut self.hob);
        accepted.unwrap_or_else(|refusal| panic!("{refusal}"))
    }
}

/// 16 MiB, all measured but for the TD HOB's page: 4,096 pages.
pub fn all_measured() -> Launch {
    let size = 4095 * PAGE;
    Launch::new(
        16 << 20,
        &[(0, size as u32, HIGH, size, 0, 1), (0, 0, 0x9000, PAGE, 2, 0)],
        &[(0, 0x10000, RAM), (HIGH, 16 << 20, FIRMWARE)],
    )
}
