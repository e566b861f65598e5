//! A launch as a set of fields that can be changed one by one, and its bytes. A field may hold
//! anything: most launches that are tried are broken on purpose.

use crate::noise::LONGEST;

pub const PAGE: u64 = 4096;
pub const LONGEST_IMAGE: usize = 16_777_216;

pub const BFV: u32 = 0;
pub const CFV: u32 = 1;
pub const TD_HOB: u32 = 2;
pub const TEMPORARY: u32 = 3;

pub const RAM: u32 = 1;
pub const FIRMWARE: u32 = 2;
pub const MMIO: u32 = 3;

#[derive(Clone, Copy, Debug, PartialEq, Eq)]
pub struct Section {
    pub offset: u32,
    pub raw: u32,
    pub address: u64,
    pub size: u64,
    pub sort: u32,
    pub attributes: u32,
}

#[derive(Clone, Copy, Debug, PartialEq, Eq)]
pub struct Record {
    pub start: u64,
    pub length: u64,
    pub kind: u32,
    pub zero: u32,
}

#[derive(Clone, Debug, PartialEq, Eq)]
pub struct Draft {
    /// L, the image's length.
    pub length: usize,
    /// D, the descriptor's start.
    pub start: u32,
    pub signature: [u8; 4],
    pub descriptor_length: u32,
    pub version: u32,
    pub count: u32,
    pub sections: Vec<Section>,
    pub records: Vec<Record>,
    /// The map is cut to this length, or zeros follow up to it.
    pub map_length: Option<usize>,
    pub width: u32,
    pub plan_length: usize,
    pub hob_length: usize,
    /// Where in the noise the image's other bytes come from.
    pub filler: usize,
    /// The map's records are written to the image's start, and the same bytes are lent twice.
    pub map_in_image: bool,
    /// Bytes changed at the end: a place, taken modulo the length, and what it is changed by.
    pub image_flips: Vec<(usize, u8)>,
    pub map_flips: Vec<(usize, u8)>,
}

/// A launch as it is lent to the library.
#[derive(Default)]
pub struct Launch {
    pub image: Vec<u8>,
    pub map: Vec<u8>,
    pub width: u32,
    pub plan_length: usize,
    pub hob_length: usize,
    /// The map is the image's first bytes.
    pub map_in_image: bool,
}

pub fn section(offset: u32, raw: u32, address: u64, size: u64, sort: u32, attributes: u32) -> Section {
    Section {
        offset,
        raw,
        address,
        size,
        sort,
        attributes,
    }
}

pub fn record(start: u64, length: u64, kind: u32) -> Record {
    Record {
        start,
        length,
        kind,
        zero: 0,
    }
}

impl Section {
    fn bytes(&self) -> Vec<u8> {
        let mut bytes = Vec::new();
        bytes.extend_from_slice(&self.offset.to_le_bytes());
        bytes.extend_from_slice(&self.raw.to_le_bytes());
        bytes.extend_from_slice(&self.address.to_le_bytes());
        bytes.extend_from_slice(&self.size.to_le_bytes());
        bytes.extend_from_slice(&self.sort.to_le_bytes());
        bytes.extend_from_slice(&self.attributes.to_le_bytes());
        bytes
    }
}

impl Record {
    pub fn end(&self) -> u64 {
        self.start.wrapping_add(self.length)
    }

    fn bytes(&self) -> Vec<u8> {
        let mut bytes = Vec::new();
        bytes.extend_from_slice(&self.start.to_le_bytes());
        bytes.extend_from_slice(&self.length.to_le_bytes());
        bytes.extend_from_slice(&self.kind.to_le_bytes());
        bytes.extend_from_slice(&self.zero.to_le_bytes());
        bytes
    }
}

impl Draft {
    /// A launch with these sections and records: the descriptor ends at L - 32, and the buffers
    /// have just the length that is asked for.
    pub fn new(length: usize, sections: Vec<Section>, records: Vec<Record>) -> Draft {
        let mut draft = Draft {
            length,
            start: 0,
            signature: *b"TDVF",
            descriptor_length: 0,
            version: 1,
            count: 0,
            sections,
            records,
            map_length: None,
            width: 48,
            plan_length: 65_536,
            hob_length: 8_192,
            filler: 0,
            map_in_image: false,
            image_flips: Vec::new(),
            map_flips: Vec::new(),
        };
        draft.count_sections();
        draft.start = (length - 32) as u32 - draft.descriptor_length;
        draft
    }

    /// Sets the two fields that depend on the number of sections.
    pub fn count_sections(&mut self) {
        self.count = self.sections.len() as u32;
        self.descriptor_length = 16 + 32 * self.count;
    }

    /// The launch's bytes, into vectors that are used again.
    pub fn render(&self, noise: &[u8], launch: &mut Launch) {
        launch.width = self.width;
        launch.plan_length = self.plan_length;
        launch.hob_length = self.hob_length;
        self.render_map(&mut launch.map);
        self.render_image(noise, &mut launch.image);
        launch.map_in_image = self.map_in_image && launch.map.len() <= launch.image.len();
        if launch.map_in_image {
            launch.image[..launch.map.len()].copy_from_slice(&launch.map);
        }
        flip(&mut launch.image, &self.image_flips);
        if launch.map_in_image {
            // Last: what was changed in the image is what the map holds.
            let length = launch.map.len();
            launch.map.copy_from_slice(&launch.image[..length]);
        } else {
            flip(&mut launch.map, &self.map_flips);
        }
    }

    fn render_map(&self, map: &mut Vec<u8>) {
        map.clear();
        for record in &self.records {
            map.extend(record.bytes());
        }
        if let Some(length) = self.map_length {
            map.resize(length, 0);
        }
    }

    fn render_image(&self, noise: &[u8], image: &mut Vec<u8>) {
        assert!(self.length <= LONGEST, "no image is so long");
        image.clear();
        image.extend_from_slice(&noise[self.filler..self.filler + self.length]);
        let mut descriptor = self.signature.to_vec();
        descriptor.extend_from_slice(&self.descriptor_length.to_le_bytes());
        descriptor.extend_from_slice(&self.version.to_le_bytes());
        descriptor.extend_from_slice(&self.count.to_le_bytes());
        for section in &self.sections {
            descriptor.extend(section.bytes());
        }
        write_at(image, self.start as usize, &descriptor);
        if self.length >= 32 {
            // After the descriptor: where the two overlap, D stands.
            write_at(image, self.length - 32, &self.start.to_le_bytes());
        }
    }
}

/// Writes what of the bytes lies in the image.
fn write_at(image: &mut [u8], at: usize, bytes: &[u8]) {
    if at < image.len() {
        let size = bytes.len().min(image.len() - at);
        image[at..at + size].copy_from_slice(&bytes[..size]);
    }
}

fn flip(bytes: &mut [u8], flips: &[(usize, u8)]) {
    for &(place, by) in flips {
        if !bytes.is_empty() {
            let at = place % bytes.len();
            bytes[at] ^= by;
        }
    }
}
