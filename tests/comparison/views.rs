//! The page view: for every record of an accepted plan, and for records that were damaged.

use crate::lent;
use crate::library;
use crate::noise::Random;
use crate::second;

/// No byte of either slice is read by a view, so what is lent cannot even be read. The stretch is
/// longer than 2^32 bytes: an offset of 32 bits and its length may then end past 2^32.
const STRETCH: usize = (1 << 32) + (1 << 20);

pub struct Views {
    stretch: *const u8,
    pub compared: u64,
    pub with_data: u64,
}

impl Views {
    pub fn new() -> Views {
        Views {
            stretch: lent::unreadable(STRETCH),
            compared: 0,
            with_data: 0,
        }
    }

    /// Compares the view of one record in slices of these lengths.
    pub fn compare(
        &mut self,
        lengths: (usize, usize),
        offset: u32,
        length: u16,
        sort: u8,
    ) -> Result<(u32, u32, u32), String> {
        let (image, hob) = lengths;
        let view =
            unsafe { library::tdload_view(self.stretch, image, self.stretch, hob, offset, length, sort) };
        let view = (view.slice, view.offset, view.length);
        let expected = second::view(image, hob, offset, length, sort);
        self.compared += 1;
        self.with_data += u64::from(view.0 != 0);
        if view == expected {
            return Ok(view);
        }
        Err(format!(
            "the view of offset {offset}, length {length}, type {sort} in an image of {image} bytes \
             and a HOB list of {hob}: the library answers {view:?} and the second loader {expected:?}"
        ))
    }

    /// Each record of a plan, and after it two damaged ones. A record of a plan shows just the
    /// bytes that it names.
    pub fn compare_plan(&mut self, image: &[u8], list: &[u8], plan: &[u8], pages: u64) -> Result<(), String> {
        let lengths = (image.len(), list.len());
        let mut random = Random::new(pages, image.len() as u64);
        for record in plan.chunks(16).take(pages as usize) {
            let offset = u32::from_le_bytes([record[8], record[9], record[10], record[11]]);
            let length = u16::from_le_bytes([record[12], record[13]]);
            let view = self.compare(lengths, offset, length, record[14])?;
            if view.2 != u32::from(length) || view.1 != offset {
                return Err(format!(
                    "a record of the plan shows {view:?}, and names {length} bytes at {offset}"
                ));
            }
            for _ in 0..2 {
                self.compare_damaged(lengths, offset, length, record[14], &mut random)?;
            }
        }
        Ok(())
    }

    fn compare_damaged(
        &mut self,
        lengths: (usize, usize),
        offset: u32,
        length: u16,
        sort: u8,
        random: &mut Random,
    ) -> Result<(), String> {
        let (mut offset, mut length, mut sort) = (offset, length, sort);
        let room = if sort == 2 { lengths.1 } else { lengths.0 } as u32;
        match random.below(8) {
            0 => offset ^= 1 << random.below(32),
            1 => length ^= 1 << random.below(16),
            2 => sort ^= 1 << random.below(8),
            3 => offset = room.wrapping_sub(u32::from(length)),
            4 => offset = room.wrapping_sub(u32::from(length)).wrapping_add(1),
            5 => length = random.pick(&[0, 1, 4095, 4096, 4097, 8192, 65_535]),
            6 => sort = random.below(256) as u8,
            _ => {
                offset = random.next() as u32;
                length = random.next() as u16;
            }
        }
        self.compare(lengths, offset, length, sort).map(|_| ())
    }

    /// Each bound of the view from both sides, in slices of many lengths.
    pub fn compare_edges(&mut self) -> Result<(), String> {
        let slices: [usize; 12] = [
            0,
            1,
            255,
            4095,
            4096,
            4097,
            65_536,
            16_777_216,
            (1 << 32) - 1,
            1 << 32,
            (1 << 32) + 1,
            (1 << 32) + 5000,
        ];
        let sizes: [u16; 9] = [0, 1, 2, 4095, 4096, 4097, 8192, 32_768, 65_535];
        for image in slices {
            for hob in slices {
                for length in sizes {
                    for sort in [0, 1, 2, 3, 4, 128, 255] {
                        for offset in edges(image, length).into_iter().chain(edges(hob, length)) {
                            self.compare((image, hob), offset, length, sort)?;
                        }
                    }
                }
            }
        }
        Ok(())
    }
}

/// Offsets around the last one at which so many bytes fit.
fn edges(slice: usize, length: u16) -> Vec<u32> {
    let last = slice as i128 - i128::from(length);
    let near = [
        0,
        1,
        last - 1,
        last,
        last + 1,
        slice as i128,
        i128::from(u32::MAX),
    ];
    near.iter()
        .filter_map(|&offset| u32::try_from(offset).ok())
        .collect()
}
