//! Why a launch or a turn of its measurement was refused, and where.

use std::fmt;

/// Where a rule is broken. Sections and map records count from 0.
#[derive(Clone, Copy, Debug, PartialEq, Eq, Hash)]
pub enum Place {
    /// The rule speaks of the launch as a whole.
    Nowhere,
    /// A section of the image's descriptor.
    Section(u64),
    /// A record of the memory map.
    Record(u64),
}

impl Place {
    /// From the two numbers of the C interface. A kind of place that the interface does not have is
    /// no place: the refusal's number still says what is wrong.
    pub(crate) fn from_numbers(place: u32, index: u64) -> Place {
        match place {
            1 => Place::Section(index),
            2 => Place::Record(index),
            _ => Place::Nowhere,
        }
    }

    /// The place's name as the listing prints it, or `None` where there is no place.
    pub fn name(self) -> Option<&'static str> {
        match self {
            Place::Nowhere => None,
            Place::Section(_) => Some("section"),
            Place::Record(_) => Some("record"),
        }
    }

    /// Which section or record, or `None` where there is no place.
    pub fn index(self) -> Option<u64> {
        match self {
            Place::Nowhere => None,
            Place::Section(index) | Place::Record(index) => Some(index),
        }
    }
}

/// What is wrong, by number.
const MEANINGS: [(u32, &str); 21] = [
    (1, "A lent buffer is too short: the plan needs 65,536 bytes and the hand-off list 8,192."),
    (2, "The guest address width is neither 48 nor 52."),
    (3, "The image has fewer than 32 bytes or more than 16,777,216."),
    (
        4,
        "The memory map breaks one of its rules: 1 to 64 whole records in ascending order without overlap, \
         starts and lengths in multiples of 4,096, none empty or past the address width, of kind 1, 2 or 3, \
         ending in four zero bytes.",
    ),
    (
        5,
        "The descriptor's start, a number at 32 bytes before the image's end, \
         leaves no room for a descriptor in front of that number.",
    ),
    (6, "The bytes where the descriptor should start are not the signature TDVF."),
    (7, "The descriptor's version is not 1."),
    (
        8,
        "The descriptor has no section or more than 32, or a length that is not 16 + 32 for each section, \
         or runs into the image's last 32 bytes.",
    ),
    (9, "The section's type is above 3, which is none that this loader takes."),
    (
        10,
        "The section's attributes do not suit its type: a boot volume is measured, \
         a configuration volume may be, nothing else is, and no other bit is set.",
    ),
    (11, "A volume has no data in the image, or a section of hand-off or temporary memory names some."),
    (12, "The section's data reaches past the image's end."),
    (
        13,
        "The section's memory address or size is not a multiple of 4,096, \
         or its size is 0 or below its raw size.",
    ),
    (14, "No single map record of a kind that the section's type may use holds the whole section."),
    (15, "The section shares memory with an earlier one."),
    (16, "The image has no boot volume, that is no section of type 0."),
    (17, "The image has no TD HOB section or several, and must have exactly one."),
    (18, "The sections together take more than 4,096 pages."),
    (19, "The hand-off list is longer than the memory of the TD HOB section that has to hold it."),
    (24, "The quota is 0: a turn must be allowed one block at least."),
    (27, "The image or the plan has another length than at the start of the measurement."),
];

/// The first rule that a launch breaks, or what a turn of its measurement asks in vain. After a refused
/// launch both lent buffers are zero, over their full lengths; a refused turn changes nothing.
///
/// It displays as the listing has it: `refused 13 section 2`, or `refused 5` without a place.
#[derive(Clone, Copy, Debug, PartialEq, Eq, Hash)]
#[non_exhaustive]
pub struct Refusal {
    /// The rule's number in docs/RULES.md, from 1 on.
    pub number: u32,
    /// Where it is broken.
    pub place: Place,
}

impl Refusal {
    /// From the three numbers of the C interface, of which the first is 0 where nothing is refused.
    pub(crate) fn unless_zero(number: u32, place: u32, index: u64) -> Result<(), Refusal> {
        match number {
            0 => Ok(()),
            _ => Err(Refusal { number, place: Place::from_numbers(place, index) }),
        }
    }

    /// What is wrong by the rule, in one sentence.
    pub fn meaning(&self) -> &'static str {
        let known = MEANINGS.iter().find(|(number, _)| *number == self.number);
        known.map_or("The library refused by a rule that this binding has no words for.", |(_, words)| words)
    }
}

impl fmt::Display for Refusal {
    fn fmt(&self, out: &mut fmt::Formatter<'_>) -> fmt::Result {
        write!(out, "refused {}", self.number)?;
        if let (Some(name), Some(index)) = (self.place.name(), self.place.index()) {
            write!(out, " {name} {index}")?;
        }
        Ok(())
    }
}

impl std::error::Error for Refusal {}
