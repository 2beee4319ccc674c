//! Seeded names in UTF-16: sound ones, made of characters, and ones with a
//! surrogate in them that has no other half.

use crate::record_reference::MOST_UNITS;
use crate::seeded_rules::Source;

/// The units around the ends of both kinds of surrogates.
pub const UNIT_EDGES: [u16; 9] = [
    0x0000, 0x0041, 0xd7ff, 0xd800, 0xdbff, 0xdc00, 0xdfff, 0xe000, 0xffff,
];

/// The bytes of units, the low one of each first.
pub fn in_bytes(units: &[u16]) -> Vec<u8> {
    units.iter().flat_map(|unit| unit.to_le_bytes()).collect()
}

impl Source<'_> {
    /// The bytes of a sound name that is not too long.
    pub fn definition_name(&mut self) -> Vec<u8> {
        let units = self.name_length();
        self.sound_name(units)
    }

    /// The bytes of a sound name of so many units.
    pub fn sound_name(&mut self, units: usize) -> Vec<u8> {
        in_bytes(&self.text(units))
    }

    /// The bytes of a name that is not too long, with surrogates between
    /// characters, of which at least one has no other half.
    pub fn name_with_lone_surrogate(&mut self) -> Vec<u8> {
        let high = self.high();
        let low = self.low();
        let lone: &[u16] = match self.seeded.between(0, 7) {
            0 | 1 => &[high],
            2 | 3 => &[low],
            4 => &[high, high, low],
            5 => &[high, low, low],
            6 => &[low, high],
            _ => &[low, low],
        };
        let length = self.name_length().max(lone.len());
        let before = match self.seeded.between(0, 3) {
            0 => 0,
            1 => length - lone.len(),
            _ => self.seeded.between_usize(0, length - lone.len()),
        };
        let mut units = self.text(before);
        units.extend(lone);
        let behind = self.text(length - units.len());
        units.extend(behind);
        in_bytes(&units)
    }

    fn name_length(&mut self) -> usize {
        match self.seeded.between(0, 19) {
            0..=4 => 0,
            5 | 6 => 1,
            7 => MOST_UNITS,
            8 => self.seeded.between_usize(120, MOST_UNITS),
            _ => self.seeded.between_usize(2, 24),
        }
    }

    /// So many units of characters, some of which are two units.
    fn text(&mut self, length: usize) -> Vec<u16> {
        let pairs_in = self.seeded.pick(&[1, 2, 8]);
        let mut units = Vec::with_capacity(length);
        while units.len() < length {
            match units.len() + 1 < length && self.seeded.one_in(pairs_in) {
                true => units.extend([self.high(), self.low()]),
                false => units.push(self.no_surrogate()),
            }
        }
        units
    }

    fn high(&mut self) -> u16 {
        match self.seeded.one_in(2) {
            true => self.seeded.pick(&[0xd800, 0xd83d, 0xdbff]),
            false => self.seeded.between_u16(0xd800, 0xdbff),
        }
    }

    fn low(&mut self) -> u16 {
        match self.seeded.one_in(2) {
            true => self.seeded.pick(&[0xdc00, 0xde00, 0xdfff]),
            false => self.seeded.between_u16(0xdc00, 0xdfff),
        }
    }

    /// A character of the first plane. Its low byte may be D8 or DC, as the high
    /// byte of a surrogate is.
    fn no_surrogate(&mut self) -> u16 {
        match self.seeded.between(0, 3) {
            0 => self
                .seeded
                .pick(&[0, 1, 0x00d8, 0x00dc, 0xd7ff, 0xe000, 0xffff]),
            1 => self.seeded.between_u16(0xe000, 0xffff),
            _ => self.seeded.between_u16(0, 0xd7ff),
        }
    }
}
