//! Records with one field just outside its layout.
use super::Maker;
use crate::hex::hex;

/// What can be spoiled in a record, by places in it.
#[derive(Clone, Copy)]
enum Corner {
    /// This byte becomes that.
    Byte(usize, u8),
    /// Here stand a tag and so many bytes: the tag becomes this, or an absent field has a byte.
    Tagged(usize, usize, u8),
    /// So many bytes from here on become zeros.
    Zeros(usize, usize),
}

use Corner::{Byte, Tagged, Zeros};

/// Version; text length, bytes of the text and past it; from, sender; wire, list, fidelity; tentative kind and taker.
const PARK: &[Corner] = &[
    Byte(2, 3),
    Byte(6, 67),
    Byte(7, 31),
    Byte(7, 127),
    Byte(72, 1),
    Tagged(73, 20, 2),
    Tagged(94, 20, 2),
    Byte(131, 2),
    Byte(132, 2),
    Byte(157, 2),
    Tagged(158, 73, 3),
    Tagged(199, 32, 2),
];

/// Version, tentative kind and taker; the last has no tentative field.
const ENTRY: &[Corner] = &[Byte(2, 3), Byte(38, 3), Tagged(79, 32, 2), Zeros(38, 74)];

/// Version and resolution.
const RESOLVE: &[Corner] = &[Byte(2, 3), Byte(38, 0), Byte(38, 5)];

/// Hashes, nonces, addresses, numbers, rest, tentative kind and taker.
const LEGACY: &[Corner] = &[
    Tagged(2, 32, 2),
    Tagged(35, 32, 2),
    Tagged(68, 8, 2),
    Tagged(77, 8, 2),
    Tagged(86, 8, 2),
    Tagged(95, 20, 2),
    Tagged(116, 20, 2),
    Tagged(137, 8, 2),
    Tagged(146, 8, 2),
    Tagged(155, 8, 2),
    Tagged(164, 8, 2),
    Byte(173, 2),
    Tagged(174, 73, 3),
    Tagged(215, 32, 2),
];

impl Corner {
    /// Puts the field outside its layout: by a byte at a place behind a tag that is 0, where one is given; otherwise by the tag.
    fn spoil(&self, record: &mut [u8], behind: Option<usize>) {
        match (*self, behind) {
            (Byte(at, value), _) => record[at] = value,
            (Tagged(at, ..), Some(place)) => record[at + 1 + place] = 1,
            (Tagged(at, _, outside), None) => record[at] = outside,
            (Zeros(at, count), _) => record[at..at + count].fill(0),
        }
    }
}

/// The corners of a mark; a QX has none.
fn corners(mark: &[u8]) -> &'static [Corner] {
    match mark {
        b"QP" => PARK,
        b"QT" => ENTRY,
        b"QR" => RESOLVE,
        b"QL" => LEGACY,
        _ => &[],
    }
}

/// The places of a mark's tags, kinds included, each with how many bytes stand behind it.
pub fn tagged(mark: &[u8]) -> impl Iterator<Item = (usize, usize)> {
    corners(mark).iter().filter_map(|corner| match *corner {
        Tagged(at, width, _) => Some((at, width)),
        _ => None,
    })
}

/// A whole record spoiled in each of its fields, one at a time: an absent one by its last byte.
pub fn spoiled(record: &[u8]) -> Vec<Vec<u8>> {
    let one = |corner: &Corner| {
        let mut spoiled = record.to_vec();
        let behind = match *corner {
            Tagged(at, width, _) if record[at] == 0 => Some(width - 1),
            _ => None,
        };
        corner.spoil(&mut spoiled, behind);
        spoiled
    };
    corners(&record[..2]).iter().map(one).collect()
}

impl Maker {
    /// One field of a whole record goes just outside its layout, where it has one that could.
    pub(super) fn spoil(&mut self, record: &mut [u8]) {
        let corners = corners(&record[..2]);
        if corners.is_empty() {
            return;
        }
        let corner = self.r.pick(corners);
        let behind = match *corner {
            Tagged(at, width, _) if record[at] == 0 && self.r.once_in(2) => Some(self.r.index(width)),
            _ => None,
        };
        corner.spoil(record, behind);
    }

    /// One of the records is spoiled, and the journal may end within it.
    pub(super) fn spoil_one(&mut self, records: &mut Vec<Vec<u8>>) {
        if records.is_empty() {
            return;
        }
        let i = self.r.index(records.len());
        self.spoil(&mut records[i]);
        if self.r.once_in(4) {
            records.truncate(i + 1);
            let length = 3 + self.r.index(records[i].len() - 3);
            records[i].truncate(length);
        }
    }

    /// 64 keys, and a 65th that may be in a record with a spoiled field.
    pub(super) fn sixty_fifth(&mut self) -> Vec<Vec<u8>> {
        let mut records = Vec::new();
        for i in 0..65 {
            let mut park = self.park();
            park.text = format!("0x{}{i:02x}", hex(&[0x66; 31])).into_bytes();
            records.push(park.bytes());
        }
        if !self.r.once_in(3) {
            self.spoil(&mut records[64]);
        }
        records
    }
}
