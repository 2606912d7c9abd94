//! Sets of at most 16 packets, no two equal, ascending.
//!
//! A set is a fixed array with a count. A `Vec<[u16; 8]>` with the same operations was measured beside
//! it, least of 14 alternating rounds: on 16 packets evaluate took 596 ns against 463 with the array, on
//! nested concurrent parts 1,761 against 1,359; on a small book (258 and 255) and with n near 1,023
//! (9,612 and 9,617) they are even. So the array: never clearly slower, and it asks for no memory.

use crate::answers::{MOST_FIELDS, MOST_PACKETS};
use std::cmp::Ordering;

/// The fields a book or a position lacks hold 0, so that comparing whole arrays passes them over.
pub type Packet = [u16; MOST_FIELDS];

pub fn packet_from_words(words: &[u16]) -> Packet {
    let mut packet = [0; MOST_FIELDS];
    packet[..words.len()].copy_from_slice(words);
    packet
}

/// The packet without the fields of `mask`.
pub fn without(packet: &Packet, mask: u8) -> Packet {
    let mut rest = *packet;
    for (field, value) in rest.iter_mut().enumerate() {
        if mask & (1 << field) != 0 {
            *value = 0;
        }
    }
    rest
}

/// The pairing of p's packet, which lacks `right`, and q's packet, which has it.
pub fn paired(p: &Packet, q: &Packet, right: u8) -> Packet {
    let mut pair = *p;
    for (field, value) in pair.iter_mut().enumerate() {
        if right & (1 << field) != 0 {
            *value = q[field];
        }
    }
    pair
}

/// A set would have more than 16 packets.
#[derive(Clone, Copy, Debug, PartialEq, Eq)]
pub struct TooWide;

#[derive(Clone, Copy)]
pub struct Set {
    count: usize,
    packets: [Packet; MOST_PACKETS],
}

impl Set {
    pub const EMPTY: Set = Set { count: 0, packets: [[0; MOST_FIELDS]; MOST_PACKETS] };

    pub fn one(packet: Packet) -> Set {
        let mut set = Set::EMPTY;
        set.packets[0] = packet;
        set.count = 1;
        set
    }

    pub fn become_one(&mut self, packet: Packet) {
        self.packets[0] = packet;
        self.count = 1;
    }

    pub fn packets(&self) -> &[Packet] {
        &self.packets[..self.count]
    }

    pub fn count(&self) -> usize {
        self.count
    }

    pub fn clear(&mut self) {
        self.count = 0;
    }

    /// Test: the packets whose field has the value.
    pub fn keep_where(&mut self, field: usize, value: u16) {
        let mut kept = 0;
        for i in 0..self.count {
            if self.packets[i][field] == value {
                self.packets[kept] = self.packets[i];
                kept += 1;
            }
        }
        self.count = kept;
    }

    /// Set: every packet with the field changed. The order may change, and packets may become equal.
    pub fn write(&mut self, field: usize, value: u16) {
        for packet in &mut self.packets[..self.count] {
            packet[field] = value;
        }
        if !self.packets().is_sorted_by(|lower, higher| lower < higher) {
            self.restore_order();
        }
    }

    /// Puts the packets into order and merges equal ones.
    fn restore_order(&mut self) {
        let before = self.count;
        self.count = 1;
        for i in 1..before {
            // Never too wide: the packets put in so far are at most those read so far.
            let _ = self.insert(self.packets[i]);
        }
    }

    pub fn insert(&mut self, packet: Packet) -> Result<(), TooWide> {
        let mut place = self.count;
        while place > 0 {
            match self.packets[place - 1].cmp(&packet) {
                Ordering::Less => break,
                Ordering::Equal => return Ok(()),
                Ordering::Greater => place -= 1,
            }
        }
        if self.count == MOST_PACKETS {
            return Err(TooWide);
        }
        self.packets.copy_within(place..self.count, place + 1);
        self.packets[place] = packet;
        self.count += 1;
        Ok(())
    }

    pub fn add_all(&mut self, others: &Set) -> Result<(), TooWide> {
        for packet in others.packets() {
            self.insert(*packet)?;
        }
        Ok(())
    }

    pub fn remove_all(&mut self, others: &Set) {
        let mut kept = 0;
        for i in 0..self.count {
            if !others.packets().contains(&self.packets[i]) {
                self.packets[kept] = self.packets[i];
                kept += 1;
            }
        }
        self.count = kept;
    }

    /// Adds every pairing of a packet of p and one of q.
    pub fn add_pairings(&mut self, p: &Set, q: &Set, right: u8) -> Result<(), TooWide> {
        for left_packet in p.packets() {
            for right_packet in q.packets() {
                self.insert(paired(left_packet, right_packet, right))?;
            }
        }
        Ok(())
    }

    /// Becomes a copy of the other set; only the packets there are get copied.
    pub fn copy_from(&mut self, other: &Set) {
        self.packets[..other.count].copy_from_slice(other.packets());
        self.count = other.count;
    }

    /// Takes the lowest packet out. There must be one.
    pub fn take_lowest(&mut self) -> Packet {
        let lowest = self.packets[0];
        self.packets.copy_within(1..self.count, 0);
        self.count -= 1;
        lowest
    }
}
