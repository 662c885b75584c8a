//! Rights in the place of uncacheable and device. The original counts read, write, exec and super, has a mark for uncacheable and no
//! device right; document 02, orders 8 and 10, count all alike. So the port is given a script with uncacheable and device exchanged
//! for two of the four, and what it gives has them exchanged back: the original, which is given the script as it is, judges how the
//! two are counted by how it counts those rights.
use crate::bundle::Bundle;
use crate::counts::{place, ALL, DEVICE, UNCACHEABLE};
use crate::line::{Call, Kind};
use crate::port::List;

/// The rights that the port is given uncacheable and device for, and those for the two. Without any, all stays as it is.
#[derive(Clone, Copy, Default)]
pub struct Exchange(pub Option<[u64; 2]>);

impl Exchange {
    /// One of the twelve ways to choose two of the four.
    pub fn number(i: u64) -> Exchange {
        Exchange(Some([1 << (i % 4), 1 << ((i + 1 + i / 4 % 3) % 4)]))
    }

    fn pairs(self) -> impl Iterator<Item = (u64, u64)> {
        self.0.into_iter().flat_map(|rights| [UNCACHEABLE, DEVICE].into_iter().zip(rights))
    }

    fn rights(self, rights: u64) -> u64 {
        let exchanged = |rights: u64, (a, b): (u64, u64)| {
            let one = (rights & a != 0) != (rights & b != 0);
            if one {
                rights ^ (a | b)
            } else {
                rights
            }
        };
        if rights > ALL {
            return rights;
        }
        self.pairs().fold(rights, exchanged)
    }

    /// A line for the port. One that is no add and no remove stays as it is.
    pub fn line(self, line: &[u8]) -> Vec<u8> {
        let call = Call::parse(line).filter(|call| matches!(call.kind, Kind::Add | Kind::Remove));
        let Some(mut call) = call.filter(|_| self.0.is_some()) else { return line.to_vec() };
        call.numbers[2] = self.rights(call.numbers[2]);
        call.line()
    }

    /// A bundle for the port.
    pub fn bundle(self, bundle: &Bundle) -> Bundle {
        let mut bundle = bundle.clone();
        bundle.rights_mut().for_each(|rights| *rights = self.rights(*rights));
        bundle
    }

    /// A list that the port gives, as the original would have it, or the other way.
    pub fn list(self, list: List, mut numbers: Vec<u64>) -> Vec<u64> {
        for group in numbers.chunks_exact_mut(list.width()) {
            match list {
                List::Stream | List::Permissions => {
                    let rights = group.len() - 1;
                    group[rights] = self.rights(group[rights]);
                }
                List::Regions => self.pairs().for_each(|(a, b)| group.swap(place(a), place(b))),
                List::Segments => (),
            }
        }
        numbers
    }
}
