//! Where clients come from, and how many there are of each such place.
use std::collections::{HashMap, HashSet, VecDeque};
use std::net::{IpAddr, Ipv6Addr};

/// An address as it is counted: all of a network of IPv6 (64 bits) count as one.
#[derive(Clone, Copy, Debug, Eq, Hash, PartialEq)]
pub struct Place(IpAddr);

impl Place {
    pub fn of(address: IpAddr) -> Place {
        match address {
            IpAddr::V4(_) => Place(address),
            IpAddr::V6(it) => Place(IpAddr::V6(Ipv6Addr::from(u128::from(it) >> 64 << 64))),
        }
    }
}

/// A place that has more than such a part of all is a crowd.
const CROWD: usize = 8;
/// So many places are known at most: then the one that has been known longest is forgotten.
const MOST_KNOWN: usize = 10_000;

pub struct Places {
    /// How many clients there may be, and how many from one place.
    all: usize,
    most: usize,
    counts: HashMap<Place, usize>,
    /// Those of users, and in which order they were known.
    known: HashSet<Place>,
    order: VecDeque<Place>,
}

impl Places {
    pub fn new(all: usize, most: usize) -> Places {
        Places { all, most, counts: HashMap::new(), known: HashSet::new(), order: VecDeque::new() }
    }

    /// Whether nobody more may come from there. Clients of unix sockets have no place.
    pub fn is_full(&self, place: Option<Place>) -> bool {
        place.and_then(|it| self.counts.get(&it)).map_or(false, |count| *count >= self.most)
    }

    pub fn is_crowd(&self, place: Option<Place>) -> bool {
        place.and_then(|it| self.counts.get(&it)).map_or(false, |count| *count > self.all / CROWD)
    }

    /// A user was let in who came from there.
    pub fn know(&mut self, place: Place) {
        if self.known.insert(place) {
            self.order.push_back(place);
        }
        if self.order.len() > MOST_KNOWN {
            self.order.pop_front().map(|first| self.known.remove(&first));
        }
    }

    pub fn is_known(&self, place: Option<Place>) -> bool {
        place.map_or(false, |it| self.known.contains(&it))
    }

    pub fn enter(&mut self, place: Option<Place>) {
        if let Some(place) = place {
            *self.counts.entry(place).or_insert(0) += 1;
        }
    }

    pub fn leave(&mut self, place: Option<Place>) {
        if let Some(place) = place {
            match self.counts.get_mut(&place) {
                Some(count) if *count > 1 => *count -= 1,
                _ => drop(self.counts.remove(&place)),
            }
        }
    }
}

#[cfg(test)]
mod tests {
    use super::*;

    fn place(word: &str) -> Option<Place> {
        word.parse().ok().map(Place::of)
    }

    #[test]
    fn networks_of_ipv6_are_one_place() {
        let mut it = Places::new(100, 2);
        for (word, wanted) in [("192.0.2.1", false), ("192.0.2.1", false), ("192.0.2.1", true), ("192.0.2.2", false)] {
            assert_eq!(it.is_full(place(word)), wanted, "{}", word);
            it.enter(place(word));
        }
        it.enter(place("2001:db8::1"));
        it.enter(place("2001:db8::9:9"));
        assert!(it.is_full(place("2001:db8::3")) && !it.is_full(place("2001:db8:0:1::3")) && !it.is_full(None));
        it.leave(place("2001:db8::3"));
        assert!(!it.is_full(place("2001:db8::3")));
    }
    #[test]
    fn over_an_eighth_is_a_crowd() {
        let mut it = Places::new(17, 17);
        for (entered, wanted) in [(1, false), (2, false), (3, true)] {
            it.enter(place("192.0.2.1"));
            assert_eq!(it.is_crowd(place("192.0.2.1")), wanted, "{}", entered);
        }
        assert!(!it.is_crowd(place("192.0.2.2")) && !it.is_crowd(None));
    }

    #[test]
    fn places_are_known_and_the_first_ones_forgotten() {
        let mut it = Places::new(1, 1);
        let number = |number: usize| Place::of(IpAddr::from((number as u32).to_be_bytes()));
        for each in 0..MOST_KNOWN {
            it.know(number(each));
            it.know(number(each));
        }
        assert!(it.is_known(Some(number(0))) && it.is_known(Some(number(MOST_KNOWN - 1))));
        it.know(number(MOST_KNOWN));
        assert!(!it.is_known(Some(number(0))) && it.is_known(Some(number(1))) && !it.is_known(None));
    }
}
