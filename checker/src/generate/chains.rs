//! Linked records under construction. A record is added after the one that it links to, so links
//! cannot go round; numbers are given afterwards such that each link leads to a higher one, as
//! the sheets ask. Equal tails can be shared.

use crate::rng::Rng;
use std::collections::HashMap;
use std::hash::Hash;

/// Records in the order in which they were added; `None` ends a chain.
pub struct Chains<T> {
    records: Vec<(T, Option<usize>)>,
    places: HashMap<(T, Option<usize>), usize>,
}

impl<T: Copy + Eq + Hash> Chains<T> {
    pub fn new() -> Chains<T> {
        Chains {
            records: Vec::new(),
            places: HashMap::new(),
        }
    }

    pub fn len(&self) -> usize {
        self.records.len()
    }

    pub fn is_empty(&self) -> bool {
        self.records.is_empty()
    }

    /// Adds a record of its own.
    pub fn add(&mut self, content: T, next: Option<usize>) -> usize {
        let place = self.records.len();
        self.records.push((content, next));
        self.places.insert((content, next), place);
        place
    }

    /// A record with this content and link: one that is there already, or a new one.
    pub fn share(&mut self, content: T, next: Option<usize>) -> usize {
        match self.places.get(&(content, next)) {
            Some(&place) => place,
            None => self.add(content, next),
        }
    }

    /// Adds a whole chain and gives its first record; `shared` allows it the tail of another.
    pub fn add_chain(&mut self, contents: &[T], shared: bool) -> Option<usize> {
        contents.iter().rev().fold(None, |next, &content| {
            Some(match shared {
                true => self.share(content, next),
                false => self.add(content, next),
            })
        })
    }

    /// Adds a record that links to any other or to none, and that need not be on any chain.
    pub fn add_stray(&mut self, rng: &mut Rng, content: T) -> usize {
        let next = match self.len() {
            0 => None,
            len if rng.chance(1, 2) => Some(rng.below(len)),
            _ => None,
        };
        self.add(content, next)
    }

    pub fn content(&self, place: usize) -> T {
        self.records[place].0
    }

    /// Numbers from 1 for all records. They are given from the highest down, each to a record
    /// whose link has its number already: to any such record, or to the latest that came free.
    pub fn number(&self, rng: &mut Rng) -> Numbers {
        let mut linked_from = vec![Vec::new(); self.len()];
        let mut free = Vec::new();
        for (place, (_, next)) in self.records.iter().enumerate() {
            match next {
                Some(next) => linked_from[*next].push(place),
                None => free.push(place),
            }
        }
        let orderly = rng.chance(1, 3);
        let mut numbers = vec![0; self.len()];
        for number in (1..=self.len()).rev() {
            let index = if orderly {
                free.len() - 1
            } else {
                rng.below(free.len())
            };
            let place = free.swap_remove(index);
            numbers[place] = number as u16;
            free.append(&mut linked_from[place]);
        }
        Numbers::new(numbers)
    }

    /// The number that a record links to, 0 at the end of its chain.
    pub fn link(&self, numbers: &Numbers, place: usize) -> u16 {
        self.records[place].1.map_or(0, |next| numbers.of(next))
    }
}

impl<T: Copy + Eq + Hash> Default for Chains<T> {
    fn default() -> Chains<T> {
        Chains::new()
    }
}

/// The number of each record, and the record of each number.
pub struct Numbers {
    numbers: Vec<u16>,
    places: Vec<usize>,
}

impl Numbers {
    fn new(numbers: Vec<u16>) -> Numbers {
        let mut places = vec![0; numbers.len()];
        for (place, &number) in numbers.iter().enumerate() {
            places[usize::from(number) - 1] = place;
        }
        Numbers { numbers, places }
    }

    pub fn of(&self, place: usize) -> u16 {
        self.numbers[place]
    }

    /// The records in the order of their numbers.
    pub fn in_order(&self) -> &[usize] {
        &self.places
    }
}

#[cfg(test)]
mod tests {
    use super::*;

    #[test]
    fn equal_tails_are_shared_and_links_lead_upward() {
        for seed in 0..100 {
            let mut rng = Rng::new(seed);
            let mut chains = Chains::new();
            let first = chains.add_chain(&['a', 'b', 'c'], true);
            let second = chains.add_chain(&['d', 'b', 'c'], true);
            chains.add_stray(&mut rng, 'e');
            assert_eq!((first, second, chains.len()), (Some(2), Some(3), 5));
            let numbers = chains.number(&mut rng);
            let mut given: Vec<u16> = (0..5).map(|place| numbers.of(place)).collect();
            for place in 0..5 {
                let link = chains.link(&numbers, place);
                assert!(link == 0 || link > numbers.of(place));
            }
            given.sort_unstable();
            assert_eq!(given, [1, 2, 3, 4, 5]);
        }
    }
}
