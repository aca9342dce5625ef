//! The policies: those for one source and one destination in a hash map, all others in a list by priority, which a lookup scans.

use crate::network::{Direction, Flow, Selector};
use crate::states::{Mode, Protocol};
use std::collections::{HashMap, HashSet};
use std::net::IpAddr;

pub const MOST: usize = 4096;

#[derive(Clone)]
pub struct Template {
    pub source: IpAddr,
    pub destination: IpAddr,
    pub protocol: Protocol,
    /// 0 is every SPI.
    pub spi: u32,
    pub reqid: u32,
    pub mode: Mode,
}

#[derive(Clone)]
pub struct Policy {
    pub direction: Direction,
    pub selector: Selector,
    pub priority: u32,
    pub allows: bool,
    pub templates: Vec<Template>,
    /// Both 0 until it is listed.
    pub index: u32,
    pub number: u64,
}

impl Policy {
    /// What policies are ordered by: the smaller priority first, and then the earlier one.
    fn place(&self) -> (u32, u64) {
        (self.priority, self.number)
    }
}

#[derive(Default)]
pub struct Policies {
    exact: HashMap<(Direction, IpAddr, IpAddr), Vec<Policy>>,
    others: [Vec<Policy>; 3],
    selectors: HashSet<(Direction, Selector)>,
    numbers: u64,
    indices: u32,
}

pub enum NotAdded {
    Exists,
    Full,
}

impl Policies {
    fn part(&mut self, direction: Direction, selector: &Selector) -> &mut Vec<Policy> {
        if selector.is_exact() {
            let key = (
                direction,
                selector.source.address,
                selector.destination.address,
            );
            self.exact.entry(key).or_default()
        } else {
            &mut self.others[direction as usize]
        }
    }

    pub fn add(&mut self, mut policy: Policy) -> Result<u32, NotAdded> {
        let name = (policy.direction, policy.selector);
        if self.selectors.contains(&name) {
            return Err(NotAdded::Exists);
        }
        if self.selectors.len() >= MOST {
            return Err(NotAdded::Full);
        }
        self.selectors.insert(name);
        self.numbers += 1;
        self.indices += 1;
        policy.number = self.numbers;
        policy.index = 8 * self.indices + policy.direction as u32;
        let index = policy.index;
        let part = self.part(policy.direction, &policy.selector);
        let place = part.partition_point(|other| other.priority <= policy.priority);
        part.insert(place, policy);
        Ok(index)
    }

    /// Removes the policy with this direction and selector, and gives its index.
    pub fn delete(&mut self, direction: Direction, selector: &Selector) -> Option<u32> {
        if !self.selectors.remove(&(direction, *selector)) {
            return None;
        }
        let part = self.part(direction, selector);
        let place = part
            .iter()
            .position(|policy| policy.selector == *selector)?;
        let index = part.remove(place).index;
        if selector.is_exact() && part.is_empty() {
            self.exact.remove(&(
                direction,
                selector.source.address,
                selector.destination.address,
            ));
        }
        Some(index)
    }

    /// The first policy in order that applies to the flow.
    pub fn first(&self, flow: &Flow) -> Option<&Policy> {
        let exact = self
            .exact
            .get(&(flow.direction, flow.source, flow.destination))
            .and_then(|part| part.iter().find(|policy| policy.selector.matches(flow)));
        let limit = exact.map_or((u32::MAX, u64::MAX), Policy::place);
        self.others[flow.direction as usize]
            .iter()
            .take_while(|policy| policy.place() < limit)
            .find(|policy| policy.selector.matches(flow))
            .or(exact)
    }

    fn all(&self) -> impl Iterator<Item = &Policy> {
        self.exact
            .values()
            .flatten()
            .chain(self.others.iter().flatten())
    }

    pub fn count(&self, direction: Direction) -> usize {
        self.selectors
            .iter()
            .filter(|(other, _)| *other == direction)
            .count()
    }

    pub fn flush(&mut self) -> usize {
        let removed = self.selectors.len();
        self.exact.clear();
        self.others.iter_mut().for_each(Vec::clear);
        self.selectors.clear();
        removed
    }

    /// All policies in order.
    pub fn list(&self) -> Vec<Policy> {
        let mut list: Vec<Policy> = self.all().cloned().collect();
        list.sort_by_key(Policy::place);
        list
    }
}
