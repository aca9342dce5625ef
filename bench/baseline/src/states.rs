//! The states: a hash map by destination, SPI and protocol, and one by destination and reqid for templates.

use crate::window::Window;
use std::collections::HashMap;
use std::net::IpAddr;

pub const MOST: usize = 8192;

#[derive(Clone, Copy, PartialEq, Eq, Hash)]
pub enum Protocol {
    Esp,
    Ah,
    Comp,
}

#[derive(Clone, Copy, PartialEq)]
pub enum Mode {
    Transport,
    Tunnel,
}

#[derive(Clone, Copy, PartialEq, Eq, Hash)]
pub struct Id {
    pub destination: IpAddr,
    pub spi: u32,
    pub protocol: Protocol,
}

#[derive(Clone)]
pub struct State {
    pub id: Id,
    /// 0 until it is listed.
    pub number: u64,
    pub source: IpAddr,
    pub reqid: u32,
    pub mode: Mode,
    pub window: Window,
    pub sent: u32,
    pub packets: u64,
    pub bytes: u64,
}

impl State {
    pub fn charge(&mut self, length: u32) {
        self.packets += 1;
        self.bytes += u64::from(length);
    }
}

#[derive(Default)]
pub struct States {
    by_id: HashMap<Id, State>,
    by_reqid: HashMap<(IpAddr, u32), Vec<Id>>,
    numbers: u64,
}

pub enum NotAdded {
    Exists,
    Full,
}

impl States {
    pub fn len(&self) -> usize {
        self.by_id.len()
    }

    pub fn get(&self, id: &Id) -> Option<&State> {
        self.by_id.get(id)
    }

    pub fn get_mut(&mut self, id: &Id) -> Option<&mut State> {
        self.by_id.get_mut(id)
    }

    /// The ids with this destination and reqid, in the order of adding.
    pub fn with_reqid(&self, destination: IpAddr, reqid: u32) -> &[Id] {
        self.by_reqid
            .get(&(destination, reqid))
            .map_or(&[], Vec::as_slice)
    }

    pub fn add(&mut self, mut state: State) -> Result<u64, NotAdded> {
        if self.by_id.contains_key(&state.id) {
            return Err(NotAdded::Exists);
        }
        if self.by_id.len() >= MOST {
            return Err(NotAdded::Full);
        }
        self.numbers += 1;
        state.number = self.numbers;
        self.by_reqid
            .entry((state.id.destination, state.reqid))
            .or_default()
            .push(state.id);
        self.by_id.insert(state.id, state);
        Ok(self.numbers)
    }

    pub fn delete(&mut self, id: &Id) -> Option<u64> {
        let state = self.by_id.remove(id)?;
        let key = (id.destination, state.reqid);
        if let Some(ids) = self.by_reqid.get_mut(&key) {
            ids.retain(|other| other != id);
            if ids.is_empty() {
                self.by_reqid.remove(&key);
            }
        }
        Some(state.number)
    }

    pub fn flush(&mut self) -> usize {
        let removed = self.by_id.len();
        self.by_id.clear();
        self.by_reqid.clear();
        removed
    }

    /// All states in the order of adding.
    pub fn list(&self) -> Vec<State> {
        let mut list: Vec<State> = self.by_id.values().cloned().collect();
        list.sort_by_key(|state| state.number);
        list
    }
}
