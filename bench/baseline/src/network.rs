//! Prefixes, selectors and flows.

use std::net::{IpAddr, Ipv4Addr, Ipv6Addr};

#[derive(Clone, Copy, PartialEq, Eq, Hash)]
pub enum Direction {
    In,
    Out,
    Forward,
}

#[derive(Clone, Copy, PartialEq, Eq, Hash)]
pub struct Prefix {
    pub address: IpAddr,
    pub length: u8,
}

impl Prefix {
    /// The prefix of this length that holds the address.
    pub fn new(address: IpAddr, length: u8) -> Self {
        Prefix {
            address: cut(address, length),
            length,
        }
    }

    pub fn whole(address: IpAddr) -> Self {
        let length = if address.is_ipv4() { 32 } else { 128 };
        Prefix { address, length }
    }

    pub fn is_whole(&self) -> bool {
        *self == Prefix::whole(self.address)
    }

    pub fn holds(&self, address: IpAddr) -> bool {
        address.is_ipv4() == self.address.is_ipv4() && cut(address, self.length) == self.address
    }
}

fn cut(address: IpAddr, length: u8) -> IpAddr {
    match address {
        IpAddr::V4(address) => {
            let mask = u32::MAX.checked_shl(32 - u32::from(length)).unwrap_or(0);
            IpAddr::V4((u32::from(address) & mask).into())
        }
        IpAddr::V6(address) => {
            let mask = u128::MAX.checked_shl(128 - u32::from(length)).unwrap_or(0);
            IpAddr::V6((u128::from(address) & mask).into())
        }
    }
}

/// The zero address of an address's family.
pub fn zero(address: IpAddr) -> IpAddr {
    match address {
        IpAddr::V4(_) => IpAddr::V4(Ipv4Addr::UNSPECIFIED),
        IpAddr::V6(_) => IpAddr::V6(Ipv6Addr::UNSPECIFIED),
    }
}

#[derive(Clone, Copy, PartialEq, Eq, Hash)]
pub struct Selector {
    pub source: Prefix,
    pub destination: Prefix,
    /// 0 is every protocol.
    pub protocol: u8,
    pub source_port: Option<u16>,
    pub destination_port: Option<u16>,
}

impl Selector {
    pub fn matches(&self, flow: &Flow) -> bool {
        self.source.holds(flow.source)
            && self.destination.holds(flow.destination)
            && (self.protocol == 0 || self.protocol == flow.protocol)
            && self.source_port.is_none_or(|port| port == flow.source_port)
            && self
                .destination_port
                .is_none_or(|port| port == flow.destination_port)
    }

    /// Whether one source and one destination alone match.
    pub fn is_exact(&self) -> bool {
        self.source.is_whole() && self.destination.is_whole()
    }
}

#[derive(Clone, Copy)]
pub struct Flow {
    pub direction: Direction,
    pub source: IpAddr,
    pub destination: IpAddr,
    pub protocol: u8,
    pub source_port: u16,
    pub destination_port: u16,
}
