//! Calls and their replies.

use crate::network::{Direction, Flow, Selector};
use crate::policies::Policy;
use crate::states::{Id, State};

pub enum Call {
    PolicyAdd(Policy),
    PolicyDelete(Direction, Selector),
    PolicyList,
    PolicyFlush,
    PolicyCount,
    StateAdd(State),
    StateDelete(Id),
    StateList,
    StateFlush,
    StateCount,
    Flow(Flow),
    /// A flow, and an output of so many bytes for each state of its path.
    Send(Flow, u32),
    Packet(Packet),
}

pub struct Packet {
    pub id: Id,
    pub number: u64,
    pub length: u32,
    pub is_intact: bool,
}

pub enum Reply {
    Index(u32),
    Number(u64),
    Removed(usize),
    Policies(Vec<Policy>),
    States(Vec<State>),
    PolicyCount([usize; 3]),
    StateCount(usize),
    None,
    Block(u32),
    Allow(u32, Vec<Id>),
    Accepted(u64),
    Zero,
    Old(u64),
    Seen(u64),
    Broken,
    Sent(Id, u32),
    Stale,
    Overflow,
    Exists,
    NoPolicy,
    NoState,
    Full(usize),
    /// A required template finds no state. `xfrm` asks for one, and this program doesn't.
    Lacks,
}

impl Reply {
    pub fn is_refusal(&self) -> bool {
        matches!(
            self,
            Reply::Exists | Reply::NoPolicy | Reply::NoState | Reply::Full(_)
        )
    }
}
