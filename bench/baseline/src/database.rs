//! Both databases together, and what each call does.

use crate::calls::{Call, Packet, Reply};
use crate::network::{Direction, Flow};
use crate::policies::{self, Policies, Template};
use crate::states::{self, Id, Mode, State, States};
use crate::window::Check;
use std::net::IpAddr;

#[derive(Default)]
pub struct Database {
    policies: Policies,
    states: States,
}

impl Database {
    /// The reply, and behind that of a send those of its outputs.
    pub fn run(&mut self, call: Call, replies: &mut Vec<Reply>) {
        let reply = match call {
            Call::PolicyAdd(policy) => match self.policies.add(policy) {
                Ok(index) => Reply::Index(index),
                Err(policies::NotAdded::Exists) => Reply::Exists,
                Err(policies::NotAdded::Full) => Reply::Full(policies::MOST),
            },
            Call::PolicyDelete(direction, selector) => self
                .policies
                .delete(direction, &selector)
                .map_or(Reply::NoPolicy, Reply::Index),
            Call::PolicyList => Reply::Policies(self.policies.list()),
            Call::PolicyFlush => Reply::Removed(self.policies.flush()),
            Call::PolicyCount => {
                let directions = [Direction::In, Direction::Out, Direction::Forward];
                Reply::PolicyCount(directions.map(|direction| self.policies.count(direction)))
            }
            Call::StateAdd(state) => match self.states.add(state) {
                Ok(number) => Reply::Number(number),
                Err(states::NotAdded::Exists) => Reply::Exists,
                Err(states::NotAdded::Full) => Reply::Full(states::MOST),
            },
            Call::StateDelete(id) => self
                .states
                .delete(&id)
                .map_or(Reply::NoState, Reply::Number),
            Call::StateList => Reply::States(self.states.list()),
            Call::StateFlush => Reply::Removed(self.states.flush()),
            Call::StateCount => Reply::StateCount(self.states.len()),
            Call::Flow(flow) => self.flow(&flow),
            Call::Send(flow, length) => return self.send(&flow, length, replies),
            Call::Packet(packet) => self.packet(&packet),
        };
        replies.push(reply);
    }

    fn send(&mut self, flow: &Flow, length: u32, replies: &mut Vec<Reply>) {
        replies.push(self.flow(flow));
        if let Some(Reply::Allow(_, path)) = replies.last() {
            for id in path.clone() {
                replies.push(self.output(&id, length));
            }
        }
    }

    fn flow(&self, flow: &Flow) -> Reply {
        let Some(policy) = self.policies.first(flow) else {
            return Reply::None;
        };
        if !policy.allows {
            return Reply::Block(policy.index);
        }
        if flow.direction != Direction::Out {
            return Reply::Allow(policy.index, Vec::new());
        }
        let path = self.path(flow, &policy.templates);
        path.map_or(Reply::Lacks, |path| Reply::Allow(policy.index, path))
    }

    /// A state for each template, each at the addresses of the one before it, a tunnel's at its own.
    fn path(&self, flow: &Flow, templates: &[Template]) -> Option<Vec<Id>> {
        let mut path = Vec::new();
        let (mut source, mut destination) = (flow.source, flow.destination);
        for template in templates {
            if template.mode == Mode::Tunnel {
                (source, destination) = (template.source, template.destination);
            }
            path.push(self.best(template, source, destination)?);
        }
        Some(path)
    }

    /// The latest state that suits a template.
    fn best(&self, template: &Template, source: IpAddr, destination: IpAddr) -> Option<Id> {
        let suits = |state: &State| {
            state.id.protocol == template.protocol
                && state.mode == template.mode
                && (template.spi == 0 || template.spi == state.id.spi)
                && (state.source == source
                    || state.source.is_unspecified()
                    || source.is_unspecified())
        };
        let ids = self.states.with_reqid(destination, template.reqid);
        ids.iter()
            .rev()
            .copied()
            .find(|id| self.states.get(id).is_some_and(suits))
    }

    fn output(&mut self, id: &Id, length: u32) -> Reply {
        let Some(state) = self.states.get_mut(id) else {
            return Reply::Stale;
        };
        let Some(next) = state.sent.checked_add(1) else {
            return Reply::Overflow;
        };
        state.sent = next;
        state.charge(length);
        Reply::Sent(*id, next)
    }

    fn packet(&mut self, packet: &Packet) -> Reply {
        let Some(state) = self.states.get_mut(&packet.id) else {
            return Reply::NoState;
        };
        match state.window.check(packet.number) {
            Check::Zero => Reply::Zero,
            Check::Old => Reply::Old(state.window.top),
            Check::Seen => Reply::Seen(state.window.top),
            Check::Fresh if !packet.is_intact => Reply::Broken,
            Check::Fresh => {
                state.window.accept(packet.number);
                state.charge(packet.length);
                Reply::Accepted(state.window.top)
            }
        }
    }
}
