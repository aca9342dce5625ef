//! The texts of replies and of records.

use crate::calls::Reply;
use crate::network::{Direction, Prefix, Selector};
use crate::policies::{Policy, Template};
use crate::states::{Id, Mode, Protocol, State};
use std::fmt::{Display, Formatter, Result};
use std::io::{self, Write};

/// Where a reply's line stands: the number of the call line, and the part of a send's output.
#[derive(Clone, Copy)]
pub struct Place {
    pub line: u64,
    pub part: usize,
}

impl Display for Place {
    fn fmt(&self, f: &mut Formatter) -> Result {
        match self.part {
            0 => write!(f, "{}", self.line),
            part => write!(f, "{}.{part}", self.line),
        }
    }
}

/// Writes a reply; a list's records stand on lines of their own.
pub fn write_reply(out: &mut impl Write, at: Place, reply: &Reply) -> io::Result<()> {
    writeln!(out, "{at}: {reply}")?;
    match reply {
        Reply::Policies(list) => list
            .iter()
            .try_for_each(|policy| writeln!(out, "{at}: {policy}")),
        Reply::States(list) => list
            .iter()
            .try_for_each(|state| writeln!(out, "{at}: {state}")),
        _ => Ok(()),
    }
}

impl Display for Reply {
    fn fmt(&self, f: &mut Formatter) -> Result {
        match self {
            Reply::Index(index) => write!(f, "ok index {index}"),
            Reply::Number(number) => write!(f, "ok sid {number}"),
            Reply::Removed(count) => write!(f, "ok removed {count}"),
            Reply::Policies(list) => write!(f, "list {}", list.len()),
            Reply::States(list) => write!(f, "list {}", list.len()),
            Reply::PolicyCount([inward, outward, forward]) => {
                write!(f, "count in {inward} out {outward} fwd {forward}")
            }
            Reply::StateCount(count) => write!(f, "count {count}"),
            Reply::None => write!(f, "none"),
            Reply::Block(index) => write!(f, "policy {index} block"),
            Reply::Allow(index, path) => {
                write!(f, "policy {index} allow")?;
                path.iter()
                    .try_for_each(|id| write!(f, " {id} {}", id.destination))
            }
            Reply::Accepted(top) => write!(f, "accepted top {top}"),
            Reply::Zero => write!(f, "zero"),
            Reply::Old(top) => write!(f, "old top {top}"),
            Reply::Seen(top) => write!(f, "seen top {top}"),
            Reply::Broken => write!(f, "icv"),
            Reply::Sent(id, number) => write!(f, "sent {id} seq {number}"),
            Reply::Stale => write!(f, "stale"),
            Reply::Overflow => write!(f, "overflow"),
            Reply::Exists => write!(f, "RTNETLINK answers: File exists"),
            Reply::NoPolicy => write!(f, "RTNETLINK answers: No such file or directory"),
            Reply::NoState => write!(f, "RTNETLINK answers: No such process"),
            Reply::Full(live) => write!(f, "full live {live} waiting 0"),
            Reply::Lacks => write!(f, "the baseline asks for no states"),
        }
    }
}

impl Display for Id {
    fn fmt(&self, f: &mut Formatter) -> Result {
        write!(f, "{} 0x{:08x}", self.protocol, self.spi)
    }
}

impl Display for Protocol {
    fn fmt(&self, f: &mut Formatter) -> Result {
        f.write_str(match self {
            Protocol::Esp => "esp",
            Protocol::Ah => "ah",
            Protocol::Comp => "comp",
        })
    }
}

impl Display for Mode {
    fn fmt(&self, f: &mut Formatter) -> Result {
        f.write_str(match self {
            Mode::Transport => "transport",
            Mode::Tunnel => "tunnel",
        })
    }
}

impl Display for Direction {
    fn fmt(&self, f: &mut Formatter) -> Result {
        f.write_str(match self {
            Direction::In => "in",
            Direction::Out => "out",
            Direction::Forward => "fwd",
        })
    }
}

impl Display for Prefix {
    fn fmt(&self, f: &mut Formatter) -> Result {
        write!(f, "{}/{}", self.address, self.length)
    }
}

impl Display for Selector {
    fn fmt(&self, f: &mut Formatter) -> Result {
        write!(
            f,
            "src {} dst {} proto {}",
            self.source, self.destination, self.protocol
        )?;
        if let Some(port) = self.source_port {
            write!(f, " sport {port}")?;
        }
        if let Some(port) = self.destination_port {
            write!(f, " dport {port}")?;
        }
        Ok(())
    }
}

const NO_MARK: &str = "mark 0x00000000 mask 0x00000000 if_id 0";

impl Display for Policy {
    fn fmt(&self, f: &mut Formatter) -> Result {
        let Policy {
            direction,
            selector,
            priority,
            index,
            ..
        } = self;
        let action = if self.allows { "allow" } else { "block" };
        write!(f, "policy {index} dir {direction} ptype main {selector} {NO_MARK} priority {priority} action {action} added 0")?;
        self.templates
            .iter()
            .try_for_each(|template| write!(f, " {template}"))
    }
}

impl Display for Template {
    fn fmt(&self, f: &mut Formatter) -> Result {
        let Template {
            source,
            destination,
            protocol,
            spi,
            reqid,
            mode,
        } = self;
        write!(f, "tmpl src {source} dst {destination} proto {protocol} spi 0x{spi:08x} mode {mode} reqid {reqid} level required")
    }
}

impl Display for State {
    fn fmt(&self, f: &mut Formatter) -> Result {
        let State {
            number,
            source,
            reqid,
            mode,
            ..
        } = self;
        let Id {
            destination,
            spi,
            protocol,
        } = self.id;
        write!(f, "state {number} src {source} dst {destination} proto {protocol} spi 0x{spi:08x} reqid {reqid} mode {mode}")?;
        write!(
            f,
            " seq 0 {NO_MARK} replay-window {} added 0",
            self.window.size
        )
    }
}
