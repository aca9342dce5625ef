//! What a line asks for. The words are those of the measured batches; another one is a bad line.

use crate::calls::{Call, Packet};
use crate::lines::Line;
use crate::network::{zero, Direction, Flow, Prefix, Selector};
use crate::policies::{Policy, Template};
use crate::states::{Id, Mode, Protocol, State};
use crate::window::Window;
use crate::words::{set, Reason, Words};
use std::net::{IpAddr, Ipv4Addr};

pub enum Item {
    Nothing,
    Sync,
    Worker,
    Call(Call),
}

pub fn read(line: &Line) -> Result<Item, Reason> {
    let mut words = Words::new(line);
    let Some(head) = words.next() else {
        return Ok(Item::Nothing);
    };
    match head {
        "sync" => words.end().map(|()| Item::Sync),
        "worker" => worker(&mut words).map(|()| Item::Worker),
        "xfrm" => database(&mut words).map(Item::Call),
        "flow" => {
            let direction = words.direction()?;
            let (flow, _) = flow(&mut words, direction, false)?;
            Ok(Item::Call(Call::Flow(flow)))
        }
        "send" => {
            let (flow, length) = flow(&mut words, Direction::Out, true)?;
            Ok(Item::Call(Call::Send(flow, length)))
        }
        "packet" => packet(&mut words).map(Item::Call),
        _ => Err("word"),
    }
}

fn worker(words: &mut Words) -> Result<(), Reason> {
    if words.number::<u64>()? > 15 {
        return Err("range");
    }
    words.end()
}

fn database(words: &mut Words) -> Result<Call, Reason> {
    let (list, verb) = (words.value()?, words.value()?);
    let plain = match (list, verb) {
        ("policy", "add") => return policy(words),
        ("policy", "delete" | "del") => return policy_delete(words),
        ("state", "add") => return state(words),
        ("state", "delete" | "del") => return state_delete(words),
        ("policy", "list" | "show" | "ls") => Call::PolicyList,
        ("policy", "flush") => Call::PolicyFlush,
        ("policy", "count") => Call::PolicyCount,
        ("state", "list" | "show" | "ls") => Call::StateList,
        ("state", "flush") => Call::StateFlush,
        ("state", "count") => Call::StateCount,
        _ => return Err("word"),
    };
    words.end().map(|()| plain)
}

/// The words of a selector so far.
#[derive(Default)]
struct SelectorWords {
    source: Option<Prefix>,
    destination: Option<Prefix>,
    protocol: Option<u8>,
    source_port: Option<u16>,
    destination_port: Option<u16>,
}

impl SelectorWords {
    /// Takes a word with its value; false where it is no word of a selector.
    fn take(&mut self, word: &str, words: &mut Words) -> Result<bool, Reason> {
        match word {
            "src" => set(&mut self.source, words.prefix())?,
            "dst" => set(&mut self.destination, words.prefix())?,
            "proto" => set(&mut self.protocol, words.carried())?,
            "sport" => set(&mut self.source_port, words.number())?,
            "dport" => set(&mut self.destination_port, words.number())?,
            _ => return Ok(false),
        }
        Ok(true)
    }

    fn selector(&self) -> Result<Selector, Reason> {
        let any = |other: Option<Prefix>| match other {
            Some(other) => Prefix::new(other.address, 0),
            None => Prefix::new(IpAddr::V4(Ipv4Addr::UNSPECIFIED), 0),
        };
        let source = self.source.unwrap_or_else(|| any(self.destination));
        let destination = self.destination.unwrap_or_else(|| any(self.source));
        same_family(source.address, destination.address)?;
        let protocol = self.protocol.unwrap_or(0);
        check_ports(
            protocol,
            self.source_port.is_some() || self.destination_port.is_some(),
        )?;
        Ok(Selector {
            source,
            destination,
            protocol,
            source_port: self.source_port,
            destination_port: self.destination_port,
        })
    }
}

fn same_family(one: IpAddr, other: IpAddr) -> Result<(), Reason> {
    if one.is_ipv4() == other.is_ipv4() {
        Ok(())
    } else {
        Err("family")
    }
}

fn check_ports(protocol: u8, given: bool) -> Result<(), Reason> {
    if given && !matches!(protocol, 6 | 17 | 33 | 132) {
        Err("ports")
    } else {
        Ok(())
    }
}

fn policy(words: &mut Words) -> Result<Call, Reason> {
    let mut selector = SelectorWords::default();
    let (mut direction, mut priority, mut action) = (None, None, None);
    let mut templates = Vec::new();
    while let Some(word) = words.next() {
        match word {
            "dir" => set(&mut direction, words.direction())?,
            "priority" => set(&mut priority, words.number())?,
            "action" => set(&mut action, words.value())?,
            "tmpl" => templates.push(TemplateWords::read(words)?),
            _ if selector.take(word, words)? => {}
            _ => return Err("word"),
        }
    }
    let allows = match action {
        None | Some("allow") => true,
        Some("block") => false,
        Some(_) => return Err("word"),
    };
    if templates.len() > 6 {
        return Err("templates");
    }
    let direction = direction.ok_or("missing")?;
    let selector = selector.selector()?;
    let templates = templates
        .iter()
        .map(|template| template.template(&selector));
    Ok(Call::PolicyAdd(Policy {
        direction,
        selector,
        priority: priority.unwrap_or(0),
        allows,
        templates: templates.collect::<Result<_, _>>()?,
        index: 0,
        number: 0,
    }))
}

fn policy_delete(words: &mut Words) -> Result<Call, Reason> {
    let mut selector = SelectorWords::default();
    let mut direction = None;
    while let Some(word) = words.next() {
        match word {
            "dir" => set(&mut direction, words.direction())?,
            _ if selector.take(word, words)? => {}
            _ => return Err("word"),
        }
    }
    Ok(Call::PolicyDelete(
        direction.ok_or("missing")?,
        selector.selector()?,
    ))
}

#[derive(Default)]
struct TemplateWords {
    source: Option<IpAddr>,
    destination: Option<IpAddr>,
    protocol: Option<Protocol>,
    spi: Option<u32>,
    reqid: Option<u32>,
    mode: Option<Mode>,
}

impl TemplateWords {
    /// Takes the words behind `tmpl`, as long as they are a template's.
    fn read(words: &mut Words) -> Result<Self, Reason> {
        let mut template = TemplateWords::default();
        while let Some(word @ ("src" | "dst" | "proto" | "spi" | "reqid" | "mode")) = words.peek() {
            words.next();
            match word {
                "src" => set(&mut template.source, words.address())?,
                "dst" => set(&mut template.destination, words.address())?,
                "proto" => set(&mut template.protocol, words.protocol())?,
                "spi" => set(&mut template.spi, words.number())?,
                "reqid" => set(&mut template.reqid, words.number())?,
                _ => set(&mut template.mode, words.mode())?,
            }
        }
        Ok(template)
    }

    fn template(&self, selector: &Selector) -> Result<Template, Reason> {
        let given = self
            .source
            .or(self.destination)
            .unwrap_or(selector.source.address);
        let (source, destination) = (
            self.source.unwrap_or(zero(given)),
            self.destination.unwrap_or(zero(given)),
        );
        same_family(source, destination)?;
        Ok(Template {
            source,
            destination,
            protocol: self.protocol.ok_or("missing")?,
            spi: self.spi.unwrap_or(0),
            reqid: self.reqid.unwrap_or(0),
            mode: self.mode.unwrap_or(Mode::Transport),
        })
    }
}

/// The words that name a state so far.
#[derive(Default)]
struct IdWords {
    source: Option<IpAddr>,
    destination: Option<IpAddr>,
    protocol: Option<Protocol>,
    spi: Option<u32>,
}

impl IdWords {
    fn take(&mut self, word: &str, words: &mut Words) -> Result<bool, Reason> {
        match word {
            "src" => set(&mut self.source, words.address())?,
            "dst" => set(&mut self.destination, words.address())?,
            "proto" => set(&mut self.protocol, words.protocol())?,
            "spi" => set(&mut self.spi, words.positive())?,
            _ => return Ok(false),
        }
        Ok(true)
    }

    /// The id, and the source, which is the zero address where it is left out.
    fn id(&self) -> Result<(Id, IpAddr), Reason> {
        let (Some(destination), Some(protocol), Some(spi)) =
            (self.destination, self.protocol, self.spi)
        else {
            return Err("missing");
        };
        let source = self.source.unwrap_or(zero(destination));
        same_family(source, destination)?;
        let id = Id {
            destination,
            spi,
            protocol,
        };
        Ok((id, source))
    }
}

fn state(words: &mut Words) -> Result<Call, Reason> {
    let mut id = IdWords::default();
    let (mut mode, mut reqid, mut size) = (None, None, None);
    let (mut accepted, mut sent) = (None, None);
    while let Some(word) = words.next() {
        match word {
            "mode" => set(&mut mode, words.mode())?,
            "reqid" => set(&mut reqid, words.number())?,
            "replay-window" => set(&mut size, words.number::<u32>())?,
            "replay-seq" => set(&mut accepted, words.number::<u32>())?,
            "replay-oseq" => set(&mut sent, words.number())?,
            "comp" => forget(words, 1)?,
            "enc" | "auth" => forget(words, 2)?,
            "auth-trunc" | "aead" => {
                forget(words, 2)?;
                words.number::<u32>()?;
            }
            _ if id.take(word, words)? => {}
            _ => return Err("word"),
        }
    }
    let (id, source) = id.id()?;
    let size = size.unwrap_or(0);
    if size > 32 {
        return Err("range");
    }
    Ok(Call::StateAdd(State {
        id,
        number: 0,
        source,
        reqid: reqid.unwrap_or(0),
        mode: mode.unwrap_or(Mode::Transport),
        window: Window::new(size, u64::from(accepted.unwrap_or(0))),
        sent: sent.unwrap_or(0),
        packets: 0,
        bytes: 0,
    }))
}

/// Reads the words of an algorithm, which nothing keeps.
fn forget(words: &mut Words, count: usize) -> Result<(), Reason> {
    (0..count).try_for_each(|_| words.value().map(drop))
}

fn state_delete(words: &mut Words) -> Result<Call, Reason> {
    let mut id = IdWords::default();
    while let Some(word) = words.next() {
        if !id.take(word, words)? {
            return Err("word");
        }
    }
    Ok(Call::StateDelete(id.id()?.0))
}

/// A flow, and of a send the length.
fn flow(words: &mut Words, direction: Direction, is_send: bool) -> Result<(Flow, u32), Reason> {
    let (mut source, mut destination, mut protocol) = (None, None, None);
    let (mut source_port, mut destination_port, mut length) = (None, None, None);
    while let Some(word) = words.next() {
        match word {
            "src" => set(&mut source, words.address())?,
            "dst" => set(&mut destination, words.address())?,
            "proto" => set(&mut protocol, words.carried())?,
            "sport" => set(&mut source_port, words.number())?,
            "dport" => set(&mut destination_port, words.number())?,
            "len" if is_send => set(&mut length, words.number())?,
            _ => return Err("word"),
        }
    }
    let (Some(source), Some(destination)) = (source, destination) else {
        return Err("missing");
    };
    same_family(source, destination)?;
    let protocol = protocol.unwrap_or(0);
    check_ports(
        protocol,
        source_port.is_some() || destination_port.is_some(),
    )?;
    let flow = Flow {
        direction,
        source,
        destination,
        protocol,
        source_port: source_port.unwrap_or(0),
        destination_port: destination_port.unwrap_or(0),
    };
    Ok((flow, length.unwrap_or(0)))
}

fn packet(words: &mut Words) -> Result<Call, Reason> {
    let mut id = IdWords::default();
    let (mut number, mut length, mut value) = (None, None, None);
    while let Some(word) = words.next() {
        match word {
            "seq" => set(&mut number, words.number::<u32>())?,
            "len" => set(&mut length, words.number())?,
            "icv" => set(&mut value, words.value())?,
            _ if id.take(word, words)? => {}
            _ => return Err("word"),
        }
    }
    let is_intact = match value {
        None | Some("ok") => true,
        Some("bad") => false,
        Some(_) => return Err("word"),
    };
    Ok(Call::Packet(Packet {
        id: id.id()?.0,
        number: u64::from(number.ok_or("missing")?),
        length: length.unwrap_or(0),
        is_intact,
    }))
}
