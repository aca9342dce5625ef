//! The words of a line, and the values that they spell.

use crate::lines::Line;
use crate::network::{Direction, Prefix};
use crate::states::{Mode, Protocol};
use std::net::IpAddr;

/// The reason why a line is bad.
pub type Reason = &'static str;

pub struct Words<'a> {
    line: &'a Line,
    place: usize,
}

/// Sets a word's value, which may be given once.
pub fn set<T>(field: &mut Option<T>, value: Result<T, Reason>) -> Result<(), Reason> {
    if field.is_some() {
        return Err("repeated");
    }
    *field = Some(value?);
    Ok(())
}

impl<'a> Words<'a> {
    pub fn new(line: &'a Line) -> Self {
        Words { line, place: 0 }
    }

    pub fn next(&mut self) -> Option<&'a str> {
        let word = self.line.word(self.place);
        self.place += 1;
        word
    }

    pub fn peek(&self) -> Option<&'a str> {
        self.line.word(self.place)
    }

    /// The next word, which has to be there.
    pub fn value(&mut self) -> Result<&'a str, Reason> {
        self.next().ok_or("missing")
    }

    pub fn end(&mut self) -> Result<(), Reason> {
        self.next().map_or(Ok(()), |_| Err("word"))
    }

    pub fn number<T: TryFrom<u64>>(&mut self) -> Result<T, Reason> {
        T::try_from(number(self.value()?)?).map_err(|_| "range")
    }

    pub fn positive(&mut self) -> Result<u32, Reason> {
        self.number()
            .and_then(|n| if n > 0 { Ok(n) } else { Err("range") })
    }

    pub fn address(&mut self) -> Result<IpAddr, Reason> {
        self.value()?.parse().map_err(|_| "address")
    }

    pub fn prefix(&mut self) -> Result<Prefix, Reason> {
        let word = self.value()?;
        let (address, length) = match word.split_once('/') {
            Some((address, length)) => (address, Some(length)),
            None => (word, None),
        };
        let address: IpAddr = address.parse().map_err(|_| "address")?;
        let most = Prefix::whole(address).length;
        let length = match length {
            Some(length) => {
                u8::try_from(decimal(length).ok_or("address")?).map_err(|_| "address")?
            }
            None => most,
        };
        if length > most {
            return Err("address");
        }
        Ok(Prefix::new(address, length))
    }

    pub fn direction(&mut self) -> Result<Direction, Reason> {
        match self.value()? {
            "in" => Ok(Direction::In),
            "out" => Ok(Direction::Out),
            "fwd" => Ok(Direction::Forward),
            _ => Err("word"),
        }
    }

    pub fn mode(&mut self) -> Result<Mode, Reason> {
        match self.value()? {
            "transport" => Ok(Mode::Transport),
            "tunnel" => Ok(Mode::Tunnel),
            _ => Err("word"),
        }
    }

    /// The protocol of a state, a template or a packet.
    pub fn protocol(&mut self) -> Result<Protocol, Reason> {
        match self.value()? {
            "esp" => Ok(Protocol::Esp),
            "ah" => Ok(Protocol::Ah),
            "comp" => Ok(Protocol::Comp),
            _ => Err("word"),
        }
    }

    /// The protocol of a selector or a flow.
    pub fn carried(&mut self) -> Result<u8, Reason> {
        let number = match self.peek() {
            Some("tcp") => 6,
            Some("udp") => 17,
            Some("icmp") => 1,
            _ => return self.number(),
        };
        self.next();
        Ok(number)
    }
}

fn number(word: &str) -> Result<u64, Reason> {
    match word.strip_prefix("0x") {
        Some(digits) if !digits.starts_with('+') => {
            u64::from_str_radix(digits, 16).map_err(|_| "number")
        }
        _ => decimal(word).ok_or("number"),
    }
}

/// Decimal digits without a leading zero.
fn decimal(word: &str) -> Option<u64> {
    let plain = word == "0" || word.starts_with(|first: char| ('1'..='9').contains(&first));
    if plain {
        word.parse().ok()
    } else {
        None
    }
}
