//! A batch, phase by phase: each is read whole, and then run.

use crate::calls::Call;
use crate::database::Database;
use crate::grammar::{self, Item};
use crate::lines::{Fault, Line, Lines};
use crate::texts::{write_reply, Place};
use std::io::{BufRead, Write};

const MOST_CALLS: usize = 16_384;
const MOST_LISTS: usize = 256;

struct Task {
    line: u64,
    call: Call,
}

/// Runs all phases; true where a reply is a refusal. `worker` lines change nothing: there is one thread.
pub fn run(lines: &mut Lines<impl BufRead>, out: &mut impl Write) -> Result<bool, Fault> {
    let mut database = Database::default();
    let mut tasks = Vec::new();
    let (mut more, mut refused) = (true, false);
    while more {
        more = read_phase(lines, &mut tasks)?;
        refused |= run_phase(&mut database, &mut tasks, out)?;
    }
    Ok(refused)
}

/// Reads the calls of a phase; true where a `sync` ended it.
fn read_phase(lines: &mut Lines<impl BufRead>, tasks: &mut Vec<Task>) -> Result<bool, Fault> {
    let mut line = Line::default();
    let mut lists = 0;
    while lines.read(&mut line)? {
        let bad = |reason| Fault::Line(line.number, reason);
        let call = match grammar::read(&line).map_err(bad)? {
            Item::Nothing | Item::Worker => continue,
            Item::Sync => return Ok(true),
            Item::Call(call) => call,
        };
        lists += usize::from(matches!(call, Call::PolicyList | Call::StateList));
        if tasks.len() == MOST_CALLS || lists > MOST_LISTS {
            return Err(bad("phase"));
        }
        tasks.push(Task {
            line: line.number,
            call,
        });
    }
    Ok(false)
}

fn run_phase(
    database: &mut Database,
    tasks: &mut Vec<Task>,
    out: &mut impl Write,
) -> Result<bool, Fault> {
    let (mut replies, mut refused) = (Vec::new(), false);
    for Task { line, call } in tasks.drain(..) {
        database.run(call, &mut replies);
        for (part, reply) in replies.drain(..).enumerate() {
            refused |= reply.is_refusal();
            write_reply(out, Place { line, part }, &reply).map_err(|_| Fault::Writing)?;
        }
    }
    out.flush().map_err(|_| Fault::Writing)?;
    Ok(refused)
}

#[cfg(test)]
mod tests {
    use super::*;

    /// What a batch writes, and how it ends.
    fn written(batch: &str) -> (String, Result<bool, Fault>) {
        let mut out = Vec::new();
        let end = run(&mut Lines::new(batch.as_bytes()), &mut out);
        (String::from_utf8(out).unwrap(), end)
    }

    const POLICY: &str = "xfrm policy add src 10.0.0.0/8 dir out";
    const STATE: &str = "xfrm state add dst 192.0.2.1 proto esp spi 0x100 reqid 7 replay-window 32";

    #[test]
    fn batches_are_answered() {
        for (batch, text, end) in [
            ("", "", Ok(false)),
            (
                &format!("{POLICY}\nflow out src 10.0.0.1 dst 192.0.2.1\nflow in src 10.0.0.1 dst 192.0.2.1\n"),
                "1: ok index 9\n2: policy 9 allow\n3: none\n",
                Ok(false),
            ),
            (
                &format!("{POLICY}\nsync\nworker 3\n{POLICY}\nxfrm policy count\n"),
                "1: ok index 9\n4: RTNETLINK answers: File exists\n5: count in 0 out 1 fwd 0\n",
                Ok(true),
            ),
            (
                &format!("{POLICY} tmpl proto esp reqid 7\n{STATE}\nsend src 10.0.0.1 dst 192.0.2.1 len 100\n"),
                "1: ok index 9\n2: ok sid 1\n3: policy 9 allow esp 0x00000100 192.0.2.1\n3.1: sent esp 0x00000100 seq 1\n",
                Ok(false),
            ),
            (
                &format!("{STATE} enc 'cbc(aes)' 0x01 \\\nauth any any\nxfrm state list\nxfrm state flush\n"),
                "1: ok sid 1\n3: list 1\n3: state 1 src 0.0.0.0 dst 192.0.2.1 proto esp spi 0x00000100 reqid 7 \
                 mode transport seq 0 mark 0x00000000 mask 0x00000000 if_id 0 replay-window 32 added 0\n4: ok removed 1\n",
                Ok(false),
            ),
            (
                &format!("{POLICY} priority 5 action block tmpl proto ah\nxfrm policy list\n"),
                "1: ok index 9\n2: list 1\n2: policy 9 dir out ptype main src 10.0.0.0/8 dst 0.0.0.0/0 proto 0 \
                 mark 0x00000000 mask 0x00000000 if_id 0 priority 5 action block added 0 \
                 tmpl src 0.0.0.0 dst 0.0.0.0 proto ah spi 0x00000000 mode transport reqid 0 level required\n",
                Ok(false),
            ),
            ("xfrm state count\nsync\nxfrm state count\nx\n", "1: count 0\n", Err(Fault::Line(4, "word"))),
        ] {
            assert_eq!(written(batch), (String::from(text), end), "{batch}");
        }
    }

    #[test]
    fn a_phase_has_16384_calls_and_256_lists() {
        for (line, most) in [
            ("flow in src ::1 dst ::2\n", MOST_CALLS),
            ("xfrm state list\n", MOST_LISTS),
        ] {
            let phase = line.repeat(most);
            assert_eq!(written(&format!("{phase}sync\n{phase}")).1, Ok(false));
            let number = most as u64 + 1;
            assert_eq!(
                written(&format!("{phase}{line}")).1,
                Err(Fault::Line(number, "phase"))
            );
        }
    }
}
