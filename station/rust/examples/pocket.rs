//! `pocket [read | view | holes PERIOD LENGTH] < TRACE`: makes the calls of a trace
//! (docs/TRACE.md) as PocketHLE's own calls, which pocket/adapter.rs has over the library, and
//! prints their answers as the program `replay` does.
//!
//! The words say how the guest memory answers: by `read` alone, as without a word; by `view`; or by
//! `read`, with LENGTH bytes that cannot be read at each multiple of PERIOD. PocketHLE's calls have
//! no output length, so that of a draw is not used. The program stops at what they do not have:
//! stacks lent from outside, another store, an unsound context.

#[path = "pocket/adapter.rs"]
mod adapter;
#[macro_use]
#[path = "trace/calls.rs"]
mod calls;
#[path = "pocket/dump.rs"]
mod dump;
#[path = "pocket/player.rs"]
mod player;
mod trace;

use beonasul::Triangle;
use player::{Player, Way};
use std::io::{self, BufWriter, Read, Write};
use trace::{code, Record};

type Outcome = Result<(), Box<dyn std::error::Error>>;

/// A triangle's 51 f32.
fn floats(triangle: &Triangle) -> impl Iterator<Item = f32> + '_ {
    triangle.vertices.iter().flat_map(|v| {
        let pairs = v.texcoord.iter().flatten();
        v.position.iter().chain(&v.color).chain(pairs).chain([&v.fog_depth]).copied()
    })
}

/// Does what a record says and prints the answer.
fn play(player: &mut Player, r: &Record, page: &mut impl Write) -> Outcome {
    match r.code {
        code::STORE_FILL..=code::STORE_LEN | code::STACK_SET..=code::UNSOUND => {
            return Err("PocketHLE's calls have no such record".into());
        }
        code::DUMP => dump::dump(page, &player.context, r.words[0])?,
        code::DRAW_LIST..=code::DRAW_GUEST => {
            let (mut out, mut count) = (Vec::new(), 0);
            player.draw(r, |triangle| {
                out.extend(floats(triangle));
                count += 1;
            });
            trace::line(page, r.code, &[player.context.number(), count])?;
            trace::triangles(page, &out, count as usize)?;
        }
        _ => {
            let value = player.play(r);
            if !matches!(r.code, code::META | code::GUEST..=code::GUEST_BASE) {
                let answer = [&[player.context.number()], value.as_slice()].concat();
                trace::line(page, r.code, &answer)?;
            }
        }
    }
    Ok(())
}

/// How the guest memory is to answer.
fn way(arguments: &[String]) -> Option<Way> {
    let words: Vec<&str> = arguments.iter().map(String::as_str).collect();
    match words[..] {
        [] | ["read"] => Some(Way::Read),
        ["view"] => Some(Way::View),
        ["holes", period, length] => {
            let (period, length) = (period.parse().ok()?, length.parse().ok()?);
            (length < period).then_some(Way::Holes { period, length })
        }
        _ => None,
    }
}

fn main() -> Outcome {
    let arguments: Vec<String> = std::env::args().skip(1).collect();
    let way = way(&arguments).ok_or("usage: pocket [read | view | holes PERIOD LENGTH] < TRACE")?;
    let mut bytes = Vec::new();
    io::stdin().read_to_end(&mut bytes)?;
    let records = trace::read(&bytes).ok_or("the trace is damaged")?;
    let mut player = Player::new(way);
    let mut page = BufWriter::new(io::stdout().lock());
    for record in &records {
        play(&mut player, record, &mut page)?;
    }
    Ok(page.flush()?)
}
