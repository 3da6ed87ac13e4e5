//! A plain program of the same rules with indexes, the yardstick of docs/SPEED.md: frames on standard input, replies on standard output.
//! Its words are `dry`, `load N` and `sessions`, which reads a trace. It proves nothing, keeps no folder, notes no fault and reads no command on intercepts.

mod answers;
mod forms;
mod json;
mod load;
mod network;
mod paths;
mod routes;
mod tables;

use network::Network;
use std::io::{Read, Write};

const PIECE: usize = 65_536;

/// A sender: its role, its name, what is left of its bytes, and how many replies it got.
#[derive(Default)]
struct Session {
    role: u8,
    own: String,
    rest: Vec<u8>,
    replies: u32,
}

fn number_at(input: &[u8], at: usize) -> u32 {
    u32::from_le_bytes(input[at..at + 4].try_into().expect("four bytes"))
}

fn respond(network: &mut Network, session: (u8, &str), content: u32, body: &[u8], reply: &mut Vec<u8>) -> bool {
    if content == 0 {
        return true;
    }
    let Some(form) = forms::form(content) else {
        answers::write_refusal(reply, &forms::refused(10, "UnsupportedType"));
        return false;
    };
    let members = json::members(body);
    let told = forms::read(form, members.as_deref()).and_then(|fields| match answers::is_permitted(session.0, session.1, content, &fields) {
        true => answers::answer(network, content, &fields, reply),
        false => Err(forms::refused(12, "NotPermitted")),
    });
    told.inspect_err(|refusal| answers::write_refusal(reply, refusal)).is_ok()
}

/// Answers the whole frames at the front of some bytes. Gives how many bytes these have.
fn answer_frames(network: &mut Network, session: &mut Session, tag: &[u8], input: &[u8], out: &mut Vec<u8>) -> usize {
    let mut at = 0;
    while at + 20 <= input.len() {
        let (headers, body) = (number_at(input, at + 12) as usize, number_at(input, at + 16) as usize);
        let (start, end) = (at + 20 + headers, at + 20 + headers + body);
        if end > input.len() {
            break;
        }
        out.extend_from_slice(tag);
        let head = out.len();
        out.extend_from_slice(&input[at..at + 4]);
        for word in [2, session.replies, 21, 0, 1, 4, number_at(input, at + 8), 2, 1] {
            out.extend_from_slice(&u32::to_le_bytes(word));
        }
        out.push(0);
        let front = out.len();
        let succeeds = respond(network, (session.role, &session.own), number_at(input, at + 4), &input[start..end], out);
        out[front - 1] = u8::from(succeeds);
        let size = (out.len() - front) as u32;
        out[head + 16..head + 20].copy_from_slice(&size.to_le_bytes());
        session.replies = session.replies.wrapping_add(1);
        at = end;
    }
    at
}

fn dry(network: &mut Network) -> std::io::Result<()> {
    let (mut input, mut out) = (Vec::with_capacity(2 * PIECE), Vec::with_capacity(PIECE));
    let (mut stdin, mut stdout, mut session) = (std::io::stdin().lock(), std::io::stdout().lock(), Session::default());
    loop {
        let filled = input.len();
        input.resize(filled + PIECE, 0);
        let got = stdin.read(&mut input[filled..])?;
        input.truncate(filled + got);
        if got == 0 {
            return Ok(());
        }
        let taken = answer_frames(network, &mut session, &[], &input, &mut out);
        input.drain(..taken);
        stdout.write_all(&out)?;
        out.clear();
    }
}

fn sessions(network: &mut Network) -> std::io::Result<()> {
    let (mut input, mut out) = (Vec::new(), Vec::new());
    std::io::stdin().lock().read_to_end(&mut input)?;
    let mut opened: Vec<Session> = (0..256).map(|_| Session::default()).collect();
    let mut at = 0;
    while at + 2 <= input.len() {
        let number = input[at + 1];
        let session = &mut opened[usize::from(number)];
        at += match input[at] {
            1 => {
                let size = usize::from(input[at + 3]);
                (session.role, session.own) = (input[at + 2], String::from_utf8_lossy(&input[at + 4..at + 4 + size]).into_owned());
                4 + size
            }
            2 => {
                let size = usize::from(u16::from_le_bytes([input[at + 2], input[at + 3]]));
                let mut rest = std::mem::take(&mut session.rest);
                rest.extend_from_slice(&input[at + 4..at + 4 + size]);
                let taken = answer_frames(network, session, &[4, number], &rest, &mut out);
                rest.drain(..taken);
                session.rest = rest;
                4 + size
            }
            _ => 2,
        };
        if out.len() >= PIECE {
            std::io::stdout().write_all(&out)?;
            out.clear();
        }
    }
    std::io::stdout().write_all(&out)
}

fn generated(network: &mut Network, number: u32) -> std::io::Result<()> {
    let mut out = Vec::new();
    load::send_all(&mut load::Draws::new(number), &mut |content, body| {
        out.clear();
        respond(network, (0, ""), content, body.as_bytes(), &mut out);
    });
    out.clear();
    let _ = answers::show_counts(network, &mut out);
    out.push(b'\n');
    std::io::stdout().write_all(&out)
}

fn main() -> std::io::Result<()> {
    let words: Vec<String> = std::env::args().skip(1).collect();
    let mut network = Network::default();
    network.least_router_cost = 10;
    match words.iter().map(String::as_str).collect::<Vec<_>>()[..] {
        ["load", number] => generated(&mut network, number.parse().expect("a number")),
        ["sessions"] => sessions(&mut network),
        _ => dry(&mut network),
    }
}
