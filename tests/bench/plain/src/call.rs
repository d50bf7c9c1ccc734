//! The calls of a script: how each is read, what it does at a port, and what is printed for it.

use crate::book::Outcome;
use crate::image::Image;
use crate::isdu::Request;
use crate::page::{Identity, Page, cycle_octet};
use crate::port::Port;
use crate::run::{Spaced, print_answer};
use crate::script::{count, data, image, number, place};
use crate::station::{Mode, Status, When, Why};
use crate::wire::Wire;
use std::io::{self, Write};

/// A line that calls the port.
pub enum Call {
    Submit(Request),
    SubmitUrgent(Request),
    Collect(u64),
    Withdraw(u64),
    Cancel(u64),
    Abandon(u64),
    Restart,
    SetOutput(Image),
    ClearOutput,
    Look,
    TakeEvent,
    Status,
    Counters,
    LastLoss,
    Archive,
    Drain,
    /// Any device where there is none.
    Expect(Option<Identity>),
    /// The octet of a cycle time, or the least of the device.
    Cycle(Option<u8>),
    Page,
    Turns(u32),
}

impl Call {
    /// The call that a line names, and whose words follow.
    pub fn read<'a>(name: &[u8], words: &mut impl Iterator<Item = &'a [u8]>) -> Option<Call> {
        Some(match name {
            b"turn" => Call::Turns(count(words.next()?)?),
            b"read" | b"write" => Call::Submit(request(name, words)?),
            b"urgent" => Call::SubmitUrgent(request(words.next()?, words)?),
            b"collect" => Call::Collect(number(words.next()?)?),
            b"withdraw" => Call::Withdraw(number(words.next()?)?),
            b"cancel" => Call::Cancel(number(words.next()?)?),
            b"abandon" => Call::Abandon(number(words.next()?)?),
            b"restart" => Call::Restart,
            b"output" => match words.next()? {
                b"none" => Call::ClearOutput,
                word => Call::SetOutput(image(word)?),
            },
            b"image" => Call::Look,
            b"event" => Call::TakeEvent,
            b"status" => Call::Status,
            b"archive" => Call::Archive,
            b"drain" => Call::Drain,
            b"counters" => Call::Counters,
            b"last" => Call::LastLoss,
            b"expect" => Call::Expect(expected(words)?),
            b"cycle" => Call::Cycle(cycle(words)?),
            _ => return None,
        })
    }

    /// Makes the call, and prints what it answers. Turns print nothing here.
    pub fn make<W: Wire>(self, port: &mut Port<W>, output: &mut impl Write) -> io::Result<()> {
        let refused = match self {
            Call::Submit(request) => match port.submit(request) {
                Ok(ticket) => return writeln!(output, "ticket {ticket}"),
                Err(refusal) => Err(refusal),
            },
            Call::SubmitUrgent(request) => match port.submit_urgent(request) {
                Ok(ticket) => return writeln!(output, "ticket {ticket}"),
                Err(refusal) => Err(refusal),
            },
            Call::Collect(ticket) => match port.collect(ticket) {
                Ok(outcome) => {
                    write!(output, "ticket {ticket} ")?;
                    return print_outcome(output, &outcome);
                }
                Err(refusal) => Err(refusal),
            },
            Call::TakeEvent => match port.take_event() {
                Ok(event) => {
                    return writeln!(output, "event {:02X} {:04X}", event.qualifier, event.code);
                }
                Err(refusal) => Err(refusal),
            },
            Call::Archive => match port.archive() {
                Ok(entries) => return writeln!(output, "archived {}", entries.len()),
                Err(refusal) => Err(refusal),
            },
            Call::Drain => match port.drain() {
                Ok((entries, restated)) => return writeln!(output, "drained {entries} restated {restated}"),
                Err(refusal) => Err(refusal),
            },
            Call::Look => return print_image(output, port.image()),
            Call::Page => return print_page(output, port.page()),
            Call::Counters => return writeln!(output, "counters {}", port.counters()),
            Call::LastLoss => return print_last_loss(output, port.last_loss()),
            Call::Expect(expected) => return print_when(output, port.expect(expected)),
            Call::Cycle(chosen) => return print_when(output, port.set_cycle(chosen)),
            Call::Status => return print_status(output, port.status()),
            Call::Withdraw(ticket) => port.withdraw(ticket),
            Call::Cancel(ticket) => port.cancel(ticket),
            Call::Abandon(ticket) => port.abandon(ticket),
            Call::SetOutput(image) => port.set_output(&image),
            Call::ClearOutput => {
                port.clear_output();
                Ok(())
            }
            Call::Restart => {
                port.restart();
                Ok(())
            }
            Call::Turns(_) => return Ok(()),
        };
        match refused {
            Ok(()) => writeln!(output, "ok"),
            Err(refusal) => writeln!(output, "refused {} {refusal:?}", refusal.number()),
        }
    }
}

fn expected<'a>(words: &mut impl Iterator<Item = &'a [u8]>) -> Option<Option<Identity>> {
    let vendor = match words.next()? {
        b"any" => return Some(None),
        word => number(word)?.try_into().ok()?,
    };
    let device = number(words.next()?)?.try_into().ok()?;
    let fits = device < 1 << 24;
    fits.then_some(Some(Identity { vendor, device }))
}

fn cycle<'a>(words: &mut impl Iterator<Item = &'a [u8]>) -> Option<Option<u8>> {
    let micros: u32 = match words.next()? {
        b"least" => return Some(None),
        word => number(word)?.try_into().ok()?,
    };
    let octet = cycle_octet(micros).ok()?;
    (micros > 0).then_some(Some(octet))
}

fn request<'a>(name: &[u8], words: &mut impl Iterator<Item = &'a [u8]>) -> Option<Request> {
    match name {
        b"read" => Some(Request::Read(place(words)?)),
        b"write" => Some(Request::Write(place(words)?, data(words.next()?)?)),
        _ => None,
    }
}

fn print_outcome(output: &mut impl Write, outcome: &Outcome) -> io::Result<()> {
    match outcome {
        Outcome::Done(answer) => {
            write!(output, "done ")?;
            print_answer(output, answer)
        }
        Outcome::Unknown(cause) => writeln!(output, "unknown {cause:?}"),
        Outcome::Withdrawn => writeln!(output, "withdrawn"),
        Outcome::NoIsdu => writeln!(output, "noisdu"),
    }
}

fn print_image(output: &mut impl Write, image: Option<&Image>) -> io::Result<()> {
    match image {
        Some(image) => writeln!(output, "image {}", Spaced(image.octets())),
        None => writeln!(output, "image none"),
    }
}

fn print_page(output: &mut impl Write, page: Option<&Page>) -> io::Result<()> {
    match page {
        Some(page) => writeln!(output, "page {}", Spaced(&page.0)),
        None => writeln!(output, "page none"),
    }
}

fn print_when(output: &mut impl Write, when: When) -> io::Result<()> {
    match when {
        When::Now => writeln!(output, "ok"),
        When::Later => writeln!(output, "ok later"),
    }
}

fn print_status(output: &mut impl Write, status: Status) -> io::Result<()> {
    let mode = match status.mode {
        Mode::Down => "down",
        Mode::Startup => "startup",
        Mode::Preoperate => "preoperate",
        Mode::Operate => "operate",
    };
    write!(output, "status {mode}")?;
    if let Some(why) = status.why {
        write!(output, " {}", why_name(&why))?;
    }
    writeln!(
        output,
        "{}",
        if status.event_form { " eventform" } else { "" }
    )
}

fn why_name(why: &Why) -> String {
    match why {
        Why::NoWake => "NoWake".into(),
        Why::Lost => "Lost".into(),
        Why::WrongDevice(_) => "WrongDevice".into(),
        Why::Page(refusal) => format!("{refusal:?}"),
    }
}

fn print_last_loss(output: &mut impl Write, loss: Option<Why>) -> io::Result<()> {
    match loss {
        None => writeln!(output, "last none"),
        Some(Why::WrongDevice(found)) => {
            writeln!(
                output,
                "last WrongDevice {:04X} {:06X}",
                found.vendor, found.device
            )
        }
        Some(why) => writeln!(output, "last {}", why_name(&why)),
    }
}
