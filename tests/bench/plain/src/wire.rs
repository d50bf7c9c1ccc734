//! The wire between a port and its device, simulated (docs/protocol.md, WIRE; docs/guide.md).

use crate::device::Device;
use crate::event::Event;
use crate::image::Image;
use crate::message::Message;
use std::vec::IntoIter;

pub trait Wire {
    /// A wake-up request: whether a device answered.
    fn wake(&mut self) -> bool;

    /// Sends octets, and answers what came back.
    fn exchange(&mut self, sent: &[u8], reply: &mut Message) -> bool;

    fn device(&self) -> &Device;

    /// The device that isn't plugged in, where there are two.
    fn away(&self) -> Option<&Device>;
}

/// What becomes of one call of the wire.
#[derive(Clone, Copy, Debug, PartialEq, Eq)]
pub enum Fate {
    Clean,
    OutLost,
    BackLost,
    OutDamaged,
    BackDamaged,
    NoWake,
    Silent,
}

/// One step of a script.
#[derive(Clone)]
pub enum Step {
    Fate(Fate),
    Work,
    Auto(bool),
    Raise(Event),
    Input(Image),
    NoInput,
    Power,
    Swap,
    Quiet,
}

/// A wire with a device at its far end, and a list of what happens.
pub struct Sim {
    device: Box<Device>,
    away: Option<Box<Device>>,
    steps: IntoIter<Step>,
    auto: bool,
    silent: bool,
}

impl Sim {
    pub fn new(device: Device, steps: Vec<Step>) -> Sim {
        Sim {
            device: Box::new(device),
            away: None,
            steps: steps.into_iter(),
            auto: true,
            silent: false,
        }
    }

    /// The same wire with a second device, not plugged in.
    pub fn with_other(mut self, other: Device) -> Sim {
        self.away = Some(Box::new(other));
        self
    }

    /// The other device is plugged in, if there is one.
    fn swap(&mut self) {
        if let Some(other) = &mut self.away {
            other.power_cycle();
            std::mem::swap(&mut self.device, other);
        }
    }

    /// Does all that comes before a call, whose fate is answered.
    fn prepare(&mut self) -> Fate {
        let fate = match self.silent {
            true => Fate::Silent,
            false => self.next_fate(),
        };
        self.silent = fate == Fate::Silent;
        if self.auto {
            self.device.work();
        }
        fate
    }

    /// Does the steps up to and with the next fate.
    fn next_fate(&mut self) -> Fate {
        while let Some(step) = self.steps.next() {
            match step {
                Step::Fate(fate) => return fate,
                Step::Work => self.device.work(),
                Step::Auto(on) => self.auto = on,
                // What the device refuses changes nothing.
                Step::Raise(event) => drop(self.device.raise(event)),
                Step::Input(image) => drop(self.device.set_input(&image)),
                Step::NoInput => self.device.clear_input(),
                Step::Power => self.device.power_cycle(),
                Step::Swap => self.swap(),
                Step::Quiet => self.device.silence(),
            }
        }
        Fate::Clean
    }
}

/// The octets with bit 0 of the last one flipped.
fn damaged(octets: &[u8]) -> Message {
    let mut message = Message::new();
    message.extend(octets);
    if let Some(octet) = message.last_mut() {
        *octet ^= 1;
    }
    message
}

impl Wire for Sim {
    fn wake(&mut self) -> bool {
        // What counts of the device is how it is before its own steps.
        let is_orderly = self.device.is_orderly();
        let fate = self.prepare();
        if fate == Fate::NoWake && is_orderly && self.device.misses_pulses() {
            return self.device.miss_pulse();
        }
        if matches!(fate, Fate::Clean | Fate::BackLost | Fate::BackDamaged) {
            self.device.wake();
        }
        fate == Fate::Clean
    }

    fn exchange(&mut self, sent: &[u8], reply: &mut Message) -> bool {
        match self.prepare() {
            Fate::Clean => self.device.hear(sent, reply),
            Fate::BackLost => {
                self.device.hear(sent, reply);
                false
            }
            Fate::BackDamaged => {
                let came = self.device.hear(sent, reply);
                if came && let Some(octet) = reply.last_mut() {
                    *octet ^= 1;
                }
                came
            }
            Fate::OutDamaged => self.device.hear(&damaged(sent), reply),
            Fate::OutLost | Fate::NoWake | Fate::Silent => false,
        }
    }

    fn device(&self) -> &Device {
        &self.device
    }

    fn away(&self) -> Option<&Device> {
        self.away.as_deref()
    }
}

/// What passed over a wire.
pub enum Passed {
    Wake(bool),
    Exchange(Message, Option<Message>),
}

/// A wire round another one, which notes the last call.
pub struct Tap<W> {
    wire: W,
    pub last: Option<Passed>,
}

impl<W: Wire> Tap<W> {
    pub fn new(wire: W) -> Tap<W> {
        Tap { wire, last: None }
    }
}

impl<W: Wire> Wire for Tap<W> {
    fn wake(&mut self) -> bool {
        let found = self.wire.wake();
        self.last = Some(Passed::Wake(found));
        found
    }

    fn exchange(&mut self, sent: &[u8], reply: &mut Message) -> bool {
        let came = self.wire.exchange(sent, reply);
        let mut message = Message::new();
        message.extend(sent);
        self.last = Some(Passed::Exchange(message, came.then(|| reply.clone())));
        came
    }

    fn device(&self) -> &Device {
        self.wire.device()
    }

    fn away(&self) -> Option<&Device> {
        self.wire.away()
    }
}
