//! Messages: their checksum, their layouts, and how they are written and read (docs/protocol.md, OCT to LAY).

use crate::bounded::Bounded;
use crate::refusal::Refusal;

/// The octets of a master message, at most 66, or of a reply, at most 65.
pub type Message = Bounded<66>;

#[derive(Clone, Copy, Debug, PartialEq, Eq)]
pub enum Channel {
    Process,
    Page,
    Diagnosis,
    Isdu,
}

/// The M-sequence control octet.
#[derive(Clone, Copy, Debug, PartialEq, Eq)]
pub struct Mc {
    pub read: bool,
    pub channel: Channel,
    /// 0 to 31; on the ISDU channel it is the flow control.
    pub address: u8,
}

impl Mc {
    pub const fn read(channel: Channel, address: u8) -> Mc {
        Mc {
            read: true,
            channel,
            address,
        }
    }

    pub const fn write(channel: Channel, address: u8) -> Mc {
        Mc {
            read: false,
            channel,
            address,
        }
    }

    fn of(octet: u8) -> Mc {
        let channel = match (octet >> 5) & 3 {
            0 => Channel::Process,
            1 => Channel::Page,
            2 => Channel::Diagnosis,
            _ => Channel::Isdu,
        };
        Mc {
            read: octet & 0x80 != 0,
            channel,
            address: octet & 0x1F,
        }
    }

    fn octet(self) -> u8 {
        (u8::from(self.read) << 7) | ((self.channel as u8) << 5) | self.address
    }
}

/// The flow control START.
pub const START: u8 = 0x10;
/// The flow control IDLE 1.
pub const IDLE_1: u8 = 0x11;
/// The flow control ABORT.
pub const ABORT: u8 = 0x1F;

/// The flow control of a segment, counted from 0.
pub fn flow_of(segment: usize) -> u8 {
    match segment {
        0 => START,
        _ => (segment % 16) as u8,
    }
}

/// The M-sequence type of a mode, and how many octets each part of its messages has.
#[derive(Clone, Copy, Debug, PartialEq, Eq)]
pub struct Layout {
    pub kind: u8,
    pub od: usize,
    pub pd_in: usize,
    pub pd_out: usize,
}

impl Layout {
    pub const STARTUP: Layout = Layout::of_sizes(1, 0, 0);

    const fn of_sizes(od: usize, pd_in: usize, pd_out: usize) -> Layout {
        let kind = match (pd_in, pd_out) {
            (0, 0) if od == 1 => 0,
            (0, 0) => 1,
            _ => 2,
        };
        Layout {
            kind,
            od,
            pd_in,
            pd_out,
        }
    }

    pub fn preoperate(code: u8) -> Result<Layout, Refusal> {
        let od = match code {
            0 => 1,
            1 => 2,
            2 => 8,
            3 => 32,
            _ => return Err(Refusal::UnsupportedCode),
        };
        Ok(Layout::of_sizes(od, 0, 0))
    }

    pub fn operate(code: u8, pd_in: usize, pd_out: usize) -> Result<Layout, Refusal> {
        let process = pd_in > 0 || pd_out > 0;
        let od = match (code, process) {
            (0 | 4, _) => 1,
            (1, false) | (5, _) => 2,
            (6, _) => 8,
            (7, _) => 32,
            _ => return Err(Refusal::UnsupportedCode),
        };
        if pd_in > 32 || pd_out > 32 {
            return Err(Refusal::BadLength);
        }
        Ok(Layout::of_sizes(od, pd_in, pd_out))
    }
}

/// The XOR of 0x52 and all octets.
fn fold(octets: &[u8]) -> u8 {
    let (words, rest) = octets.as_chunks::<8>();
    let word = words
        .iter()
        .fold(0, |sum, word| sum ^ u64::from_ne_bytes(*word));
    let half = (word ^ (word >> 32)) as u32;
    let quarter = half ^ (half >> 16);
    let first = (quarter ^ (quarter >> 8)) as u8;
    rest.iter().fold(0x52 ^ first, |sum, octet| sum ^ octet)
}

/// Eight bits to six, each the XOR of some of the eight.
const fn six_of(sum: u8) -> u8 {
    let pairs = sum ^ (sum >> 1);
    let fours = sum ^ (sum >> 4);
    let halves = fours ^ (fours >> 2);
    ((halves & 3) << 4) | ((pairs >> 3) & 8) | ((pairs >> 2) & 4) | ((pairs >> 1) & 2) | (pairs & 1)
}

static SIX: [u8; 256] = {
    let mut table = [0; 256];
    let mut sum = 0;
    while sum < 256 {
        table[sum] = six_of(sum as u8);
        sum += 1;
    }
    table
};

fn compress(sum: u8) -> u8 {
    SIX[usize::from(sum)]
}

/// The checksum of octets whose own six bits are 0.
pub fn checksum6(octets: &[u8]) -> u8 {
    compress(fold(octets))
}

/// Whether the low six bits of the octet at a place are the checksum of all octets.
fn has_checksum(octets: &[u8], place: usize) -> bool {
    let sum = octets[place] & 0x3F;
    sum == compress(fold(octets) ^ sum)
}

/// What a master says in one message.
#[derive(Clone, Copy, Debug)]
pub struct MasterMsg<'a> {
    pub mc: Mc,
    /// As many octets as the layout has.
    pub out: &'a [u8],
    /// As many octets as the layout has, and none in a read.
    pub od: &'a [u8],
}

/// Writes a master message, whose parts have the layout's sizes.
pub fn encode_master(layout: &Layout, message: &MasterMsg) -> Message {
    let mut octets = Message::new();
    write_master(layout, message, &mut octets);
    octets
}

/// The same in a buffer.
pub fn write_master(layout: &Layout, message: &MasterMsg, octets: &mut Message) {
    octets.clear();
    octets.push(message.mc.octet());
    octets.push(layout.kind << 6);
    octets.extend(message.out);
    octets.extend(message.od);
    octets[1] |= checksum6(octets);
}

/// Reads a master message. Refused by the first of WrongLength, WrongType, BadChecksum that holds.
pub fn read_master<'a>(layout: &Layout, octets: &'a [u8]) -> Result<MasterMsg<'a>, Refusal> {
    let [control, check, parts @ ..] = octets else {
        return Err(Refusal::WrongLength);
    };
    let mc = Mc::of(*control);
    let od = if mc.read { 0 } else { layout.od };
    if parts.len() != layout.pd_out + od {
        return Err(Refusal::WrongLength);
    }
    if check >> 6 != layout.kind {
        return Err(Refusal::WrongType);
    }
    if !has_checksum(octets, 1) {
        return Err(Refusal::BadChecksum);
    }
    let (out, od) = parts.split_at(layout.pd_out);
    Ok(MasterMsg { mc, out, od })
}

/// What a device says in one reply.
#[derive(Clone, Copy, Debug)]
pub struct Reply<'a> {
    /// As many octets as the layout has, and none to a write.
    pub od: &'a [u8],
    /// As many octets as the layout has.
    pub input: &'a [u8],
    /// The device has events to be read.
    pub event: bool,
    /// The input is not valid.
    pub invalid: bool,
}

/// Writes a reply.
pub fn encode_reply(reply: &Reply) -> Message {
    let mut octets = Message::new();
    octets.extend(reply.od);
    octets.extend(reply.input);
    seal_reply(&mut octets, reply.event, reply.invalid);
    octets
}

/// Puts the last octet of a reply behind its parts.
pub fn seal_reply(octets: &mut Message, event: bool, invalid: bool) {
    let status = (u8::from(event) << 7) | (u8::from(invalid) << 6);
    let sum = compress(fold(octets) ^ status);
    octets.push(status | sum);
}

/// Reads the reply to a read or to a write. Refused by the first of WrongLength, BadChecksum that holds.
pub fn read_reply<'a>(layout: &Layout, read: bool, octets: &'a [u8]) -> Result<Reply<'a>, Refusal> {
    let od = if read { layout.od } else { 0 };
    if octets.len() != od + layout.pd_in + 1 {
        return Err(Refusal::WrongLength);
    }
    let last = octets.len() - 1;
    if !has_checksum(octets, last) {
        return Err(Refusal::BadChecksum);
    }
    let (od, rest) = octets.split_at(od);
    Ok(Reply {
        od,
        input: &rest[..layout.pd_in],
        event: octets[last] & 0x80 != 0,
        invalid: octets[last] & 0x40 != 0,
    })
}
