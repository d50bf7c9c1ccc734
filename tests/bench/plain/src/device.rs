//! The device's end of the line (docs/protocol.md, DEV).

use crate::event::{Event, EventMemory};
use crate::image::Image;
use crate::isdu::{Answer, Cutter, Joiner, Request, Took};
use crate::message::{
    ABORT, Channel, IDLE_1, Layout, MasterMsg, Message, START, flow_of, read_master, seal_reply,
};
use crate::page::{Layouts, Page, command};
use crate::params::Params;
use crate::refusal::Refusal;

/// The flow control IDLE 2.
const IDLE_2: u8 = 0x12;

/// The test read of a wake-up request: octet 0x02 of the page, in the layout of STARTUP.
const TEST_READ: [u8; 2] = [0xA2, 0x00];

/// When a device hands a request over.
#[derive(Clone, Copy, Debug, PartialEq, Eq)]
pub enum HandsOver {
    FirstRead,
    LastSegment,
}

/// How long a device knows its answer.
#[derive(Clone, Copy, Debug, PartialEq, Eq)]
pub enum Recalls {
    UntilLeft,
    UntilSent,
}

/// The kind of a device.
#[derive(Clone, Copy, Debug, PartialEq, Eq)]
pub struct Kind {
    pub hands_over: HandsOver,
    pub recalls: Recalls,
}

impl Kind {
    /// The kind of our own devices.
    pub const OWN: Kind = Kind {
        hands_over: HandsOver::FirstRead,
        recalls: Recalls::UntilLeft,
    };
}

#[derive(Clone, Copy, Debug, PartialEq, Eq)]
enum Mode {
    Startup,
    Preoperate,
    Operate,
}

/// How far the device is with a request.
#[derive(Clone, Copy, Debug, PartialEq, Eq)]
enum Stage {
    Empty,
    Receiving,
    Whole,
    Handed,
    /// With the last segment of the answer that was sent.
    Answered(Option<usize>),
}

/// A request that was carried out, and the answer.
pub struct Carried {
    pub request: Request,
    pub answer: Answer,
}

pub struct Device {
    kind: Kind,
    misses_pulses: bool,
    page: Page,
    layouts: Layouts,
    params: Params,
    cycle_time: u8,
    awake: bool,
    mode: Mode,
    /// The mode that a command asked for, until a good message comes in its layout, and the octets of that command.
    waits: Option<(Mode, Message)>,
    stage: Stage,
    /// The COUNT of the last write, where a request is handed over with its last segment.
    counted: Option<u8>,
    joiner: Joiner,
    request: Request,
    cutter: Cutter,
    events: EventMemory,
    input: Option<Image>,
    output: Image,
    is_output_valid: bool,
    record: Vec<Carried>,
    room: usize,
}

impl Device {
    /// A device that is asleep, with room for so many requests in its record.
    pub fn open(params: Params, page: Page, room: usize) -> Result<Device, Refusal> {
        let layouts = page.layouts()?;
        Ok(Device {
            kind: Kind::OWN,
            misses_pulses: false,
            page,
            layouts,
            params,
            cycle_time: 0,
            awake: false,
            mode: Mode::Startup,
            waits: None,
            stage: Stage::Empty,
            counted: None,
            joiner: Joiner::new(),
            request: Request::Read(crate::isdu::Place { index: 0, sub: 0 }),
            cutter: Cutter::new(),
            events: EventMemory::new(),
            input: None,
            output: Image::new(&[0; 32][..layouts.run.pd_out.max(1)])?,
            is_output_valid: false,
            record: Vec::with_capacity(room),
            room,
        })
    }

    /// The same device, of this kind.
    pub fn of_kind(mut self, kind: Kind) -> Device {
        self.kind = kind;
        self
    }

    /// The same device, which may miss the pulse of a wake-up request.
    pub fn missing_pulses(mut self) -> Device {
        self.misses_pulses = true;
        self
    }

    /// Whether it is as a device is that may miss pulses.
    pub fn is_orderly(&self) -> bool {
        let holds_text = self.mode == Mode::Startup && self.stage != Stage::Empty;
        let waits_for_itself = self
            .waits
            .as_ref()
            .is_some_and(|(mode, _)| *mode == self.mode);
        let output = self.is_output_valid && self.mode != Mode::Operate;
        !holds_text && !waits_for_itself && !output
    }

    pub fn misses_pulses(&self) -> bool {
        self.misses_pulses
    }

    /// The pulse of a wake-up request was missed, and the test read behind it came: whether it was answered.
    pub fn miss_pulse(&mut self) -> bool {
        self.hear(&TEST_READ, &mut Message::new())
    }

    /// A wake-up request came.
    pub fn wake(&mut self) {
        self.awake = true;
        self.mode = Mode::Startup;
        self.waits = None;
        self.stage = Stage::Empty;
        self.is_output_valid = false;
        self.events.other_heard();
    }

    /// Octets came: the reply, where they are accepted; else nothing changes.
    pub fn hear(&mut self, octets: &[u8], reply: &mut Message) -> bool {
        reply.clear();
        if !self.awake {
            return false;
        }
        let mut mode = self.mode;
        if let Some((next, command)) = &self.waits {
            if **command == *octets {
                self.hear_again(octets, reply);
                return true;
            }
            mode = *next;
        }
        let layout = self.layout(mode);
        let Ok(message) = read_master(&layout, octets) else {
            return false;
        };
        if self.waits.is_some() {
            self.enter(mode);
        }
        self.work_on(&layout, &message, octets, reply);
        true
    }

    /// The layout of a mode; an old device never enters PREOPERATE.
    fn layout(&self, mode: Mode) -> Layout {
        match mode {
            Mode::Startup => Layout::STARTUP,
            Mode::Preoperate => self.layouts.pre.unwrap_or(Layout::STARTUP),
            Mode::Operate => self.layouts.run,
        }
    }

    fn enter(&mut self, mode: Mode) {
        self.mode = mode;
        self.waits = None;
        self.stage = Stage::Empty;
        self.is_output_valid = false;
    }

    /// The mode command that waits came again, in the layout of before.
    fn hear_again(&mut self, octets: &[u8], reply: &mut Message) {
        self.events.other_heard();
        let layout = self.layout(self.mode);
        if let Ok(message) = read_master(&layout, octets) {
            self.take_output(message.out);
        }
        self.finish(&layout, reply);
    }

    fn take_output(&mut self, out: &[u8]) {
        if self.mode == Mode::Operate && !out.is_empty() {
            self.output.set(out);
        }
    }

    /// A good message in the present layout.
    fn work_on(
        &mut self,
        layout: &Layout,
        message: &MasterMsg,
        octets: &[u8],
        reply: &mut Message,
    ) {
        let mc = message.mc;
        if !mc.read && mc.channel == Channel::Diagnosis && mc.address == 0 {
            self.events.confirm();
        } else {
            self.events.other_heard();
        }
        self.take_output(message.out);
        match (mc.channel, mc.read) {
            (Channel::Page, false) => self.write_page(mc.address, message.od[0], octets),
            (Channel::Isdu, false) => self.write_segment(mc.address, message.od),
            (Channel::Process | Channel::Diagnosis, false) => {}
            (Channel::Process, true) => reply.extend_zeros(layout.od),
            (Channel::Page, true) => self.put_first(self.page_octet(mc.address), layout, reply),
            (Channel::Diagnosis, true) => {
                self.put_first(self.events.octet(mc.address), layout, reply);
            }
            (Channel::Isdu, true) => self.read_segment(mc.address, layout, reply),
        }
        self.finish(layout, reply);
    }

    /// The one octet that is meant, and zeros.
    fn put_first(&self, octet: u8, layout: &Layout, reply: &mut Message) {
        reply.push(octet);
        reply.extend_zeros(layout.od - 1);
    }

    /// Puts the input and the last octet behind the on-request data.
    fn finish(&self, layout: &Layout, reply: &mut Message) {
        match &self.input {
            Some(image) if layout.pd_in > 0 => reply.extend(image.octets()),
            _ => reply.extend_zeros(layout.pd_in),
        }
        let invalid = layout.pd_in > 0 && self.input.is_none();
        seal_reply(reply, self.events.flag(), invalid);
    }

    fn page_octet(&self, address: u8) -> u8 {
        match address {
            0x01 => self.cycle_time,
            _ => self.page.octet(address),
        }
    }

    fn write_page(&mut self, address: u8, octet: u8, octets: &[u8]) {
        match address {
            0x00 => self.take_command(octet, octets),
            0x01 => self.cycle_time = octet,
            _ => {}
        }
    }

    fn take_command(&mut self, octet: u8, octets: &[u8]) {
        let asked = match octet {
            command::DEVICE_STARTUP => Mode::Startup,
            command::DEVICE_PREOPERATE if !self.page.is_old() => Mode::Preoperate,
            command::DEVICE_OPERATE => Mode::Operate,
            command::OUTPUT_OPERATE => {
                self.is_output_valid |= self.mode == Mode::Operate;
                return;
            }
            _ => return,
        };
        if asked != self.mode {
            let mut command = Message::new();
            command.extend(octets);
            self.waits = Some((asked, command));
        } else if asked == Mode::Operate {
            self.is_output_valid = false;
        }
    }

    fn write_segment(&mut self, flow: u8, segment: &[u8]) {
        self.recall();
        if self.kind.hands_over == HandsOver::FirstRead {
            return self.write_text(flow, segment);
        }
        let is_count = flow < 16;
        if is_count && matches!(self.stage, Stage::Handed | Stage::Answered(None)) {
            if self.counted != Some(flow) {
                self.stage = Stage::Empty;
            }
        } else {
            self.write_text(flow, segment);
            if self.stage == Stage::Whole {
                self.stage = Stage::Handed;
            }
        }
        if flow == START {
            self.counted = None;
        } else if is_count {
            self.counted = Some(flow);
        }
    }

    /// What is left of an answer when the next message on the ISDU channel comes.
    fn recall(&mut self) {
        if self.kind.recalls == Recalls::UntilSent
            && let Stage::Answered(Some(last)) = self.stage
            && last + 1 == self.cutter.count(self.layout(self.mode).od)
        {
            self.stage = Stage::Empty;
        }
    }

    fn write_text(&mut self, flow: u8, segment: &[u8]) {
        let joins = match (flow, self.stage) {
            (START, _) => self.layouts.isdu,
            (0..=15, Stage::Receiving | Stage::Whole) => true,
            _ => false,
        };
        self.stage = match joins.then(|| self.joiner.take(flow, segment)) {
            Some(Ok(Took::Repeat)) => self.stage,
            Some(Ok(Took::More)) => Stage::Receiving,
            Some(Ok(Took::Whole)) => self.join(),
            Some(Err(_)) | None => Stage::Empty,
        };
    }

    /// The text of a request is whole.
    fn join(&mut self) -> Stage {
        match Request::read(self.joiner.text()) {
            Ok(request) => {
                self.request = request;
                Stage::Whole
            }
            Err(_) => Stage::Empty,
        }
    }

    fn read_segment(&mut self, flow: u8, layout: &Layout, reply: &mut Message) {
        self.recall();
        let segment = match (flow, self.stage) {
            (IDLE_1 | IDLE_2 | ABORT, _) => None,
            (START, Stage::Whole | Stage::Handed) => {
                self.stage = Stage::Handed;
                reply.push(0x01);
                reply.extend_zeros(layout.od - 1);
                return;
            }
            (START, Stage::Answered(_)) => Some(0),
            (_, Stage::Answered(Some(last))) if last > 0 && flow == flow_of(last) => Some(last),
            (_, Stage::Answered(Some(last))) if flow == flow_of(last + 1) => Some(last + 1),
            _ => None,
        };
        let sent = segment.filter(|segment| self.cutter.put(*segment, layout.od, reply));
        self.stage = match sent {
            Some(_) => Stage::Answered(sent),
            None => {
                reply.extend_zeros(layout.od);
                Stage::Empty
            }
        };
    }

    /// The application carries out what was handed to it, where the record has room.
    pub fn work(&mut self) {
        if self.stage != Stage::Handed || self.record.len() >= self.room {
            return;
        }
        let answer = self.params.carry_out(&self.request);
        answer.encode(self.request.is_read(), &mut self.cutter.text);
        self.stage = Stage::Answered(None);
        self.record.push(Carried {
            request: self.request.clone(),
            answer,
        });
    }

    pub fn raise(&mut self, event: Event) -> Result<(), Refusal> {
        self.events.raise(event)
    }

    pub fn set_input(&mut self, image: &Image) -> Result<(), Refusal> {
        if image.octets().len() != self.layouts.run.pd_in {
            return Err(Refusal::WrongImageLength);
        }
        self.input = Some(image.clone());
        Ok(())
    }

    pub fn clear_input(&mut self) {
        self.input = None;
    }

    /// No message came for too long.
    pub fn silence(&mut self) {
        self.is_output_valid = false;
    }

    pub fn power_cycle(&mut self) {
        self.awake = false;
        self.stage = Stage::Empty;
        self.events.clear();
        self.input = None;
        self.is_output_valid = false;
    }

    pub fn carried(&self) -> &[Carried] {
        &self.record
    }

    pub fn output(&self) -> Option<&Image> {
        (self.is_output_valid && self.layouts.run.pd_out > 0).then_some(&self.output)
    }
}
