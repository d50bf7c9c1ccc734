//! The master's end of the line (docs/protocol.md, LINK, REQ and PD).

use crate::bounded::Bounded;
use crate::counters::{Counters, count};
use crate::event::{EventList, EventReader};
use crate::image::Image;
use crate::isdu::{Answer, Cause, Cutter, Joiner, Request, Took};
use crate::message::{
    ABORT, Channel, IDLE_1, Layout, MasterMsg, Mc, Message, Reply, START, flow_of, read_reply,
    write_master,
};
use crate::page::{self, Identity, Layouts, Page, command};
use crate::refusal::Refusal;
use crate::wire::Wire;

#[derive(Clone, Copy, Debug, PartialEq, Eq)]
pub enum Mode {
    Down,
    Startup,
    Preoperate,
    Operate,
}

/// For which devices a port is.
#[derive(Clone, Copy, Debug, PartialEq, Eq)]
pub enum Devices {
    Own,
    Any,
}

/// Why the link is down.
#[derive(Clone, Copy, Debug, PartialEq, Eq)]
pub enum Why {
    NoWake,
    Lost,
    Page(Refusal),
    /// With the device that was found.
    WrongDevice(Identity),
}

#[derive(Clone, Copy, Debug, PartialEq, Eq)]
pub struct Status {
    pub mode: Mode,
    pub why: Option<Why>,
    pub event_form: bool,
}

/// What one turn tells.
pub enum Said {
    Nothing,
    /// The device is reset.
    Reset,
    Answered(Answer),
    Cut(Cause),
    Reported(EventList),
}

/// From when on a choice counts.
#[derive(Clone, Copy, Debug, PartialEq, Eq)]
pub enum When {
    Now,
    /// From the next start-up.
    Later,
}

/// What a message is for.
#[derive(Clone, Copy, Debug, PartialEq, Eq)]
enum Purpose {
    DeviceStartup,
    ReadPage(u8),
    MasterIdent,
    DevicePreoperate,
    CycleTime,
    DeviceOperate,
    /// ProcessDataOutputOperate, or DeviceOperate in OPERATE.
    TellOutput(bool),
    Abort,
    Confirm,
    /// The StatusCode, in place of a confirm that had no good reply.
    CheckEvents,
    ReadEvents,
    WriteSegment(usize),
    /// Whether the device has the one segment, which had no good reply.
    AskWhether,
    AskAnswer,
    ReadSegment(usize),
    Idle,
}

impl Purpose {
    /// Whether it is a message of the request under way.
    fn is_of_request(self) -> bool {
        use Purpose::{AskAnswer, AskWhether, ReadSegment, WriteSegment};
        matches!(
            self,
            WriteSegment(_) | AskWhether | AskAnswer | ReadSegment(_)
        )
    }
}

/// How far a request is.
#[derive(Clone, Copy, Debug, PartialEq, Eq)]
enum Stage {
    /// The segment that is sent next.
    Writing(usize),
    /// The one segment was sent once, and had no good reply.
    Doubting,
    Asking,
    /// The segment that is read next.
    Reading(usize),
}

/// What the last start-up told.
#[derive(Clone, Copy, Debug)]
pub struct Told {
    pub pd_out: usize,
    pub isdu: bool,
}

/// The most attempts in a row.
const ATTEMPTS: u8 = 3;

/// A message without a good reply yet.
struct Out {
    purpose: Purpose,
    read: bool,
    attempts: u8,
}

pub struct Station<W> {
    wire: W,
    devices: Devices,
    mode: Mode,
    why: Option<Why>,
    /// Why the last session ended.
    last_loss: Option<Why>,
    layout: Layout,
    page: Page,
    layouts: Option<Layouts>,
    told: Option<Told>,
    /// Whether the page of this session was read whole and passed.
    is_page_good: bool,
    expected: Option<Identity>,
    /// The octet of the cycle time that was chosen.
    chosen_cycle: Option<u8>,
    /// The octet of the cycle time that is written.
    cycle: u8,
    counters: Counters,
    message: Message,
    out: Option<Out>,
    /// The next step of the start-up.
    next: Purpose,

    image: Option<Image>,
    wanted: Option<Image>,
    /// The output that the last message carried.
    carried: Bounded<32>,
    output_told: bool,

    /// The Event flag of the last good reply.
    flag: bool,
    event_form: bool,
    reader: EventReader,
    confirm_due: bool,

    stage: Option<Stage>,
    /// Whether the message that is out for the request went out before, at a port for any device.
    again: bool,
    /// Whether the device surely holds no text.
    clear: bool,
    /// Why the request is to be cut off: the first cause stays.
    abort: Option<Cause>,
    is_read: bool,
    busy: u16,
    busy_limit: u16,
    cutter: Cutter,
    joiner: Joiner,
}

impl<W: Wire> Station<W> {
    pub fn new(wire: W, devices: Devices, busy_limit: u16) -> Station<W> {
        Station {
            wire,
            devices,
            mode: Mode::Down,
            why: None,
            last_loss: None,
            layout: Layout::STARTUP,
            page: Page([0; 10]),
            layouts: None,
            told: None,
            is_page_good: false,
            expected: None,
            chosen_cycle: None,
            cycle: 0,
            counters: Counters::default(),
            message: Message::new(),
            out: None,
            next: Purpose::ReadPage(page::FIRST),
            image: None,
            wanted: None,
            carried: Bounded::new(),
            output_told: false,
            flag: false,
            event_form: false,
            reader: EventReader::new(),
            confirm_due: false,
            stage: None,
            again: false,
            clear: false,
            abort: None,
            is_read: false,
            busy: 0,
            busy_limit,
            cutter: Cutter::new(),
            joiner: Joiner::new(),
        }
    }

    pub fn status(&self) -> Status {
        Status {
            mode: self.mode,
            why: self.why,
            event_form: self.event_form,
        }
    }

    pub fn last_loss(&self) -> Option<Why> {
        self.last_loss
    }

    pub fn image(&self) -> Option<&Image> {
        self.image.as_ref()
    }

    /// The page of this session.
    pub fn page(&self) -> Option<&Page> {
        self.is_page_good.then_some(&self.page)
    }

    pub fn expect(&mut self, expected: Option<Identity>) -> When {
        self.expected = expected;
        self.counts_from()
    }

    pub fn set_cycle(&mut self, chosen: Option<u8>) -> When {
        self.chosen_cycle = chosen;
        self.counts_from()
    }

    fn counts_from(&self) -> When {
        match self.is_page_good {
            true => When::Later,
            false => When::Now,
        }
    }

    pub fn counters(&self) -> &Counters {
        &self.counters
    }

    /// Counts a request that ended.
    pub fn count_end(&mut self, cut: Option<Cause>) {
        match cut {
            Some(cause) => self.counters.count_unknown(cause),
            None => count(&mut self.counters.done),
        }
    }

    pub fn told(&self) -> Option<Told> {
        self.told
    }

    pub fn wire(&self) -> &W {
        &self.wire
    }

    /// The layout of the present mode.
    pub fn layout(&self) -> Layout {
        self.layout
    }

    pub fn set_output(&mut self, image: &Image) -> Result<(), Refusal> {
        let told = self.told.ok_or(Refusal::NoLayout)?;
        if image.octets().len() != told.pd_out {
            return Err(Refusal::WrongImageLength);
        }
        self.wanted = Some(image.clone());
        Ok(())
    }

    pub fn clear_output(&mut self) {
        self.wanted = None;
    }

    /// Whether the next turn would send IDLE 1.
    pub fn is_ready(&self, room: bool) -> bool {
        self.mode == Mode::Operate
            && self.out.is_none()
            && self.due(room) == Purpose::Idle
            && (self.clear || self.devices == Devices::Own)
    }

    /// Begins a request, where none is under way.
    pub fn begin(&mut self, request: &Request) {
        request.encode(&mut self.cutter.text);
        self.is_read = request.is_read();
        self.busy = 0;
        self.again = false;
        self.stage = Some(Stage::Writing(0));
        self.abort = None;
    }

    /// The request under way is to be cut off.
    pub fn abort(&mut self, cause: Cause) {
        if self.stage.is_some() {
            self.abort.get_or_insert(cause);
        }
    }

    /// Leaves the link in down. Answers why the request under way is cut off, if there is one.
    pub fn restart(&mut self) -> Option<Cause> {
        self.leave(None);
        self.abort = None;
        self.stage.take().map(|_| Cause::Restarted)
    }

    fn leave(&mut self, why: Option<Why>) {
        if self.mode != Mode::Down {
            self.last_loss = why;
        }
        self.mode = Mode::Down;
        self.why = why;
        self.layout = Layout::STARTUP;
        self.is_page_good = false;
        self.out = None;
        self.image = None;
        self.reader = EventReader::new();
        self.confirm_due = false;
    }

    /// One turn; `room` says that events may be read.
    pub fn turn(&mut self, room: bool) -> Said {
        if self.mode == Mode::Down {
            return self.wake();
        }
        let out = match &mut self.out {
            Some(out) => out,
            None => {
                let purpose = match self.mode {
                    Mode::Operate => self.due(room),
                    _ => self.next,
                };
                self.make(purpose)
            }
        };
        out.attempts += 1;
        let (purpose, read, attempts) = (out.purpose, out.read, out.attempts);
        let mut reply = Message::new();
        let layout = self.layout;
        let came = self.wire.exchange(&self.message, &mut reply);
        let came = came.then(|| read_reply(&layout, read, &reply));
        self.counters.count_exchange(&came, attempts);
        match came {
            Some(Ok(reply)) => self.take(purpose, &reply),
            _ if attempts == ATTEMPTS => self.lose(),
            _ => {
                if self.devices == Devices::Any {
                    self.miss(purpose);
                }
                Said::Nothing
            }
        }
    }

    /// A message had no good reply. A confirm goes out no more, as it might clear events that weren't read, nor does
    /// one that held the whole text of a request: a device that handed it over would take it for another request. A
    /// question goes out in its place.
    fn miss(&mut self, purpose: Purpose) {
        if purpose == Purpose::Confirm {
            self.confirm_due = false;
            self.ask_instead(Purpose::CheckEvents, Mc::read(Channel::Diagnosis, 0));
        }
        if !purpose.is_of_request() {
            return;
        }
        self.again = true;
        if purpose == Purpose::WriteSegment(0) && self.cutter.count(self.layout.od) == 1 {
            self.again = false;
            self.stage = Some(Stage::Doubting);
            self.ask_instead(Purpose::AskWhether, Mc::read(Channel::Isdu, START));
        }
    }

    /// This read goes out in place of the message that is out.
    fn ask_instead(&mut self, purpose: Purpose, mc: Mc) {
        let msg = MasterMsg {
            mc,
            out: &self.carried,
            od: &[],
        };
        write_master(&self.layout, &msg, &mut self.message);
        if let Some(out) = &mut self.out {
            out.purpose = purpose;
            out.read = true;
        }
    }

    fn wake(&mut self) -> Said {
        if !self.wire.wake() {
            self.why = Some(Why::NoWake);
            return Said::Nothing;
        }
        self.mode = Mode::Startup;
        self.why = None;
        self.output_told = false;
        self.event_form = false;
        self.clear = false;
        count(&mut self.counters.startups);
        match self.devices {
            Devices::Own => {
                self.next = Purpose::ReadPage(page::FIRST);
                Said::Reset
            }
            Devices::Any => {
                self.next = Purpose::DeviceStartup;
                Said::Nothing
            }
        }
    }

    fn lose(&mut self) -> Said {
        count(&mut self.counters.lost);
        self.leave(Some(Why::Lost));
        self.abort = None;
        match self.stage.take() {
            Some(_) => Said::Cut(Cause::LinkLost),
            None => Said::Nothing,
        }
    }

    /// What is to be sent next in OPERATE.
    fn due(&self, room: bool) -> Purpose {
        if self.wanted.is_some() != self.output_told {
            return Purpose::TellOutput(!self.output_told);
        }
        if self.abort.is_some() {
            return Purpose::Abort;
        }
        if self.confirm_due {
            return Purpose::Confirm;
        }
        if self.reader.is_under_way() || (self.flag && room && !self.event_form) {
            return Purpose::ReadEvents;
        }
        match self.stage {
            Some(Stage::Writing(segment)) => Purpose::WriteSegment(segment),
            Some(Stage::Doubting) => Purpose::AskWhether,
            Some(Stage::Asking) => Purpose::AskAnswer,
            Some(Stage::Reading(segment)) => Purpose::ReadSegment(segment),
            None => Purpose::Idle,
        }
    }

    /// Makes a new message.
    fn make(&mut self, purpose: Purpose) -> &mut Out {
        let mut od = Bounded::<32>::new();
        let mc = match purpose {
            Purpose::DeviceStartup => {
                self.write(&mut od, Channel::Page, 0, command::DEVICE_STARTUP)
            }
            Purpose::ReadPage(address) => Mc::read(Channel::Page, address),
            Purpose::MasterIdent => self.write(&mut od, Channel::Page, 0, command::MASTER_IDENT),
            Purpose::DevicePreoperate => {
                self.write(&mut od, Channel::Page, 0, command::DEVICE_PREOPERATE)
            }
            Purpose::CycleTime => self.write(&mut od, Channel::Page, 1, self.cycle),
            Purpose::DeviceOperate | Purpose::TellOutput(false) => {
                self.write(&mut od, Channel::Page, 0, command::DEVICE_OPERATE)
            }
            Purpose::TellOutput(true) => {
                self.write(&mut od, Channel::Page, 0, command::OUTPUT_OPERATE)
            }
            Purpose::Abort => Mc::read(Channel::Isdu, ABORT),
            Purpose::Confirm => self.write(&mut od, Channel::Diagnosis, 0, 0),
            Purpose::CheckEvents => Mc::read(Channel::Diagnosis, 0),
            Purpose::ReadEvents => Mc::read(Channel::Diagnosis, self.reader.address()),
            Purpose::WriteSegment(segment) => {
                self.cutter.put(segment, self.layout.od, &mut od);
                Mc::write(Channel::Isdu, flow_of(segment))
            }
            Purpose::AskWhether | Purpose::AskAnswer => Mc::read(Channel::Isdu, START),
            Purpose::ReadSegment(segment) => Mc::read(Channel::Isdu, flow_of(segment)),
            Purpose::Idle => Mc::read(Channel::Isdu, IDLE_1),
        };
        if self.mode == Mode::Operate
            && let Some(image) = &self.wanted
        {
            self.carried.set(image.octets());
        }
        let out = match self.mode {
            Mode::Operate => &self.carried,
            _ => &[][..],
        };
        write_master(
            &self.layout,
            &MasterMsg { mc, out, od: &od },
            &mut self.message,
        );
        self.out.insert(Out {
            purpose,
            read: mc.read,
            attempts: 0,
        })
    }

    /// A write of one octet, with zeros behind it.
    fn write(&self, od: &mut Bounded<32>, channel: Channel, address: u8, octet: u8) -> Mc {
        od.push(octet);
        od.extend_zeros(self.layout.od - 1);
        Mc::write(channel, address)
    }

    /// A good reply.
    fn take(&mut self, purpose: Purpose, reply: &Reply) -> Said {
        self.out = None;
        self.flag = reply.event;
        if self.mode == Mode::Operate {
            self.take_image(reply);
        }
        match purpose {
            Purpose::Idle | Purpose::Abort => self.clear = true,
            _ if purpose.is_of_request() => self.clear = false,
            _ => {}
        }
        let again = std::mem::take(&mut self.again);
        match purpose {
            Purpose::DeviceStartup
            | Purpose::ReadPage(_)
            | Purpose::MasterIdent
            | Purpose::DevicePreoperate
            | Purpose::CycleTime
            | Purpose::DeviceOperate => {
                self.go_on(purpose, reply);
                match (purpose, self.devices) {
                    (Purpose::ReadPage(page::FIRST), Devices::Any) => Said::Reset,
                    _ => Said::Nothing,
                }
            }
            Purpose::TellOutput(on) => {
                self.output_told = on;
                Said::Nothing
            }
            Purpose::Abort => self.end_cut(),
            Purpose::Confirm => {
                self.confirm_due = false;
                Said::Nothing
            }
            Purpose::CheckEvents => Said::Nothing,
            Purpose::ReadEvents => self.take_event_octet(reply.od[0]),
            Purpose::WriteSegment(segment) => self.written(segment),
            Purpose::AskWhether => self.take_whether(reply.od, again),
            Purpose::AskAnswer => self.take_first(reply.od),
            Purpose::ReadSegment(segment) => self.take_segment(segment, reply.od, again),
            Purpose::Idle => Said::Nothing,
        }
    }

    fn take_image(&mut self, reply: &Reply) {
        if reply.invalid || reply.input.is_empty() {
            self.image = None;
        } else if let Some(image) = &mut self.image {
            image.set(reply.input);
        } else {
            self.image = Image::new(reply.input).ok();
        }
    }

    /// The next step of the start-up.
    fn go_on(&mut self, purpose: Purpose, reply: &Reply) {
        self.next = match purpose {
            Purpose::DeviceStartup => Purpose::ReadPage(page::FIRST),
            Purpose::ReadPage(address) => {
                self.page.0[usize::from(address - page::FIRST)] = reply.od[0];
                if address < page::LAST {
                    Purpose::ReadPage(address + 1)
                } else {
                    self.take_page();
                    if self.page.is_old() {
                        Purpose::CycleTime
                    } else {
                        Purpose::MasterIdent
                    }
                }
            }
            Purpose::MasterIdent => Purpose::DevicePreoperate,
            Purpose::DevicePreoperate => {
                self.mode = Mode::Preoperate;
                if let Some(layout) = self.layouts.and_then(|layouts| layouts.pre) {
                    self.layout = layout;
                }
                Purpose::CycleTime
            }
            Purpose::CycleTime => Purpose::DeviceOperate,
            _ => {
                self.mode = Mode::Operate;
                self.last_loss = None;
                if let Some(layouts) = self.layouts {
                    self.layout = layouts.run;
                }
                Purpose::Idle
            }
        };
    }

    /// The page is whole.
    fn take_page(&mut self) {
        let found = self.page.identity();
        if self.expected.is_some_and(|it| it != found) {
            return self.leave(Some(Why::WrongDevice(found)));
        }
        let layouts = match self.page.layouts() {
            Ok(layouts) => layouts,
            Err(refusal) => return self.leave(Some(Why::Page(refusal))),
        };
        if self.devices == Devices::Any && self.page.is_interleaved(&layouts.run) {
            return self.leave(Some(Why::Page(Refusal::Interleaved)));
        }
        let pd_out = layouts.run.pd_out;
        if self.told.is_none_or(|told| told.pd_out != pd_out) {
            self.wanted = None;
            self.carried.clear();
            self.carried.extend_zeros(pd_out);
        }
        self.told = Some(Told {
            pd_out,
            isdu: layouts.isdu,
        });
        self.layouts = Some(layouts);
        self.is_page_good = true;
        let least = self.page.octet(page::MIN_CYCLE_TIME);
        self.cycle = self.chosen_cycle.map_or(least, |chosen| chosen.max(least));
    }

    fn take_event_octet(&mut self, octet: u8) -> Said {
        match self.reader.take(octet) {
            Ok(false) => Said::Nothing,
            Ok(true) => {
                self.confirm_due = true;
                Said::Reported(*self.reader.list())
            }
            Err(_) => {
                self.event_form = true;
                Said::Nothing
            }
        }
    }

    /// A segment of the request was heard.
    fn written(&mut self, segment: usize) -> Said {
        self.stage = Some(match segment + 1 < self.cutter.count(self.layout.od) {
            true => Stage::Writing(segment + 1),
            false => Stage::Asking,
        });
        Said::Nothing
    }

    /// The reply to the question whether the device has the one segment. Where it has heard nothing of it, the
    /// segment goes out anew; but a device that was asked before may have answered, and forgotten.
    fn take_whether(&mut self, od: &[u8], again: bool) -> Said {
        if od[0] == 0x00 && !again {
            self.stage = Some(Stage::Writing(0));
            return Said::Nothing;
        }
        self.stage = Some(Stage::Asking);
        self.take_first(od)
    }

    /// The reply to a START read.
    fn take_first(&mut self, od: &[u8]) -> Said {
        match od[0] {
            0x00 => self.abort(Cause::Protocol),
            0x01 => {
                self.busy += 1;
                if self.busy == self.busy_limit {
                    self.abort(Cause::BusyTooLong);
                }
            }
            _ => return self.take_segment(0, od, false),
        }
        Said::Nothing
    }

    /// A segment of the answer. Zeros that end it may be those of a device that has forgotten it, where they come to
    /// a repeat.
    fn take_segment(&mut self, segment: usize, od: &[u8], again: bool) -> Said {
        let is_forgotten = again && od.iter().all(|octet| *octet == 0);
        let whole = match self.joiner.take(flow_of(segment), od) {
            Ok(Took::Whole) if is_forgotten => Err(Refusal::BadService),
            Ok(Took::Whole) => Answer::read(self.joiner.text(), self.is_read).map(Some),
            Ok(_) => Ok(None),
            Err(refusal) => Err(refusal),
        };
        match whole {
            Ok(Some(answer)) => {
                self.stage = None;
                self.abort = None;
                Said::Answered(answer)
            }
            Ok(None) => {
                self.stage = Some(Stage::Reading(segment + 1));
                Said::Nothing
            }
            Err(_) => {
                self.abort(Cause::Protocol);
                Said::Nothing
            }
        }
    }

    /// An ABORT was answered.
    fn end_cut(&mut self) -> Said {
        self.stage = None;
        match self.abort.take() {
            Some(cause) => Said::Cut(cause),
            None => Said::Nothing,
        }
    }
}
