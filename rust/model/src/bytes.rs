//! The routines over numbers and byte slices, in the form that the static library exports.
//!
//! A message is five numbers: kind (1 address, 2 function, 3 extended), house, unit or function
//! code, data, command. A receiver is 13 bytes: past, at, bits in four bytes, highest first, the
//! message given before, five zeros where there is none, since and target. A station is 8 bytes:
//! the message that it holds, five zeros where it is empty, wait, count and place. An event is six
//! bytes: its code and the message of a MESSAGE, else five zeros. An answer in lent memory is eight
//! bytes, lowest first.
//!
//! Each gives the count, or the number by which it refuses; a refusal changes nothing that was
//! lent. They are not inlined, so that a caller pays for a call as it does with the library.

use crate::bench;
use crate::burst::write_burst;
use crate::message::{Function, Message, Refusal};
use crate::radio::Command;
use crate::receiver::{Event, Receiver};
use crate::routes::{self, Mains};
use crate::station::{judge_draw, judge_half, Station};
use crate::table;
use crate::tables::{Counts, Tables};

/// Bytes of a message, a receiver, a station, an event and an answer.
pub const MESSAGE: usize = 5;
pub const RECEIVER: usize = 13;
pub const STATION: usize = 8;
pub const EVENT: usize = 6;
pub const ANSWER: usize = 8;

/// Codes of the events that carry no number of the paper.
const NOTHING: u8 = 0;
const GIVEN: u8 = 1;
const REPEAT: u8 = 2;
const BROKEN_PAIR: u8 = 10;
const BROKEN_UNSUPPORTED: u8 = 11;

const NO_MESSAGE: [u8; MESSAGE] = [0; MESSAGE];

/// What a routine counts, as the bits of its answer above the number.
pub trait Count {
    fn bits(self) -> u64;
}

impl Count for usize {
    fn bits(self) -> u64 {
        self as u64
    }
}

/// Modules in the lowest 16 bits, then shutters.
impl Count for Counts {
    fn bits(self) -> u64 {
        self.modules as u64 | (self.shutters as u64) << 16
    }
}

/// An answer as one number: the number given back in bits 0 to 7, the count above them.
pub fn packed(answer: Result<impl Count, Refusal>) -> u64 {
    match answer {
        Ok(count) => count.bits() << 8,
        Err(refusal) => refusal as u64,
    }
}

/// The message of five numbers. 2 for a kind that is none of the three, a function code that is none
/// of the twelve, and a house or unit above 15.
pub fn message([kind, house, third, data, command]: [u8; MESSAGE]) -> Result<Message, Refusal> {
    let message = match kind {
        1 => Message::Address { house, unit: third },
        2 => Message::Function { house, function: Function::from_code(third).ok_or(Refusal::Message)? },
        3 => Message::Extended { house, unit: third, data, command },
        _ => return Err(Refusal::Message),
    };
    message.judge()?;
    Ok(message)
}

fn message_bytes(message: Message) -> [u8; MESSAGE] {
    match message {
        Message::Address { house, unit } => [1, house, unit, 0, 0],
        Message::Function { house, function } => [2, house, function.code(), 0, 0],
        Message::Extended { house, unit, data, command } => [3, house, unit, data, command],
    }
}

/// The message that a receiver gave before or a station holds: None for five zeros. 6 for other bytes
/// than `message_bytes` writes, also of a message with a house or unit above 15.
#[inline]
fn kept(bytes: [u8; MESSAGE]) -> Result<Option<Message>, Refusal> {
    if bytes == NO_MESSAGE {
        return Ok(None);
    }
    // A message that has no data and command has 0 there.
    let [kind, _, _, data, command] = bytes;
    if kind < 3 && data | command != 0 {
        return Err(Refusal::State);
    }
    message(bytes).map(Some).map_err(|_| Refusal::State)
}

fn kept_bytes(message: Option<Message>) -> [u8; MESSAGE] {
    message.map_or(NO_MESSAGE, message_bytes)
}

/// The receiver of 13 bytes. 6 for another length, and for a message or a receiver that is none.
fn receiver(state: &[u8]) -> Result<Receiver, Refusal> {
    let &[past, at, b3, b2, b1, b0, kind, house, third, data, command, since, target] = state else {
        return Err(Refusal::State);
    };
    let bits = u32::from_be_bytes([b3, b2, b1, b0]);
    let given = kept([kind, house, third, data, command])?;
    let receiver = Receiver { past, at, bits, given, since, target };
    receiver.judge()?;
    Ok(receiver)
}

fn receiver_bytes(receiver: &Receiver) -> [u8; RECEIVER] {
    let mut state = [0; RECEIVER];
    state[0] = receiver.past;
    state[1] = receiver.at;
    state[2..6].copy_from_slice(&receiver.bits.to_be_bytes());
    state[6..11].copy_from_slice(&kept_bytes(receiver.given));
    state[11] = receiver.since;
    state[12] = receiver.target;
    state
}

/// The station of 8 bytes. 6 for another length, and for a message or a station that is none.
/// Inlined, since a station handed back is packed into one number first.
#[inline(always)]
fn station(bytes: &[u8]) -> Result<Station, Refusal> {
    let &[kind, house, third, data, command, wait, count, place] = bytes else {
        return Err(Refusal::State);
    };
    let message = kept([kind, house, third, data, command])?;
    let station = Station { message, wait, count, place };
    station.judge_numbers()?;
    Ok(station)
}

fn station_bytes(station: &Station) -> [u8; STATION] {
    let [kind, house, third, data, command] = kept_bytes(station.message);
    [kind, house, third, data, command, station.wait, station.count, station.place]
}

fn write_event(event: Result<Event, Refusal>, bytes: &mut [u8; EVENT]) {
    *bytes = [0; EVENT];
    bytes[0] = match event {
        Ok(Event::Nothing) => NOTHING,
        Ok(Event::Repeat) => REPEAT,
        Ok(Event::BrokenPair) => BROKEN_PAIR,
        Ok(Event::BrokenUnsupported) => BROKEN_UNSUPPORTED,
        Err(refusal) => refusal as u8,
        Ok(Event::Message(message)) => {
            bytes[1..].copy_from_slice(&message_bytes(message));
            GIVEN
        }
    };
}

/// Writes the burst at the front of `buf`; count: half-cycles. 2, 9.
#[inline(never)]
pub fn burst(numbers: [u8; MESSAGE], buf: &mut [u8]) -> Result<usize, Refusal> {
    write_burst(message(numbers)?, buf)
}

/// Makes the state that of a fresh receiver; count 0. 6.
#[inline(never)]
pub fn receiver_fresh(state: &mut [u8]) -> Result<usize, Refusal> {
    let state: &mut [u8; RECEIVER] = state.try_into().map_err(|_| Refusal::State)?;
    *state = receiver_bytes(&Receiver::FRESH);
    Ok(0)
}

/// One step for each half-cycle, its event at 6 times its place in `events`; count: half-cycles. A
/// half-cycle that is not 0 or 1 is an event 5. 6, 9.
#[inline(never)]
pub fn receive(state: &mut [u8], halves: &[u8], events: &mut [u8]) -> Result<usize, Refusal> {
    let mut receiver = receiver(state)?;
    let events = front::<EVENT>(events, halves.len())?;
    for (event, &half) in events.iter_mut().zip(halves) {
        write_event(receiver.hear(half), event);
    }
    state.copy_from_slice(&receiver_bytes(&receiver));
    Ok(halves.len())
}

/// The first n entries of N bytes each, or 9.
fn front<const N: usize>(bytes: &mut [u8], n: usize) -> Result<&mut [[u8; N]], Refusal> {
    bytes.as_chunks_mut().0.get_mut(..n).ok_or(Refusal::Short)
}

/// Writes the four bytes of a radio command (0 on, 1 off, 2 bright, 3 dim) at the front of `out`;
/// count 4. 2, 9.
#[inline(never)]
pub fn radio_write(command: u8, house: u8, unit: u8, out: &mut [u8]) -> Result<usize, Refusal> {
    let command = match command {
        0 => Command::On { house, unit },
        1 => Command::Off { house, unit },
        2 => Command::Bright { house },
        3 => Command::Dim { house },
        _ => return Err(Refusal::Message),
    };
    let code = command.write()?;
    out.get_mut(..code.len()).ok_or(Refusal::Short)?.copy_from_slice(&code);
    Ok(code.len())
}

/// Reads a radio code as command, house and unit, at the front of `out`; count 3. 9, 12, 13, 14.
#[inline(never)]
pub fn radio_read(code: &[u8], out: &mut [u8]) -> Result<usize, Refusal> {
    let out = out.get_mut(..3).ok_or(Refusal::Short)?;
    out.copy_from_slice(&match Command::read(code)? {
        Command::On { house, unit } => [0, house, unit],
        Command::Off { house, unit } => [1, house, unit],
        Command::Bright { house } => [2, house, 0],
        Command::Dim { house } => [3, house, 0],
    });
    Ok(3)
}

/// Applies a message to both tables; counts: records whose level, and shutters whose opening, differs.
/// 1, 16, 2, 3, 17, 4, 18.
#[inline(never)]
pub fn apply(table: &mut [u8], shutters: &mut [u8], numbers: [u8; MESSAGE]) -> Result<Counts, Refusal> {
    let mut tables = Tables::open(table, shutters)?;
    let message = message(numbers)?;
    tables.judge()?;
    tables.apply(message)
}

/// How many modules of a house are above level 0, as the count, by the table's byte alone. 1, 2, 3.
#[inline(never)]
pub fn lit(table: &[u8], house: u8) -> Result<usize, Refusal> {
    table::lit(table, house)
}

/// The same counted anew over the records, which is no routine of the library: it is timed beside `lit`.
/// 1, 2.
#[inline(never)]
pub fn lit_counted(table: &[u8], house: u8) -> Result<usize, Refusal> {
    table::counted(table, house)
}

/// Makes the bytes an empty station; count 0. 6.
#[inline(never)]
pub fn station_empty(bytes: &mut [u8]) -> Result<usize, Refusal> {
    let bytes: &mut [u8; STATION] = bytes.try_into().map_err(|_| Refusal::State)?;
    *bytes = station_bytes(&Station::EMPTY);
    Ok(0)
}

/// Loads a message; count 0. 2, 6, 7, 8.
#[inline(never)]
pub fn station_load(bytes: &mut [u8], numbers: [u8; MESSAGE], draw: u8) -> Result<usize, Refusal> {
    let message = message(numbers)?;
    let mut station = station(bytes)?;
    station.take(message, draw)?;
    bytes.copy_from_slice(&station_bytes(&station));
    Ok(0)
}

/// What the station sends in this half-cycle, as the count. 6.
#[inline(never)]
pub fn station_sends(bytes: &[u8]) -> Result<usize, Refusal> {
    Ok(usize::from(station(bytes)?.sends()))
}

/// One half-cycle with what is heard in it and a draw; count 1 where the station is DONE, else 0. 5, 6,
/// 7, 15.
#[inline(never)]
pub fn station_half_cycle(bytes: &mut [u8], heard: u8, draw: u8) -> Result<usize, Refusal> {
    // 5 comes before 6, also where the bytes hold no station.
    judge_half(heard)?;
    let mut station = station(bytes)?;
    let done = station.hear(heard, draw)?;
    if done {
        bytes.copy_from_slice(&station_bytes(&Station::EMPTY));
    } else {
        // The message stays.
        bytes[MESSAGE..].copy_from_slice(&[station.wait, station.count, station.place]);
    }
    Ok(usize::from(done))
}

/// Loads as many stations as there are `loads` and advances them once for each byte of `lines`;
/// count: calls not refused. `lines[j]` is the line's half-cycle, or the number by which call j was
/// refused, and `marks[2 * j..]` the stations that are DONE in it, high byte first. 2, 6, 7 for a draw
/// of `loads` or where `draws` has not one for each station and call, 9 for `marks` that are too short.
#[inline(never)]
pub fn bench_run(
    messages: &[u8],
    loads: &[u8],
    draws: &[u8],
    lines: &mut [u8],
    marks: &mut [u8],
) -> Result<usize, Refusal> {
    let n = loads.len();
    // The messages are judged for themselves: every whole five bytes that were lent.
    let (messages, rest) = messages.as_chunks::<MESSAGE>();
    for &numbers in messages {
        message(numbers)?;
    }
    if n == 0 || n > bench::LARGEST || messages.len() != n || !rest.is_empty() {
        return Err(Refusal::State);
    }
    loads.iter().copied().try_for_each(judge_draw)?;
    if draws.len() != n * lines.len() {
        return Err(Refusal::Draw);
    }
    let marks = front::<2>(marks, lines.len())?;

    let mut stations = [Station::EMPTY; bench::LARGEST];
    let stations = &mut stations[..n];
    for ((station, &numbers), &draw) in stations.iter_mut().zip(messages).zip(loads) {
        station.load(message(numbers)?, draw)?;
    }
    Ok(calls(stations, draws, lines, marks))
}

/// A call of the bench for each byte of `lines`; how many were not refused.
fn calls(stations: &mut [Station], draws: &[u8], lines: &mut [u8], marks: &mut [[u8; 2]]) -> usize {
    let mut count = 0;
    for ((line, mark), draws) in lines.iter_mut().zip(marks).zip(draws.chunks_exact(stations.len())) {
        match bench::advance(stations, draws) {
            Ok(answer) => {
                *line = answer.half;
                *mark = answer.done.to_be_bytes();
                count += 1;
            }
            Err(refusal) => {
                *line = refusal as u8;
                *mark = [0, 0];
            }
        }
    }
    count
}

/// Applies both messages of a radio code or none; counts: as `apply`, before and after the whole. 1, 16,
/// 3, 17, 12, 13, 14.
#[inline(never)]
pub fn radio_route(table: &mut [u8], shutters: &mut [u8], code: &[u8]) -> Result<Counts, Refusal> {
    routes::radio(table, shutters, code)
}

/// One step of a receiver for each half-cycle, as `receive` does it, and each message that it gives
/// applied before the next; beside each event, what the tables answered to its message, 0 where there
/// was none. Counts: as `apply`, before and after the whole. 1, 16, 3, 17, 6, 9.
#[inline(never)]
pub fn mains_route(
    state: &mut [u8],
    halves: &[u8],
    table: &mut [u8],
    shutters: &mut [u8],
    events: &mut [u8],
    answers: &mut [u8],
) -> Result<Counts, Refusal> {
    let tables = Tables::valid(table, shutters)?;
    let receiver = receiver(state)?;
    let events = front::<EVENT>(events, halves.len())?;
    let answers = front::<ANSWER>(answers, halves.len())?;
    let mut mains = Mains::new(receiver, tables);
    for ((event, answer), &half) in events.iter_mut().zip(answers).zip(halves) {
        let (heard, applied) = mains.hear(half);
        write_event(heard, event);
        *answer = packed(applied).to_le_bytes();
    }
    state.copy_from_slice(&receiver_bytes(&mains.receiver));
    Ok(mains.changed())
}

#[cfg(test)]
mod tests;
