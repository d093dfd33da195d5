//! Messages, their code numbers on the line, and the numbers given back.

/// Why a routine refused; the discriminant is the number given back. PAIR and UNSUPPORTED (10 and
/// 11) are events of the receiver and stand there.
#[derive(Clone, Copy, Debug, PartialEq, Eq, PartialOrd, Ord)]
#[repr(u8)]
pub enum Refusal {
    Table = 1,
    Message = 2,
    Record = 3,
    NotCarried = 4,
    Half = 5,
    State = 6,
    Draw = 7,
    Busy = 8,
    Short = 9,
    RfLength = 12,
    RfComplement = 13,
    RfCode = 14,
    Fault = 15,
    ShutterTable = 16,
    ShutterRecord = 17,
    Opening = 18,
}

/// Four-bit line codes of houses A to P, and of units 1 to 16.
pub const LINE_CODES: [u8; 16] = [6, 14, 2, 10, 1, 9, 5, 13, 7, 15, 3, 11, 0, 8, 4, 12];

/// The house or unit (0 to 15) that has a line code.
const LINE_NUMBERS: [u8; 16] = {
    let mut numbers = [0; 16];
    let mut n = 0;
    while n < 16 {
        numbers[LINE_CODES[n] as usize] = n as u8;
        n += 1;
    }
    numbers
};

/// The code that stands in an extended frame where a function's code stands in a standard one.
const EXTENDED_CODE: u32 = 7;

/// The twelve functions; the discriminant is the four-bit code.
#[derive(Clone, Copy, Debug, PartialEq, Eq)]
#[repr(u8)]
pub enum Function {
    AllUnitsOff = 0,
    AllLightsOn = 1,
    On = 2,
    Off = 3,
    Dim = 4,
    Bright = 5,
    AllLightsOff = 6,
    HailRequest = 8,
    HailAcknowledge = 9,
    StatusOn = 13,
    StatusOff = 14,
    StatusRequest = 15,
}

impl Function {
    pub const ALL: [Function; 12] = [
        Function::AllUnitsOff,
        Function::AllLightsOn,
        Function::On,
        Function::Off,
        Function::Dim,
        Function::Bright,
        Function::AllLightsOff,
        Function::HailRequest,
        Function::HailAcknowledge,
        Function::StatusOn,
        Function::StatusOff,
        Function::StatusRequest,
    ];

    pub fn from_code(code: u8) -> Option<Function> {
        Some(match code {
            0 => Function::AllUnitsOff,
            1 => Function::AllLightsOn,
            2 => Function::On,
            3 => Function::Off,
            4 => Function::Dim,
            5 => Function::Bright,
            6 => Function::AllLightsOff,
            8 => Function::HailRequest,
            9 => Function::HailAcknowledge,
            13 => Function::StatusOn,
            14 => Function::StatusOff,
            15 => Function::StatusRequest,
            _ => return None,
        })
    }

    pub fn code(self) -> u8 {
        self as u8
    }
}

/// A message. Houses and units are numbers 0 to 15; a message with a larger one can be written
/// down, and every routine refuses it (`judge`).
#[derive(Clone, Copy, Debug, PartialEq, Eq)]
pub enum Message {
    Address { house: u8, unit: u8 },
    Function { house: u8, function: Function },
    Extended { house: u8, unit: u8, data: u8, command: u8 },
}

/// The bits of a frame after its start: the first on the line is the highest of the lowest `len`.
#[derive(Clone, Copy, Debug, PartialEq, Eq)]
pub struct Word {
    pub bits: u32,
    pub len: u32,
}

/// What the nine bits of a frame's first nine pairs say.
pub enum Nine {
    Whole(Message),
    Unsupported,
    /// Code 7 with function bit 1: twenty more pairs follow.
    More,
}

impl Message {
    pub fn house(self) -> u8 {
        match self {
            Message::Address { house, .. }
            | Message::Function { house, .. }
            | Message::Extended { house, .. } => house,
        }
    }

    /// 2 where house or unit is above 15.
    pub fn judge(self) -> Result<(), Refusal> {
        let highest = match self {
            Message::Address { house, unit } | Message::Extended { house, unit, .. } => house.max(unit),
            Message::Function { house, .. } => house,
        };
        if highest > 15 {
            return Err(Refusal::Message);
        }
        Ok(())
    }

    /// The bits of the frame of a message that `judge` lets pass.
    pub fn word(self) -> Word {
        let line = |number: u8| u32::from(LINE_CODES[usize::from(number)]);
        match self {
            Message::Address { house, unit } => Word { bits: line(house) << 5 | line(unit) << 1, len: 9 },
            Message::Function { house, function } => {
                Word { bits: line(house) << 5 | u32::from(function.code()) << 1 | 1, len: 9 }
            }
            Message::Extended { house, unit, data, command } => {
                let nine = line(house) << 5 | EXTENDED_CODE << 1 | 1;
                let rest = line(unit) << 16 | u32::from(data) << 8 | u32::from(command);
                Word { bits: nine << 20 | rest, len: 29 }
            }
        }
    }

    /// What the lowest nine bits of `bits` say, as the first nine of a frame.
    pub fn of_nine(bits: u32) -> Nine {
        let house = LINE_NUMBERS[(bits >> 5 & 15) as usize];
        let code = bits >> 1 & 15;
        if bits & 1 == 0 {
            return Nine::Whole(Message::Address { house, unit: LINE_NUMBERS[code as usize] });
        }
        if code == EXTENDED_CODE {
            return Nine::More;
        }
        match Function::from_code(code as u8) {
            Some(function) => Nine::Whole(Message::Function { house, function }),
            None => Nine::Unsupported,
        }
    }

    /// The extended message that the lowest 29 bits of `bits` spell.
    pub fn of_twenty_nine(bits: u32) -> Message {
        Message::Extended {
            house: LINE_NUMBERS[(bits >> 25 & 15) as usize],
            unit: LINE_NUMBERS[(bits >> 16 & 15) as usize],
            data: (bits >> 8) as u8,
            command: bits as u8,
        }
    }
}

#[cfg(test)]
mod tests {
    use super::*;

    #[test]
    fn line_codes_are_one_to_one() {
        for number in 0..16u8 {
            assert_eq!(LINE_NUMBERS[usize::from(LINE_CODES[usize::from(number)])], number);
        }
    }

    #[test]
    fn function_codes_read_back() {
        for function in Function::ALL {
            assert_eq!(Function::from_code(function.code()), Some(function));
        }
        let codes = (0..=255).filter(|&code| Function::from_code(code).is_some()).count();
        assert_eq!(codes, 12);
    }

    #[test]
    fn words_read_back() {
        for house in 0..16 {
            for unit in 0..16 {
                let address = Message::Address { house, unit };
                assert!(matches!(Message::of_nine(address.word().bits), Nine::Whole(m) if m == address));
                let extended = Message::Extended { house, unit, data: 0xA5, command: 0x31 };
                let word = extended.word();
                assert_eq!(word.len, 29);
                assert!(matches!(Message::of_nine(word.bits >> 20), Nine::More));
                assert_eq!(Message::of_twenty_nine(word.bits), extended);
            }
            for function in Function::ALL {
                let message = Message::Function { house, function };
                assert!(matches!(Message::of_nine(message.word().bits), Nine::Whole(m) if m == message));
            }
            for code in [10, 11, 12] {
                assert!(matches!(Message::of_nine(code << 1 | 1), Nine::Unsupported));
            }
        }
    }

    #[test]
    fn a_number_above_15_is_refused() {
        assert_eq!(Message::Address { house: 16, unit: 0 }.judge(), Err(Refusal::Message));
        assert_eq!(Message::Address { house: 0, unit: 16 }.judge(), Err(Refusal::Message));
        let on = Function::On;
        assert_eq!(Message::Function { house: 255, function: on }.judge(), Err(Refusal::Message));
        let extended = Message::Extended { house: 15, unit: 16, data: 0, command: 0x33 };
        assert_eq!(extended.judge(), Err(Refusal::Message));
        assert_eq!(Message::Address { house: 15, unit: 15 }.judge(), Ok(()));
    }
}
