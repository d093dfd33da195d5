//! Radio bytes: four bytes b, 255-b, c, 255-c for each of 544 commands.

use crate::message::{Function, Message, Refusal};

/// High four bits of b, for houses A to P.
const HOUSE_NIBBLES: [u8; 16] = [6, 7, 4, 5, 8, 9, 10, 11, 14, 15, 12, 13, 0, 1, 2, 3];

/// The house (0 to 15) that has a nibble.
const HOUSES: [u8; 16] = {
    let mut houses = [0; 16];
    let mut n = 0;
    while n < 16 {
        houses[HOUSE_NIBBLES[n] as usize] = n as u8;
        n += 1;
    }
    houses
};

/// The unit's 8, in b; its 4, 2 and 1, in c.
const UNIT_8: u8 = 1 << 2;
const UNIT_4: u8 = 1 << 6;
const UNIT_2: u8 = 1 << 3;
const UNIT_1: u8 = 1 << 4;
const OFF: u8 = 1 << 5;
const BRIGHT: u8 = 136;
const DIM: u8 = 152;

#[derive(Clone, Copy, Debug, PartialEq, Eq)]
pub enum Command {
    On { house: u8, unit: u8 },
    Off { house: u8, unit: u8 },
    Bright { house: u8 },
    Dim { house: u8 },
}

impl Command {
    /// 2 where house or unit is above 15.
    pub fn judge(self) -> Result<(), Refusal> {
        let highest = match self {
            Command::On { house, unit } | Command::Off { house, unit } => house.max(unit),
            Command::Bright { house } | Command::Dim { house } => house,
        };
        if highest > 15 {
            return Err(Refusal::Message);
        }
        Ok(())
    }

    /// The four bytes.
    pub fn write(self) -> Result<[u8; 4], Refusal> {
        self.judge()?;
        let nibble = |house: u8| HOUSE_NIBBLES[usize::from(house)] << 4;
        let (b, c) = match self {
            Command::On { house, unit } => (nibble(house) | unit_in_b(unit), unit_in_c(unit)),
            Command::Off { house, unit } => (nibble(house) | unit_in_b(unit), unit_in_c(unit) | OFF),
            Command::Bright { house } => (nibble(house), BRIGHT),
            Command::Dim { house } => (nibble(house), DIM),
        };
        Ok([b, 255 - b, c, 255 - c])
    }

    /// The command of four bytes: 12 where there are not four, 13 where a pair is not
    /// complementary, 14 where they are none of the 544.
    pub fn read(code: &[u8]) -> Result<Command, Refusal> {
        let &[b, not_b, c, not_c] = code else {
            return Err(Refusal::RfLength);
        };
        if not_b != 255 - b || not_c != 255 - c {
            return Err(Refusal::RfComplement);
        }
        let house = HOUSES[usize::from(b >> 4)];
        let low = b & 15;
        match c {
            BRIGHT if low == 0 => return Ok(Command::Bright { house }),
            DIM if low == 0 => return Ok(Command::Dim { house }),
            _ => {}
        }
        if low & !UNIT_8 != 0 || c & !(UNIT_4 | UNIT_2 | UNIT_1 | OFF) != 0 {
            return Err(Refusal::RfCode);
        }
        let weight = |byte: u8, bit: u8, weight: u8| if byte & bit != 0 { weight } else { 0 };
        let unit = weight(b, UNIT_8, 8) | weight(c, UNIT_4, 4) | weight(c, UNIT_2, 2) | weight(c, UNIT_1, 1);
        if c & OFF != 0 {
            Ok(Command::Off { house, unit })
        } else {
            Ok(Command::On { house, unit })
        }
    }

    /// On or off means an address and then a function; bright and dim mean a function alone.
    pub fn messages(self) -> (Option<Message>, Message) {
        let function = |house, function| Message::Function { house, function };
        match self {
            Command::On { house, unit } => {
                (Some(Message::Address { house, unit }), function(house, Function::On))
            }
            Command::Off { house, unit } => {
                (Some(Message::Address { house, unit }), function(house, Function::Off))
            }
            Command::Bright { house } => (None, function(house, Function::Bright)),
            Command::Dim { house } => (None, function(house, Function::Dim)),
        }
    }
}

fn unit_in_b(unit: u8) -> u8 {
    if unit & 8 != 0 {
        UNIT_8
    } else {
        0
    }
}

fn unit_in_c(unit: u8) -> u8 {
    let bit = |weight: u8, bit: u8| if unit & weight != 0 { bit } else { 0 };
    bit(4, UNIT_4) | bit(2, UNIT_2) | bit(1, UNIT_1)
}

#[cfg(test)]
mod tests {
    use super::*;

    #[test]
    fn p4_a1_on() {
        assert_eq!(Command::On { house: 0, unit: 0 }.write(), Ok([0x60, 0x9F, 0x00, 0xFF]));
    }

    #[test]
    fn p5_a5_off() {
        assert_eq!(Command::Off { house: 0, unit: 4 }.write(), Ok([0x60, 0x9F, 0x60, 0x9F]));
    }

    #[test]
    fn p6_p16_off() {
        assert_eq!(Command::Off { house: 15, unit: 15 }.write(), Ok([0x34, 0xCB, 0x78, 0x87]));
    }

    #[test]
    fn p7_no_such_code() {
        assert_eq!(Command::read(&[0x60, 0x9F, 0x01, 0xFE]), Err(Refusal::RfCode));
    }

    #[test]
    fn the_544_codes_read_back_and_no_other_does() {
        let mut commands = Vec::new();
        for house in 0..16 {
            commands.extend((0..16).map(|unit| Command::On { house, unit }));
            commands.extend((0..16).map(|unit| Command::Off { house, unit }));
            commands.extend([Command::Bright { house }, Command::Dim { house }]);
        }
        assert_eq!(commands.len(), 544);
        for &command in &commands {
            assert_eq!(Command::read(&command.write().unwrap()), Ok(command));
        }
        let mut read = 0;
        for b in 0..=255 {
            for c in 0..=255 {
                match Command::read(&[b, 255 - b, c, 255 - c]) {
                    Ok(command) => {
                        assert_eq!(command.write(), Ok([b, 255 - b, c, 255 - c]));
                        read += 1;
                    }
                    Err(refusal) => assert_eq!(refusal, Refusal::RfCode),
                }
            }
        }
        assert_eq!(read, 544);
    }

    #[test]
    fn refusals() {
        assert_eq!(Command::read(&[]), Err(Refusal::RfLength));
        assert_eq!(Command::read(&[0x60, 0x9F, 0x00, 0xFF, 0]), Err(Refusal::RfLength));
        assert_eq!(Command::read(&[0x60, 0x9E, 0x00, 0xFF]), Err(Refusal::RfComplement));
        assert_eq!(Command::read(&[0x60, 0x9F, 0x01, 0xFF]), Err(Refusal::RfComplement));
        assert_eq!(Command::On { house: 0, unit: 16 }.write(), Err(Refusal::Message));
        assert_eq!(Command::Dim { house: 16 }.write(), Err(Refusal::Message));
    }
}
