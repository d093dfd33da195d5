//! Frames, bursts, and the burst writer.
//!
//! A frame is the start 1 1 1 0 and then each bit of the word followed by its complement, highest
//! first. A burst is the frame twice with no gap.

use crate::message::{Message, Refusal, Word};

pub const START: [u8; 4] = [1, 1, 1, 0];

/// Half-cycles of the longest burst.
pub const LONGEST: usize = 124;

/// Half-cycles of a message's burst.
pub fn burst_len(message: Message) -> usize {
    match message {
        Message::Address { .. } | Message::Function { .. } => 44,
        Message::Extended { .. } => LONGEST,
    }
}

/// Half-cycles of a frame: 22 or 62.
pub fn frame_len(word: Word) -> usize {
    START.len() + 2 * word.len as usize
}

/// Writes the frame into a slice of exactly its length.
pub fn write_frame(word: Word, frame: &mut [u8]) {
    let (start, pairs) = frame.split_at_mut(START.len());
    start.copy_from_slice(&START);
    let (pairs, _) = pairs.as_chunks_mut::<2>();
    for (pair, place) in pairs.iter_mut().zip((0..word.len).rev()) {
        let bit = (word.bits >> place & 1) as u8;
        *pair = [bit, 1 - bit];
    }
}

/// Writes the burst of `message` at the front of `buf` and gives its length. Bytes beyond stay. The
/// burst is kept whole in an array and copied, as the paper asks for.
pub fn write_burst(message: Message, buf: &mut [u8]) -> Result<usize, Refusal> {
    message.judge()?;
    let word = message.word();
    let frame = frame_len(word);
    let front = buf.get_mut(..2 * frame).ok_or(Refusal::Short)?;
    let mut burst = [0; LONGEST];
    write_frame(word, &mut burst[..frame]);
    burst.copy_within(..frame, frame);
    front.copy_from_slice(&burst[..2 * frame]);
    Ok(2 * frame)
}

/// The half-cycle at `place` of the burst, without writing the burst.
pub fn half_cycle(word: Word, place: usize) -> u8 {
    let frame = frame_len(word);
    let place = if place < frame { place } else { place - frame };
    if place < START.len() {
        return START[place];
    }
    let pair = (place - START.len()) / 2;
    let bit = (word.bits >> (word.len as usize - 1 - pair) & 1) as u8;
    // Starts have an even length, so the second of a pair stands at an odd place.
    bit ^ (place & 1) as u8
}

#[cfg(test)]
mod tests {
    use super::*;
    use crate::message::Function;

    fn frame(message: Message) -> String {
        let mut buf = [9; LONGEST];
        let len = write_burst(message, &mut buf).unwrap();
        assert_eq!(buf[..len / 2], buf[len / 2..len]);
        assert!(buf[len..].iter().all(|&byte| byte == 9));
        buf[..len / 2].iter().map(|half| char::from(b'0' + half)).collect()
    }

    #[test]
    fn p1_address_a1() {
        let spelled = "1110 01101001 01101001 01".replace(' ', "");
        assert_eq!(frame(Message::Address { house: 0, unit: 0 }), spelled);
    }

    #[test]
    fn p2_a_on() {
        let spelled = "1110 01101001 01011001 10".replace(' ', "");
        assert_eq!(frame(Message::Function { house: 0, function: Function::On }), spelled);
    }

    #[test]
    fn p3_address_m13() {
        let spelled = "1110 01010101 01010101 01".replace(' ', "");
        assert_eq!(frame(Message::Address { house: 12, unit: 12 }), spelled);
    }

    #[test]
    fn buffers_of_43_and_44() {
        let address = Message::Address { house: 0, unit: 0 };
        let mut short = [7; 43];
        assert_eq!(write_burst(address, &mut short), Err(Refusal::Short));
        assert_eq!(short, [7; 43]);
        assert_eq!(write_burst(address, &mut [7; 44]), Ok(44));
        let extended = Message::Extended { house: 0, unit: 0, data: 0, command: 0 };
        let mut short = [7; 123];
        assert_eq!(write_burst(extended, &mut short), Err(Refusal::Short));
        assert_eq!(short, [7; 123]);
        assert_eq!(write_burst(extended, &mut [7; 124]), Ok(124));
    }

    #[test]
    fn message_is_refused_before_short() {
        let none = Message::Address { house: 16, unit: 0 };
        assert_eq!(write_burst(none, &mut []), Err(Refusal::Message));
    }

    #[test]
    fn each_half_cycle_is_the_written_one() {
        let messages = [
            Message::Address { house: 3, unit: 9 },
            Message::Function { house: 14, function: Function::StatusRequest },
            Message::Extended { house: 5, unit: 11, data: 0x5C, command: 0x36 },
        ];
        for message in messages {
            let mut buf = [0; LONGEST];
            let len = write_burst(message, &mut buf).unwrap();
            assert_eq!(len, burst_len(message));
            for (place, &half) in buf[..len].iter().enumerate() {
                assert_eq!(half_cycle(message.word(), place), half);
            }
        }
    }
}
