// The trace program in plain Rust, as fast as plain safe Rust reasonably is. Written from the scope
// paper and request A2: the receiver here has a state of its own that cannot be wrong, so nothing
// is judged.
//
// Half-cycles are read one by one (`Receiver::step`). Where whole stretches of the input are what
// they mostly are, a clear line, a start, the pairs of a frame or what is left of one that broke,
// they are taken at once (`Receiver::hear`).
use std::fs::File;
use std::io::{self, ErrorKind, Read, Write};
use std::os::fd::AsFd;
use std::process::ExitCode;

/// Houses and units by their four-bit code.
const NUMBERS: [u8; 16] = [12, 4, 2, 10, 14, 6, 0, 8, 13, 5, 3, 11, 15, 7, 1, 9];

/// Functions by their code; 7 is that of extended messages, 10 to 12 are unsupported.
const NAMES: [&str; 16] = [
    "ALL UNITS OFF",
    "ALL LIGHTS ON",
    "ON",
    "OFF",
    "DIM",
    "BRIGHT",
    "ALL LIGHTS OFF",
    "",
    "HAIL REQUEST",
    "HAIL ACKNOWLEDGE",
    "",
    "",
    "",
    "STATUS ON",
    "STATUS OFF",
    "STATUS REQUEST",
];

/// The eight half-cycles of four bits.
const HALVES: [u8; 16] = {
    let mut halves = [0; 16];
    let mut bits = 0;
    while bits < 16 {
        let mut k = 0;
        while k < 4 {
            halves[bits] |= (if bits >> k & 1 == 1 { 0b10 } else { 0b01 }) << (2 * k);
            k += 1;
        }
        bits += 1;
    }
    halves
};

/// The digits of 0 to 99.
const TWO_DIGITS: [[u8; 2]; 100] = {
    let mut digits = [[0; 2]; 100];
    let mut n = 0;
    while n < 100 {
        digits[n] = [b'0' + n as u8 / 10, b'0' + n as u8 % 10];
        n += 1;
    }
    digits
};

/// The bits of a complete frame. Frames of 22 have nine bits and frames of 62 have 29, of which one above
/// the ninth is 1; so two frames are equal where these are.
type Word = u32;

/// Code 7 and function bit 1, the last five of nine bits.
const EXTENDED: Word = 0b01111;

/// Places in a frame of the half-cycle to come, counted from 1.
const HUNTING: u8 = 0;
const AWAITED: u8 = 1;
const FIRST_PAIR: u8 = 5;
const STANDARD_END: u8 = 22;
const EXTENDED_END: u8 = 62;

/// A count of half-cycles that is not reached.
const NEVER: u64 = u64::MAX;

/// What the input could not be read beyond.
struct BadByte;

struct Receiver {
    /// Half-cycles received.
    count: u64,
    /// The last eight of them, the latest lowest; ones before any has come, since no start has those.
    past: u8,
    at: u8,
    /// Bits of the pairs that are complete.
    bits: Word,
    /// The frame just given, whose repeat may follow.
    given: Option<Word>,
    /// The count at which a start that is waited for after a break is complete; NEVER where none
    /// is.
    due: u64,
    /// The same of the later place, which is waited for where the first holds no start.
    due_else: u64,
}

impl Receiver {
    const FRESH: Receiver =
        Receiver { count: 0, past: 0xFF, at: HUNTING, bits: 0, given: None, due: NEVER, due_else: NEVER };

    /// Hears all bytes and puts the lines of their events out, also that of a bad byte.
    fn hear(&mut self, mut bytes: &[u8], out: &mut Vec<u8>) -> Result<(), BadByte> {
        while let [byte, after @ ..] = bytes {
            let quick = match self.at {
                HUNTING => self.hunt(bytes).or_else(|| self.pass(bytes)),
                AWAITED => self.repeated_start(bytes),
                FIRST_PAIR => self.frame(bytes, out).or_else(|| self.four_pairs(bytes)),
                // No frame is complete within four pairs from here.
                13 | 23 | 31 | 39 | 47 => self.four_pairs(bytes),
                _ => None,
            };
            if let Some(after) = quick {
                bytes = after;
                continue;
            }
            match byte {
                b'0' | b'1' => self.step(byte - b'0', out),
                b'\n' | b'\r' => {}
                _ => {
                    put_number(out, self.count + 1);
                    out.extend_from_slice(b"\tBADBYTE\n");
                    return Err(BadByte);
                }
            }
            bytes = after;
        }
        Ok(())
    }

    /// Passes over clear half-cycles and a start after them: what stands then.
    fn hunt<'a>(&mut self, bytes: &'a [u8]) -> Option<&'a [u8]> {
        // A 0 ends a start only after a 1.
        let clear = if self.past & 1 == 1 { 0 } else { clear(&bytes[..self.before_place(bytes.len())]) };
        let rest = &bytes[clear..];
        self.count += clear as u64;
        self.past = if clear < 8 { self.past << clear } else { 0 };
        if self.past & 0b111 == 0 || self.count + 4 == self.due {
            if let Some(rest) = rest.strip_prefix(b"1110") {
                self.heard(4, 0b1110);
                self.begin(None);
                return Some(rest);
            }
        }
        (clear > 0).then_some(rest)
    }

    /// Passes over eight half-cycles, or fewer before the place of a start that is waited for,
    /// where no start is complete among them.
    fn pass<'a>(&mut self, bytes: &'a [u8]) -> Option<&'a [u8]> {
        let (&eight, _) = bytes.split_first_chunk::<8>()?;
        let n = self.before_place(8);
        let halves = u16::from(eight_halves(eight)?) >> (8 - n);
        let all = u16::from(self.past) << n | halves;
        // In each bit, whether 0 0 0 1 1 1 0 is complete with it.
        let starts = !all & all >> 1 & all >> 2 & all >> 3 & !(all >> 4) & !(all >> 5) & !(all >> 6);
        if n == 0 || starts & ((1 << n) - 1) != 0 {
            return None;
        }
        self.count += n as u64;
        self.past = all as u8;
        Some(&bytes[n..])
    }

    /// How many of so many half-cycles come before the place of a start that is waited for; none
    /// from the place on.
    fn before_place(&self, halves: usize) -> usize {
        let before = (self.due - 4).saturating_sub(self.count);
        usize::try_from(before).map_or(halves, |before| before.min(halves))
    }

    /// The four half-cycles 1 1 1 0 that are awaited after a frame.
    fn repeated_start<'a>(&mut self, bytes: &'a [u8]) -> Option<&'a [u8]> {
        let rest = bytes.strip_prefix(b"1110")?;
        self.heard(4, 0b1110);
        self.begin(self.given);
        Some(rest)
    }

    /// A frame whose pairs stand whole in these bytes.
    fn frame<'a>(&mut self, bytes: &'a [u8], out: &mut Vec<u8>) -> Option<&'a [u8]> {
        let (nine, mut rest) = bytes.split_first_chunk::<18>()?;
        let mut word = pairs(nine)?;
        if word & 31 == EXTENDED {
            let (twenty, after) = rest.split_first_chunk::<40>()?;
            word = word << 20 | pairs(twenty)?;
            rest = after;
        }
        self.heard(bytes.len() - rest.len(), HALVES[(word & 15) as usize]);
        self.complete(word, out);
        Some(rest)
    }

    /// Four pairs of a frame that breaks later or does not stand whole in these bytes.
    fn four_pairs<'a>(&mut self, bytes: &'a [u8]) -> Option<&'a [u8]> {
        let (eight, rest) = bytes.split_first_chunk::<8>()?;
        let four = pairs(eight)?;
        self.heard(8, HALVES[four as usize]);
        self.bits = self.bits << 4 | four;
        self.at += 8;
        Some(rest)
    }

    /// Counts half-cycles, with the last of them.
    fn heard(&mut self, halves: usize, last: u8) {
        self.count += halves as u64;
        self.past = if halves < 8 { self.past << halves | last } else { last };
    }

    /// One half-cycle.
    fn step(&mut self, half: u8, out: &mut Vec<u8>) {
        self.heard(1, half);
        match self.at {
            HUNTING => {
                if self.past & 0x7F == 0b0001110 || self.start_due() {
                    self.begin(None);
                }
            }
            AWAITED..=3 if half == 1 => self.at += 1,
            4 if half == 0 => self.begin(self.given),
            AWAITED..=4 => self.at = HUNTING,
            at if at % 2 == 1 => self.at += 1,
            at => {
                let (first, second) = (self.past >> 1 & 1, self.past & 1);
                if first == second {
                    self.wait(at);
                    return self.broken(b"\tBROKEN\t10\n", out);
                }
                self.bits = self.bits << 1 | Word::from(first);
                let more = at == STANDARD_END && self.bits & 31 == EXTENDED;
                if at == STANDARD_END && !more || at == EXTENDED_END {
                    self.complete(self.bits, out);
                } else {
                    self.at += 1;
                }
            }
        }
    }

    /// The pairs of a frame are next, that of a repeat or of another message where one was given.
    fn begin(&mut self, given: Option<Word>) {
        self.at = FIRST_PAIR;
        self.bits = 0;
        self.given = given;
        self.due = NEVER;
        self.due_else = NEVER;
    }

    /// A pair broke at this place of its frame. The start of a second copy is waited for at 22 and,
    /// where that holds none, at 62; after the ninth pair at 62 only.
    fn wait(&mut self, at: u8) {
        let start = self.count - u64::from(at);
        let (after_standard, after_extended) = (start + 22 + 4, start + 62 + 4);
        (self.due, self.due_else) = match at {
            ..=STANDARD_END => (after_standard, after_extended),
            _ => (after_extended, NEVER),
        };
    }

    /// Whether a start that is waited for is complete. Where none stands there, the later place is
    /// next.
    fn start_due(&mut self) -> bool {
        if self.count != self.due {
            return false;
        }
        self.due = self.due_else;
        self.due_else = NEVER;
        self.past & 0xF == 0b1110
    }

    fn broken(&mut self, line: &[u8], out: &mut Vec<u8>) {
        self.at = HUNTING;
        put_number(out, self.count);
        out.extend_from_slice(line);
    }

    /// All pairs of a frame are there.
    fn complete(&mut self, word: Word, out: &mut Vec<u8>) {
        let standard = word < 1 << 9;
        if standard && matches!(word & 31, 0b10101 | 0b10111 | 0b11001) {
            return self.broken(b"\tBROKEN\t11\n", out);
        }
        put_number(out, self.count);
        if self.given == Some(word) {
            self.at = HUNTING;
            out.extend_from_slice(b"\tREPEAT\n");
            return;
        }
        self.at = AWAITED;
        self.given = Some(word);
        if standard {
            put_standard(out, word);
        } else {
            put_extended(out, word);
        }
    }
}

/// How many half-cycles at the front are 0, with no other bytes between them.
fn clear(bytes: &[u8]) -> usize {
    const WIDE: [u8; 64] = [b'0'; 64];
    let (eights, _) = bytes.as_chunks::<8>();
    if let Some(&eight) = eights.first() {
        // Most often a few clear half-cycles before a start.
        let other = u64::from_le_bytes(eight) ^ u64::from_le_bytes([b'0'; 8]);
        if other != 0 {
            return (other.trailing_zeros() / 8) as usize;
        }
    }
    let (wide, _) = bytes.as_chunks::<64>();
    let passed = 64 * wide.iter().take_while(|wide| **wide == WIDE).count();
    passed + bytes[passed..].iter().take_while(|byte| **byte == b'0').count()
}

/// The bits of pairs that are written in these bytes, the first highest. None where a byte is not 0 or 1,
/// or both of a pair are equal.
fn pairs<const N: usize>(bytes: &[u8; N]) -> Option<Word> {
    let mut bits = 0;
    let (eights, last) = bytes.as_chunks::<8>();
    for &eight in eights {
        // Each byte is 0 or 1 now, the first of a pair below the second.
        let halves = u64::from_le_bytes(eight) ^ u64::from_le_bytes([b'0'; 8]);
        let differ = (halves ^ halves >> 8) & 0x0001_0001_0001_0001;
        if halves & !0x0101_0101_0101_0101 != 0 || differ != 0x0001_0001_0001_0001 {
            return None;
        }
        // The four firsts come together in the highest 16 bits, the first of them highest.
        let firsts = (halves & 0x0001_0001_0001_0001).wrapping_mul(0x0008_0004_0002_0001);
        bits = bits << 4 | (firsts >> 48) as Word;
    }
    for pair in last.as_chunks::<2>().0 {
        bits = bits << 1
            | match pair {
                b"01" => 0,
                b"10" => 1,
                _ => return None,
            };
    }
    Some(bits)
}

/// Eight half-cycles, the first highest. None where a byte is not 0 or 1.
fn eight_halves(eight: [u8; 8]) -> Option<u8> {
    let halves = u64::from_be_bytes(eight) ^ u64::from_be_bytes([b'0'; 8]);
    // The lowest bits of the bytes come together in the highest byte.
    (halves & !0x0101_0101_0101_0101 == 0).then(|| (halves.wrapping_mul(0x0102_0408_1020_4080) >> 56) as u8)
}

fn put_number(out: &mut Vec<u8>, number: u64) {
    let mut digits = [0; 20];
    let mut at = digits.len();
    let mut rest = number;
    // Two digits at a time: a division is what costs here.
    while rest >= 100 {
        at -= 2;
        digits[at..at + 2].copy_from_slice(&TWO_DIGITS[(rest % 100) as usize]);
        rest /= 100;
    }
    let [ten, one] = TWO_DIGITS[rest as usize];
    at -= 1;
    digits[at] = one;
    if rest >= 10 {
        at -= 1;
        digits[at] = ten;
    }
    out.extend_from_slice(&digits[at..]);
}

/// The letter of the house whose code stands in the lowest four bits.
fn house(code: Word) -> u8 {
    b'A' + NUMBERS[(code & 15) as usize]
}

/// The number of the unit whose code stands in the lowest four bits.
fn put_unit(out: &mut Vec<u8>, code: Word) {
    put_number(out, u64::from(NUMBERS[(code & 15) as usize]) + 1);
}

fn put_standard(out: &mut Vec<u8>, word: Word) {
    if word & 1 == 0 {
        out.extend_from_slice(b"\tADDRESS\t");
        out.extend_from_slice(&[house(word >> 5), b'\t']);
        put_unit(out, word >> 1);
    } else {
        out.extend_from_slice(b"\tFUNCTION\t");
        out.extend_from_slice(&[house(word >> 5), b'\t']);
        out.extend_from_slice(NAMES[(word >> 1 & 15) as usize].as_bytes());
    }
    out.push(b'\n');
}

fn put_extended(out: &mut Vec<u8>, word: Word) {
    let digit = |shift: u32| b"0123456789ABCDEF"[(word >> shift & 15) as usize];
    out.extend_from_slice(b"\tEXTENDED\t");
    out.extend_from_slice(&[house(word >> 25), b'\t']);
    put_unit(out, word >> 16);
    out.extend_from_slice(&[b'\t', digit(12), digit(8), b'\t', digit(4), digit(0), b'\n']);
}

/// Until the input ends or has a bad byte; what went wrong where a read or write fails.
fn trace(input: &mut impl Read, output: &mut impl Write) -> Result<(), String> {
    let mut bytes = vec![0; 65536];
    let mut lines = Vec::new();
    let mut receiver = Receiver::FRESH;
    loop {
        let n = match input.read(&mut bytes) {
            Ok(0) => return Ok(()),
            Ok(n) => n,
            Err(wrong) if wrong.kind() == ErrorKind::Interrupted => continue,
            Err(wrong) => return Err(format!("cannot read: {wrong}")),
        };
        let heard = receiver.hear(&bytes[..n], &mut lines);
        output.write_all(&lines).map_err(|wrong| format!("cannot write: {wrong}"))?;
        lines.clear();
        if let Err(BadByte) = heard {
            return Ok(());
        }
    }
}

fn main() -> ExitCode {
    // As files: std's own handles take an end that is not open for an empty one.
    let file = |end: io::Result<std::os::fd::OwnedFd>| end.map(File::from).map_err(|wrong| wrong.to_string());
    let input = file(io::stdin().as_fd().try_clone_to_owned());
    let output = file(io::stdout().as_fd().try_clone_to_owned());
    let traced = input.and_then(|mut input| trace(&mut input, &mut output?));
    if let Err(wrong) = traced {
        // Nobody is left to be told where this fails too.
        _ = writeln!(io::stderr(), "trace: {wrong}");
        return ExitCode::FAILURE;
    }
    ExitCode::SUCCESS
}

#[cfg(test)]
mod tests {
    use super::*;

    const A1: &str = "1110011010010110100101";
    const M13: &str = "1110010101010101010101";

    /// Hands over a few bytes at a time, and fails or ends after them.
    struct Slowly<'a> {
        bytes: &'a [u8],
        at_once: usize,
        fails: bool,
    }

    impl Read for Slowly<'_> {
        fn read(&mut self, into: &mut [u8]) -> io::Result<usize> {
            if self.bytes.is_empty() && self.fails {
                return Err(io::Error::other("no more"));
            }
            let n = self.at_once.min(into.len()).min(self.bytes.len());
            let (now, later) = self.bytes.split_at(n);
            into[..n].copy_from_slice(now);
            self.bytes = later;
            Ok(n)
        }
    }

    /// What is written, which must not depend on the pieces in which the input comes.
    fn lines(input: &str) -> String {
        let mut all: Vec<Vec<u8>> = Vec::new();
        for at_once in [1, 2, 3, 7, 19, 64, input.len().max(1)] {
            let mut out = Vec::new();
            let mut slowly = Slowly { bytes: input.as_bytes(), at_once, fails: false };
            trace(&mut slowly, &mut out).unwrap();
            all.push(out);
        }
        assert!(all.iter().all(|out| *out == all[0]), "{input}");
        String::from_utf8(all.remove(0)).unwrap()
    }

    #[test]
    fn the_example_of_the_paper() {
        assert_eq!(lines(&format!("000{A1}{A1}")), "25\tADDRESS\tA\t1\n47\tREPEAT\n");
        assert_eq!(lines(&format!("00{A1}{A1}")), "");
        assert_eq!(lines(""), "");
    }

    #[test]
    fn line_ends_are_not_counted() {
        let input = format!("000{A1}{A1}");
        let parted = input.split("").collect::<Vec<_>>().join("\r\n");
        assert_eq!(lines(&parted), lines(&input));
        assert_eq!(lines(&input.replace("1110", "11\n10")), lines(&input));
    }

    #[test]
    fn a_bad_byte_is_the_last_line() {
        assert_eq!(lines(&format!("000{A1}\n2{A1}")), "25\tADDRESS\tA\t1\n26\tBADBYTE\n");
        assert_eq!(lines(" 01"), "1\tBADBYTE\n");
        // No read comes after it: one would fail.
        let mut slowly = Slowly { bytes: b"00x", at_once: 2, fails: true };
        let mut out = Vec::new();
        assert_eq!(trace(&mut slowly, &mut out), Ok(()));
        assert_eq!(out, b"3\tBADBYTE\n");
    }

    #[test]
    fn broken_frames() {
        assert_eq!(lines("00011100100"), "11\tBROKEN\t10\n");
        for code in ["10011001", "10011010", "10100101"] {
            assert_eq!(lines(&format!("000111001101001{code}10")), "25\tBROKEN\t11\n");
        }
        let damaged = M13.replacen("1110", "1111", 1);
        assert_eq!(lines(&format!("000{damaged}{}", "0".repeat(60))), "");
    }

    #[test]
    fn another_frame_after_a_frame() {
        let told = "25\tADDRESS\tA\t1\n47\tADDRESS\tM\t13\n69\tREPEAT\n";
        assert_eq!(lines(&format!("000{A1}{M13}{M13}{M13}")), told);
        // A 0 and two clear half-cycles after A on are the three that the next start needs.
        let on = "1110011010010101100110";
        let told = "25\tFUNCTION\tA\tON\n49\tADDRESS\tA\t1\n";
        assert_eq!(lines(&format!("000{on}00{A1}")), told);
    }

    /// The frame of these bits.
    fn frame(bits: &str) -> String {
        let pairs = bits.chars().map(|bit| if bit == '1' { "10" } else { "01" });
        String::from("1110") + &pairs.collect::<String>()
    }

    /// B2, data A5, command 31: the codes of B and 2 are 14.
    const B2: &str = "11100111111101010010100110001";

    /// The same half-cycles, one of them inverted.
    fn inverted(halves: &str, place: usize) -> String {
        let mut bytes = halves.as_bytes().to_vec();
        bytes[place] ^= 1;
        String::from_utf8(bytes).unwrap()
    }

    #[test]
    fn a_second_copy_after_a_broken_pair() {
        let extended = frame(B2);
        for (copy, last, told) in
            [(A1, 22, "47\tADDRESS\tA\t1\n"), (&extended, 62, "127\tEXTENDED\tB\t2\tA5\t31\n")]
        {
            for place in 4..last {
                let damaged = inverted(copy, place);
                // The break comes with the second of the pair, which has an odd place.
                let told = format!("{}\tBROKEN\t10\n{told}", 3 + (place | 1) + 1);
                assert_eq!(lines(&format!("000{damaged}{copy}")), told);
                let parted = format!("000{damaged}{copy}").replace("1110", "1\n1\r10");
                assert_eq!(lines(&parted), told);
                let repeat = 3 + 3 * last;
                assert_eq!(lines(&format!("000{damaged}{copy}{copy}")), format!("{told}{repeat}\tREPEAT\n"));
            }
        }
    }

    #[test]
    fn places_at_which_a_start_is_waited_for() {
        let damaged = inverted(A1, 21);
        let broken = "25\tBROKEN\t10\n";
        for ones in 0..60 {
            let line = format!("000{damaged}{}{A1}", "1".repeat(ones));
            // At s + 22 and s + 62, and nowhere else.
            let told = match ones {
                0 => format!("{broken}47\tADDRESS\tA\t1\n"),
                40 => format!("{broken}87\tADDRESS\tA\t1\n"),
                _ => broken.to_string(),
            };
            assert_eq!(lines(&line), told, "{ones}");
        }
        // A frame at s + 22 that breaks puts s + 62 off.
        let line = format!("000{damaged}{damaged}{}{A1}", "1".repeat(18));
        assert_eq!(lines(&line), "25\tBROKEN\t10\n47\tBROKEN\t10\n");
        // After the ninth pair the place is s + 62: a start at s + 22 breaks the tenth, and is
        // none.
        let line = format!("000{}{A1}{}", &frame(B2)[..22], "1".repeat(60));
        assert_eq!(lines(&line), "27\tBROKEN\t10\n");
        // An unsupported code starts no waiting.
        let unsupported = frame("011010101");
        let line = format!("000{unsupported}{A1}{}{A1}", "1".repeat(18));
        assert_eq!(lines(&line), "25\tBROKEN\t11\n");
    }

    #[test]
    fn the_hunt_runs_on_while_a_start_is_waited_for() {
        let damaged = &inverted(A1, 4)[..6];
        let line = format!("000{damaged}000{A1}{A1}");
        assert_eq!(lines(&line), "9\tBROKEN\t10\n34\tADDRESS\tA\t1\n56\tREPEAT\n");
        // The same with clear line up to either place, and beyond.
        for clear in 3..80 {
            let line = format!("000{damaged}{}{A1}", "0".repeat(clear));
            assert_eq!(lines(&line), format!("9\tBROKEN\t10\n{}\tADDRESS\tA\t1\n", 31 + clear));
        }
    }

    #[test]
    fn damaged_bursts_in_pieces() {
        let mut drawn = 1u64;
        let mut below = |n: usize| {
            drawn = drawn.wrapping_mul(6364136223846793005).wrapping_add(1442695040888963407);
            (drawn >> 33) as usize % n
        };
        let extended = frame(B2);
        for _ in 0..300 {
            let mut line = String::from("000");
            while line.len() < 1000 {
                let copy = [A1, M13, &extended][below(3)];
                let place = below(2 * copy.len());
                line += &inverted(&copy.repeat(2), place);
                line += &"0".repeat(below(5));
            }
            // `lines` compares the pieces, of which those of one byte take no stretch at once.
            assert!(lines(&line).contains("BROKEN"), "{line}");
        }
    }

    #[test]
    fn an_extended_message() {
        let frame = frame(B2);
        let told = "165\tEXTENDED\tB\t2\tA5\t31\n227\tREPEAT\n";
        assert_eq!(lines(&format!("{}{frame}{frame}", "0".repeat(103))), told);
    }

    #[test]
    fn what_fails_is_said() {
        struct Full;
        impl Write for Full {
            fn write(&mut self, _: &[u8]) -> io::Result<usize> {
                Err(io::Error::other("full"))
            }
            fn flush(&mut self) -> io::Result<()> {
                Ok(())
            }
        }
        let input = format!("000{A1}");
        assert_eq!(trace(&mut input.as_bytes(), &mut Full), Err("cannot write: full".into()));
        let mut slowly = Slowly { bytes: input.as_bytes(), at_once: 5, fails: true };
        let mut out = Vec::new();
        assert_eq!(trace(&mut slowly, &mut out), Err("cannot read: no more".into()));
        assert_eq!(out, b"25\tADDRESS\tA\t1\n");
    }

    #[test]
    fn numbers_in_digits() {
        for number in (0..12_345).chain([99_999, 100_000, u64::MAX]) {
            let mut out = Vec::new();
            put_number(&mut out, number);
            assert_eq!(out, number.to_string().as_bytes());
        }
    }
}
