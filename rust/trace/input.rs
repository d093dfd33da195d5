// Writes half-cycles to be timed on standard output: `input bursts COUNT`, bursts of all three
// kinds of message with three clear half-cycles before each; `input damaged COUNT`, the same with
// one half-cycle of each burst inverted; or `input clear COUNT`, a clear line.
use std::io::Write;

const CODES: [u32; 16] = [6, 14, 2, 10, 1, 9, 5, 13, 7, 15, 3, 11, 0, 8, 4, 12];

const FUNCTIONS: [u32; 12] = [0, 1, 2, 3, 4, 5, 6, 8, 9, 13, 14, 15];

struct Draws(u64);

impl Draws {
    fn below(&mut self, n: u32) -> u32 {
        self.0 = self.0.wrapping_mul(6364136223846793005).wrapping_add(1442695040888963407);
        ((self.0 >> 33) % n as u64) as u32
    }
}

fn frame(out: &mut Vec<u8>, word: u32, bits: u32) {
    out.extend_from_slice(b"1110");
    for k in (0..bits).rev() {
        let b = (word >> k & 1) as u8;
        out.extend_from_slice(&[b'0' + b, b'1' - b]);
    }
}

fn main() {
    let words: Vec<String> = std::env::args().collect();
    let count: usize = words[2].parse().unwrap();
    let mut out = Vec::with_capacity(count + 200);
    let mut draws = Draws(1);
    while out.len() < count {
        if words[1] == "clear" {
            out.push(b'0');
            continue;
        }
        let house = CODES[draws.below(16) as usize];
        let (word, bits) = match draws.below(3) {
            0 => ((house * 16 + CODES[draws.below(16) as usize]) * 2, 9),
            1 => ((house * 16 + FUNCTIONS[draws.below(12) as usize]) * 2 + 1, 9),
            _ => (
                (((house * 16 + 7) * 2 + 1) * 16 + CODES[draws.below(16) as usize]) << 16
                    | draws.below(65536),
                29,
            ),
        };
        out.extend_from_slice(b"000");
        let burst = out.len();
        frame(&mut out, word, bits);
        frame(&mut out, word, bits);
        if words[1] == "damaged" {
            let place = burst + draws.below((out.len() - burst) as u32) as usize;
            out[place] ^= 1;
        }
    }
    std::io::stdout().write_all(&out[..count]).unwrap();
}
