//! "House A, all lights on": its burst, heard on the mains for tables with one dark lamp, A1, and no
//! shutter; how many are lit then; and the refusal of a buffer that is one byte short.

use x10::{Answer, Event, Message};

const CLEAR: usize = 3;
const MOST: usize = CLEAR + x10::LONGEST_BURST;

fn main() {
    let lights_on = Message::function(0, x10::function::ALL_LIGHTS_ON);
    let mut line = [0; MOST];
    let n = CLEAR + x10::burst(lights_on, &mut line[CLEAR..]).count() as usize;
    let halves: String = line[..n].iter().map(u8::to_string).collect();
    println!("{halves}");

    let mut table = [0; x10::TABLE_BYTES];
    table[0] = 1;
    let mut shutters = [0; x10::SHUTTER_TABLE_BYTES];
    let mut state = [0; x10::RECEIVER_BYTES];
    x10::receiver_fresh(&mut state);
    let mut events = [0; MOST * x10::EVENT_BYTES];
    let mut answers = [0; MOST * x10::ANSWER_BYTES];
    let answer =
        x10::mains_route(&mut state, &line[..n], &mut table, &mut shutters, &mut events, &mut answers);
    println!("number {}, modules {}, A1 at {}", answer.number(), answer.modules(), table[1]);
    for i in 0..n {
        let to = Answer::at(&answers, i);
        match Event::at(&events, i).code() {
            x10::event::GIVEN => {
                println!("{}: message, number {}, modules {}", i + 1, to.number(), to.modules())
            }
            x10::event::REPEAT => println!("{}: repeat", i + 1),
            _ => {}
        }
    }
    println!("lit in house A: {}", x10::lit(&table, 0).count());

    let answer = x10::burst(lights_on, &mut line[..43]);
    println!("number {}, count {}", answer.number(), answer.count());
}
