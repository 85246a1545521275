//! Rule L of the scope, a leak that no closing follows within 60 seconds, in the main loop of a unit: an event is taken as it
//! comes, and after a quiet minute a clock notice. Four events and the clock's seconds stand here. It prints as the listing
//! program does.
use std::error::Error;
use yokemango::{Event, Rule, State, MAX_REPORT_WORDS};

const LEAK: usize = 0;
const CLOSE: usize = 1;
const MINUTE: u32 = 60;

fn main() -> Result<(), Box<dyn Error>> {
    let rule = Rule::check(include_bytes!("../../examples/leak.rule"))?;
    println!("rule ok reach {}", rule.reach());

    let events = [
        Event::new(&rule, 100).with(LEAK, &[7])?.with(LEAK, &[9])?,
        Event::new(&rule, 130).with(CLOSE, &[9])?,
        Event::new(&rule, 161).with(CLOSE, &[7])?,
        Event::new(&rule, 191).with(LEAK, &[9])?,
    ];
    let mut state = State::start(&rule)?;
    let mut buffer = [0; MAX_REPORT_WORDS];
    let mut events = events.iter().peekable();
    for now in 100..=320 {
        let report = match events.next_if(|event| event.time() == now) {
            Some(event) => state.take(event, &mut buffer)?,
            None if now.saturating_sub(state.latest()) >= MINUTE => state.notice(now, &mut buffer)?,
            None => continue,
        };
        for point in report {
            println!("point {} time {} rows {}", point.number(), point.time(), point.rows().len());
            for row in point.rows() {
                let values: Vec<String> = row.iter().map(u32::to_string).collect();
                println!("{}", values.join(" "));
            }
        }
    }
    println!("open {} kept {}", state.open_points()?, state.kept());
    Ok(())
}
