//! A row once more, its events given many in a call. They must come to what the same events come to one by one, which rows.rs holds
//! to the Rust.
use crate::input::{Row, What};
use crate::port::{self, Memory, Words};
use crate::tally::{Asked, Tally};
use original::answer::DONE;

const EVENT: usize = 64;

#[derive(Clone, PartialEq, Eq)]
struct Side {
    words: Words,
    memory: Memory,
}

struct Runs<'r> {
    row: &'r Row,
    one_by_one: Side,
    many: Side,
}

pub fn compare(row: &Row, tally: &mut Tally) -> Result<(), String> {
    let fresh = Side { words: port::start(row.declared, row.detect, row.promote), memory: Memory::new(row.held) };
    let mut runs = Runs { row, one_by_one: fresh.clone(), many: fresh };
    let mut run = vec![];
    for call in &row.calls {
        if let What::Event { bytes, times } = &call.what {
            // A record that is cut short can only be a call's last.
            if bytes.len() <= EVENT {
                (0..*times).for_each(|_| run.extend(bytes));
            }
            if bytes.len() == EVENT {
                continue;
            }
        }
        runs.events(&run, tally)?;
        run.clear();
        runs.other(&call.what);
    }
    runs.events(&run, tally)
}

impl Runs<'_> {
    /// Goes on behind an event that is refused.
    fn events(&mut self, mut run: &[u8], tally: &mut Tally) -> Result<(), String> {
        while !run.is_empty() {
            let expected = self.expected(run);
            let Side { words, memory } = &mut self.many;
            let answered = port::events(words, run, memory, self.row.held);
            tally.answered(Asked::Events, expected.0);
            if expected != answered {
                return Err(format!("events answered {answered:?}, not {expected:?}"));
            }
            if self.one_by_one != self.many {
                return Err("events left another state or other memory than event after event".into());
            }
            run = &run[(EVENT * (expected.1 + 1)).min(run.len())..];
        }
        Ok(())
    }

    fn expected(&mut self, run: &[u8]) -> (u8, usize) {
        let Side { words, memory } = &mut self.one_by_one;
        for (taken, event) in run.chunks(EVENT).enumerate() {
            let number = port::event(words, event, memory, self.row.held);
            if number != DONE {
                return (number, taken);
            }
        }
        (DONE, run.len() / EVENT)
    }

    fn other(&mut self, what: &What) {
        for Side { words, memory } in [&mut self.one_by_one, &mut self.many] {
            match what {
                What::Event { .. } => {}
                What::Property { column, kind, bits, text } => {
                    port::property(words, *column, *kind, *bits, text, memory, self.row.held);
                }
                What::Finish => {
                    port::finish(words, memory, self.row.held);
                }
                What::Next => {
                    port::next(words, memory, self.row.held);
                }
            }
        }
    }
}
