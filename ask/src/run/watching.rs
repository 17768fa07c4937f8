//! Reading again and again.
use super::Run;
use crate::failure::Failure;
use crate::told::Item;
use crate::values::Value;
use cruachvel::VariableNumber;
use std::thread::sleep;
use std::time::{Duration, Instant, SystemTime, UNIX_EPOCH};
use suite::whatif::json;

impl Run<'_> {
    // Goes on after a round that failed, and ends with the status of the last such one.
    pub(super) fn watch(&mut self, variables: &[usize]) -> Result<(), Failure> {
        let every = self.options.every.unwrap_or(Duration::from_secs(1));
        let start = Instant::now();
        let (mut rounds, mut failed, mut status) = (0, 0, 0);
        let mut due = start;
        loop {
            let at = start.elapsed();
            if let Err(failure) = self.round(variables, at) {
                if matches!(
                    failure,
                    Failure::Broken(_) | Failure::Unread | Failure::Misused(_)
                ) {
                    return Err(failure);
                }
                self.teller.failed(&failure)?;
                self.teller.note(&failure.message());
                failed += 1;
                status = failure.status();
            }
            rounds += 1;
            if self.options.count == Some(rounds) {
                break;
            }
            // Rounds that would come too late are left out.
            due = (due + every).max(Instant::now());
            sleep(due.saturating_duration_since(Instant::now()));
        }
        match failed {
            0 => Ok(()),
            _ => Err(Failure::Rounds {
                failed,
                rounds,
                status,
            }),
        }
    }

    fn round(&mut self, variables: &[usize], at: Duration) -> Result<(), Failure> {
        let now = SystemTime::now().duration_since(UNIX_EPOCH);
        let now = now.unwrap_or_default();
        let mut values = Vec::new();
        for variable in variables {
            values.push(self.value(VariableNumber(*variable))?);
        }
        let word = |value: &Value| format!("{}: {}", value.variable.0, value.short());
        let words: Vec<String> = values.iter().map(word).collect();
        let short: Vec<String> = values.iter().map(Value::short).collect();
        let objects = values.iter().map(|value| json::object(value.facts()));
        self.teller.tell(Item {
            text: format!("{:>9.3} s  {}", at.as_secs_f64(), words.join("  ")),
            value: Some(short.join(" ")),
            facts: vec![
                ("time", format!("{:.3}", now.as_secs_f64())),
                ("values", json::array(objects)),
            ],
        })
    }
}
