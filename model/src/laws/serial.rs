//! The committed transactions, run alone one after another from zeros.

use super::{Broken, Event, Law};
use std::collections::BTreeMap;

#[derive(Clone, Copy)]
enum Deed {
    Read { item: u16, value: i32 },
    Write { item: u16, value: i32 },
}

pub(super) struct Serial {
    /// What each open transaction did, in order.
    deeds: BTreeMap<u16, Vec<Deed>>,
    values: BTreeMap<u16, i32>,
}

impl Serial {
    pub fn new() -> Serial {
        Serial {
            deeds: BTreeMap::new(),
            values: BTreeMap::new(),
        }
    }

    pub fn take(&mut self, event: Event) -> Result<(), Broken> {
        match event {
            Event::Read { t, item, value, .. } => self.add(t, Deed::Read { item, value }),
            Event::Write { t, item, value } => self.add(t, Deed::Write { item, value }),
            Event::Abort { t } => {
                self.deeds.remove(&t);
            }
            Event::Commit { t } => {
                let deeds = self.deeds.remove(&t).unwrap_or_default();
                return deeds.into_iter().try_for_each(|deed| self.run(t, deed));
            }
        }
        Ok(())
    }

    fn add(&mut self, t: u16, deed: Deed) {
        self.deeds.entry(t).or_default().push(deed);
    }

    fn run(&mut self, t: u16, deed: Deed) -> Result<(), Broken> {
        match deed {
            Deed::Write { item, value } => {
                self.values.insert(item, value);
            }
            Deed::Read { item, value } => {
                let found = self.values.get(&item).copied().unwrap_or(0);
                if found != value {
                    let reason = format!(
                        "{t} was answered {value} in item {item}, and finds {found} if run alone"
                    );
                    return Err((Law::SerialReads, reason));
                }
            }
        }
        Ok(())
    }

    /// Are these the values left, each once, and all others 0?
    pub fn leaves(&self, said: &[(u16, i32)]) -> Result<(), Broken> {
        let broken = |reason| Err((Law::SerialValues, reason));
        let mut left = self.values.clone();
        left.retain(|_, value| *value != 0);
        for &(item, value) in said {
            match left.remove(&item) {
                Some(found) if found == value => {}
                found => {
                    return broken(format!(
                        "item {item} is said to hold {value}, the serial run leaves {found:?}"
                    ))
                }
            }
        }
        match left.first_key_value() {
            Some((item, value)) => broken(format!(
                "the serial run leaves {value} in item {item}, of which nothing is said"
            )),
            None => Ok(()),
        }
    }
}
