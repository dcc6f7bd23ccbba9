//! A bar on a terminal, from the first second on.

use crate::numbers::grouped;
use indicatif::{ProgressBar, ProgressStyle};
use std::time::{Duration, Instant};

pub struct Progress {
    started: Instant,
    steps: u64,
    bar: Option<ProgressBar>,
}

impl Progress {
    pub fn new(steps: u64) -> Progress {
        Progress { started: Instant::now(), steps, bar: None }
    }

    pub fn at(&mut self, steps: u64) {
        let elapsed = self.started.elapsed();
        if elapsed < Duration::from_secs(1) {
            return;
        }
        let bar = self.bar.get_or_insert_with(|| bar(self.steps));
        let rate = steps as f64 / elapsed.as_secs_f64();
        let left = (self.steps - steps) as f64 / rate;
        bar.set_message(format!(
            "{} of {} steps, {:.0} million a second, {left:.0} s left",
            grouped(steps),
            grouped(self.steps),
            rate / 1e6
        ));
        bar.set_position(steps);
    }

    pub fn end(&mut self) {
        if let Some(bar) = self.bar.take() {
            bar.finish_and_clear();
        }
    }
}

fn bar(steps: u64) -> ProgressBar {
    let style = ProgressStyle::with_template("{wide_bar} {msg}").unwrap_or(ProgressStyle::default_bar());
    ProgressBar::new(steps).with_style(style)
}
