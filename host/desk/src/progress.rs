//! A bar on the terminal for walks that take long.

use indicatif::{ProgressBar, ProgressStyle};

/// How far a walk is. It is shown from some steps on, and gone when the walk ends.
pub struct Progress {
    name: &'static str,
    end: u64,
    steps: u64,
    bar: Option<ProgressBar>,
}

/// Steps between two looks.
const STRIDE: u64 = 1 << 17;

impl Progress {
    /// Of a walk to an end.
    pub fn new(name: &'static str, end: i64) -> Progress {
        Progress { name, end: end.max(0).unsigned_abs(), steps: 0, bar: None }
    }

    /// A step, and the place that it led to.
    pub fn step(&mut self, place: i64) {
        self.steps += 1;
        if self.steps.is_multiple_of(STRIDE) {
            let bar = self.bar.get_or_insert_with(|| bar(self.name, self.end));
            bar.set_position(place.max(0).unsigned_abs());
        }
    }
}

fn bar(name: &'static str, end: u64) -> ProgressBar {
    let style = ProgressStyle::with_template("{msg} {bar:40} {percent} %");
    let bar = ProgressBar::new(end).with_message(name);
    bar.with_style(style.unwrap_or_else(|_| ProgressStyle::default_bar()))
}

impl Drop for Progress {
    fn drop(&mut self) {
        if let Some(bar) = &self.bar {
            bar.finish_and_clear();
        }
    }
}

#[cfg(test)]
mod tests {
    use super::*;

    #[test]
    fn a_bar_is_for_long_walks() {
        let mut progress = Progress::new("walking", 10);
        (1..STRIDE as i64).for_each(|step| progress.step(step));
        assert!(progress.bar.is_none());
        progress.step(7);
        assert_eq!(progress.bar.as_ref().map(|bar| bar.position()), Some(7));
    }
}
