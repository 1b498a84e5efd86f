//! Logarithmic axes: where a value lies, and where the ticks are.

use crate::check::number::grouped;

pub struct Scale {
    /// Decimal logarithms.
    low: f64,
    high: f64,
    /// Where they lie.
    from: f64,
    to: f64,
}

#[derive(Debug, PartialEq)]
pub struct Tick {
    pub at: f64,
    pub label: String,
}

/// An axis spans at least so much of a decade, in which there are two ticks or more.
const LEAST_SPAN: f64 = 0.5;
/// Room on each side, as a part of what the values span.
const ROOM: f64 = 0.06;

/// Ticks of a decade: the first of these that gives enough.
const MULTIPLES: [&[u32]; 3] = [&[1], &[1, 2, 5], &[1, 2, 3, 4, 5, 6, 7, 8, 9]];
const ENOUGH: usize = 3;

fn label(multiple: u32, exponent: i32) -> String {
    if exponent >= 0 {
        grouped(multiple as usize * 10usize.pow(exponent as u32))
    } else {
        let decimals = exponent.unsigned_abs() as usize;
        format!("{:.decimals$}", f64::from(multiple) * 10f64.powi(exponent))
    }
}

impl Scale {
    /// Over values above 0, from one place to another.
    pub fn over(values: impl Iterator<Item = f64>, from: f64, to: f64) -> Scale {
        let (low, high) = values
            .map(f64::log10)
            .fold((f64::MAX, f64::MIN), |(low, high), value| (low.min(value), high.max(value)));
        let span = high - low;
        let room = (span * ROOM).max((LEAST_SPAN - span) / 2.0);
        Scale { low: low - room, high: high + room, from, to }
    }

    pub fn at(&self, value: f64) -> f64 {
        let part = (value.log10() - self.low) / (self.high - self.low);
        self.from + part * (self.to - self.from)
    }

    fn tick(&self, multiple: u32, exponent: i32) -> Option<Tick> {
        let value = f64::from(multiple) * 10f64.powi(exponent);
        let inside = (self.low..=self.high).contains(&value.log10());
        inside.then(|| Tick { at: self.at(value), label: label(multiple, exponent) })
    }

    fn ticks_of(&self, multiples: &[u32]) -> Vec<Tick> {
        let decades = self.low.floor() as i32..=self.high.floor() as i32;
        let all = decades.flat_map(|exponent| multiples.iter().map(move |&m| (m, exponent)));
        all.filter_map(|(multiple, exponent)| self.tick(multiple, exponent)).collect()
    }

    pub fn ticks(&self) -> Vec<Tick> {
        let choices = MULTIPLES.map(|multiples| self.ticks_of(multiples));
        let last = choices.len() - 1;
        let enough = choices.iter().position(|ticks| ticks.len() >= ENOUGH).unwrap_or(last);
        choices.into_iter().nth(enough).expect("one of the choices")
    }
}

#[cfg(test)]
mod tests {
    use super::*;

    fn labels(values: &[f64]) -> Vec<String> {
        let scale = Scale::over(values.iter().copied(), 0.0, 100.0);
        scale.ticks().into_iter().map(|tick| tick.label).collect()
    }

    #[test]
    fn places() {
        let scale = Scale { low: 0.0, high: 2.0, from: 300.0, to: 100.0 };
        assert_eq!([1.0, 10.0, 100.0].map(|value| scale.at(value)), [300.0, 200.0, 100.0]);
        let wanted = [("1", 300.0), ("10", 200.0), ("100", 100.0)];
        let wanted = wanted.map(|(label, at)| Tick { at, label: label.to_string() });
        assert_eq!(scale.ticks(), wanted);
    }

    #[test]
    fn decades_and_parts_of_decades() {
        assert_eq!(labels(&[1.0, 1024.0]), ["1", "10", "100", "1,000"]);
        assert_eq!(labels(&[0.02, 3.0]), ["0.02", "0.05", "0.1", "0.2", "0.5", "1", "2"]);
        assert_eq!(labels(&[0.003, 3.0]), ["0.01", "0.1", "1"]);
        assert_eq!(labels(&[1.0, 2.0]), ["0.8", "0.9", "1", "2"]);
    }

    /// One value has room on both sides, and ticks beside it.
    #[test]
    fn one_value() {
        for value in [0.3, 9.9, 10.1, 4096.0] {
            let scale = Scale::over([value].into_iter(), 0.0, 100.0);
            assert!((scale.at(value) - 50.0).abs() < 1e-6);
            assert!(scale.ticks().len() >= 2, "{value}");
        }
    }

    #[test]
    fn values_and_ticks_are_inside() {
        let scale = Scale::over([5.0, 70_000.0].into_iter(), 10.0, 20.0);
        let values = [5.0, 70_000.0].map(|value| scale.at(value));
        let ticks = scale.ticks().into_iter().map(|tick| tick.at);
        assert!(ticks.chain(values).all(|at| (10.0..=20.0).contains(&at)));
    }
}
