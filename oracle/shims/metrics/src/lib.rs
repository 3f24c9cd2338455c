//! Stands in for metrics: counters and gauges that count nothing.

pub struct Metric;

impl Metric {
    pub fn increment(&self, _by: u64) {}
    pub fn set(&self, _to: impl Into<f64>) {}
}

#[macro_export]
macro_rules! counter {
    ($name:expr $(, $label:expr => $value:expr)* $(,)?) => {{
        let _ = ($name, $(($label, $value),)*);
        $crate::Metric
    }};
}

#[macro_export]
macro_rules! gauge {
    ($($all:tt)*) => { $crate::counter!($($all)*) };
}
