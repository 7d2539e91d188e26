//! The three scales (docs/BOOK.md, "Scales").

#[derive(Clone, Copy, Debug, PartialEq, Eq)]
pub enum Scale {
    Total,
    Worst,
    Tally,
}

pub const SCALES: [Scale; 3] = [Scale::Total, Scale::Worst, Scale::Tally];

/// A value of a scale. Only `Tally` counts; on the other scales the count is 0, so that values compare by `total`.
#[derive(Clone, Copy, Debug, PartialEq, Eq, PartialOrd, Ord)]
pub struct Value {
    pub count: u16,
    pub total: u32,
}

pub const ZERO: Value = Value { count: 0, total: 0 };

impl Scale {
    pub fn weight(self, cost: u32) -> Value {
        match self {
            Scale::Total | Scale::Worst => Value { count: 0, total: cost },
            Scale::Tally => Value { count: 1, total: cost },
        }
    }

    pub fn join(self, a: Value, b: Value) -> Value {
        match self {
            Scale::Total => Value { count: 0, total: a.total.saturating_add(b.total) },
            Scale::Worst => Value { count: 0, total: a.total.max(b.total) },
            Scale::Tally => match a.count.checked_add(b.count) {
                Some(count) => Value { count, total: a.total.saturating_add(b.total) },
                None => Value { count: u16::MAX, total: u32::MAX },
            },
        }
    }

    pub fn named(name: &str) -> Option<Scale> {
        SCALES.into_iter().find(|scale| scale.name() == name)
    }

    pub fn name(self) -> &'static str {
        match self {
            Scale::Total => "total",
            Scale::Worst => "worst",
            Scale::Tally => "tally",
        }
    }

    /// A value as orders and answers write it: a number, by tally COUNT:TOTAL.
    pub fn show(self, value: Value) -> String {
        match self {
            Scale::Total | Scale::Worst => value.total.to_string(),
            Scale::Tally => format!("{}:{}", value.count, value.total),
        }
    }

    pub fn read(self, text: &str) -> Option<Value> {
        match self {
            Scale::Total | Scale::Worst => Some(Value { count: 0, total: text.parse().ok()? }),
            Scale::Tally => {
                let (count, total) = text.split_once(':')?;
                Some(Value { count: count.parse().ok()?, total: total.parse().ok()? })
            }
        }
    }
}
