//! How counts are said: in degrees where a count has at most three decimals of one, else in counts. Always exactly. Relies on nothing.

/// Counts a degree, where they are known and give decimals.
#[derive(Clone, Copy, Debug, PartialEq, Eq)]
pub struct Units(Option<i64>);

impl Units {
    pub fn of(counts: Option<u64>) -> Units {
        Units(counts.filter(|r| 1_000 % r == 0).map(|r| r as i64))
    }

    pub fn has_degrees(&self) -> bool {
        self.0.is_some()
    }

    /// What a value is said in.
    pub fn name(&self) -> &'static str {
        if self.has_degrees() { "degrees" } else { "counts" }
    }

    /// A value without its unit.
    pub fn value(&self, count: i64) -> String {
        let Some(r) = self.0 else { return counts(count) };
        let decimals = (0..).find(|&decimals| 10_i64.pow(decimals) % r == 0).expect("a count has at most three decimals");
        let ten = 10_i64.pow(decimals);
        let parts = count.abs() * (ten / r);
        let sign = if count < 0 { "−" } else { "" };
        match decimals {
            0 => format!("{sign}{parts}"),
            _ => format!("{sign}{}.{:0width$}", parts / ten, parts % ten, width = decimals as usize),
        }
    }

    /// A value with its unit, of so many counts.
    pub fn words(&self, count: i64) -> String {
        let unit = match (self.0, count) {
            (Some(r), _) if r == count => "degree",
            (None, 1) => "count",
            _ => self.name(),
        };
        format!("{} {unit}", self.value(count))
    }
}

/// A count with the minus that figures have.
pub fn counts(count: i64) -> String {
    count.to_string().replace('-', "−")
}

#[cfg(test)]
mod tests {
    use super::Units;

    #[test]
    fn values_are_exact() {
        let said = |r, count| Units::of(r).words(count);
        assert_eq!(said(Some(100), 2_001), "20.01 degrees");
        assert_eq!(said(Some(100), -5), "−0.05 degrees");
        assert_eq!(said(Some(10), 10), "1.0 degree");
        assert_eq!(said(Some(8), 3), "0.375 degrees");
        assert_eq!(said(Some(1), -20), "−20 degrees");
        assert_eq!(said(Some(3), 60), "60 counts");
        assert_eq!(said(None, 1), "1 count");
    }
}
