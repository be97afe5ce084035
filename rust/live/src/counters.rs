//! The counters of a port since lldpa-live began. An agent counts from 0, and also what rebuilds the
//! tables of the agent that it replaces; people are shown neither.

/// The key and the number of each counter of a port, in the order of `show statistics`.
pub type Numbers = Vec<(String, u32)>;

fn of(numbers: &[(String, u32)], key: &str) -> u32 {
    numbers.iter().find(|(one, _)| one == key).map_or(0, |(_, number)| *number)
}

#[derive(Clone, Debug, Default)]
pub struct Counters {
    /// What earlier agents have counted, less what this agent had counted once it was rebuilt.
    before: Numbers,
}

impl Counters {
    /// Returns the totals. `numbers` has the present counters of the agent.
    pub fn total(&self, numbers: &[(String, u32)]) -> Numbers {
        let total = |(key, number): &(String, u32)| (key.clone(), number.wrapping_add(of(&self.before, key)));
        numbers.iter().map(total).collect()
    }

    /// Begins at these totals, or else at 0. `first` has the counters of the agent, which was just rebuilt.
    pub fn begin(&mut self, totals: Option<&Numbers>, first: &[(String, u32)]) {
        *self = Counters::default();
        self.go_on(totals.map_or(&[], |totals| totals), first);
    }

    /// Goes on with another agent. `last` has the counters of the agent before, none of which a new
    /// port has, and `first` those of the new agent, which was just rebuilt.
    pub fn go_on(&mut self, last: &[(String, u32)], first: &[(String, u32)]) {
        let total = self.total(last);
        let before = |(key, first): &(String, u32)| (key.clone(), of(&total, key).wrapping_sub(*first));
        self.before = first.iter().map(before).collect();
    }
}

/// The totals of a port.
pub struct Totals {
    pub port: String,
    pub numbers: Numbers,
}

impl Totals {
    /// Returns the lines of `show statistics` about the port.
    pub fn lines(&self) -> String {
        let line = |(key, number): &(String, u32)| format!("lldp.{}.{key}={number}\n", self.port);
        self.numbers.iter().map(line).collect()
    }
}

#[cfg(test)]
mod tests {
    use super::*;

    fn numbers(received: u32, drops: u32) -> Numbers {
        vec![("received".into(), received), ("drops".into(), drops)]
    }

    #[test]
    fn totals_leave_out_what_rebuilds_a_table() {
        let mut counters = Counters::default();
        counters.begin(Some(&numbers(7, 2)), &numbers(4, 1)); // a restored state
        assert_eq!(counters.total(&numbers(5, 1)), numbers(8, 2));
        counters.begin(None, &numbers(4, 1)); // without counters
        assert_eq!(counters.total(&numbers(4, 1)), numbers(0, 0));
        assert_eq!(counters.total(&numbers(10, 1)), numbers(6, 0));
        counters.go_on(&numbers(10, 1), &numbers(3, 9));
        assert_eq!(counters.total(&numbers(3, 9)), numbers(6, 0));
        assert_eq!(counters.total(&numbers(5, 9)), numbers(8, 0));
        counters.go_on(&numbers(u32::MAX, 9), &numbers(0, 0));
        assert_eq!(counters.total(&numbers(0, 2)), numbers(2, 2));
    }
}
