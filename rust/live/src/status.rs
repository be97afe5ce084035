//! What lldpa-live tells of itself and of its ports in answers to `live`.

pub type Values = Vec<(&'static str, String)>;

pub struct Status {
    pub own: Values,
    /// The values of each port, with its name.
    pub ports: Vec<(String, Values)>,
}

impl Status {
    /// Returns the lines of `live`, without those about neighbors.
    pub fn lines(&self) -> String {
        let own = self.own.iter().map(|(key, value)| format!("live.{key}={value}\n"));
        let of_port = |(port, values): &(String, Values)| -> String {
            values.iter().map(|(key, value)| format!("live.{port}.{key}={value}\n")).collect()
        };
        own.chain(self.ports.iter().map(of_port)).collect()
    }
}
