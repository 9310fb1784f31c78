//! Names that stand on a page once each: ids, of which a refused plan could give one twice.

use std::collections::BTreeMap;

#[derive(Default)]
pub struct Once(BTreeMap<String, usize>);

impl Once {
    /// The name itself the first time, then with a number behind it.
    pub fn name(&mut self, name: String) -> String {
        let count = self.0.entry(name.clone()).or_default();
        *count += 1;
        match *count {
            1 => name,
            again => format!("{name}-{again}"),
        }
    }
}
