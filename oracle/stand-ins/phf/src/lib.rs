//! Stand-in for phf's map from names: looked up only by the parser, so a list will do.
pub struct Map<K: 'static, V: 'static> {
    pub entries: &'static [(K, V)],
}

impl<V> Map<&'static str, V> {
    pub fn get(&self, key: &str) -> Option<&V> {
        self.entries.iter().find(|(k, _)| *k == key).map(|(_, v)| v)
    }

    pub fn contains_key(&self, key: &str) -> bool {
        self.get(key).is_some()
    }
}

#[macro_export]
macro_rules! phf_map {
    ($($key:expr => $value:expr),* $(,)?) => {
        $crate::Map { entries: &[$(($key, $value)),*] }
    };
}
