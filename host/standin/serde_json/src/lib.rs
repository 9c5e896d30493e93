//! Stand-in for `serde_json`: one value, Null. Only raw operations, which
//! document 01 leaves out, would make others.

#[derive(Debug, Clone, PartialEq, Eq)]
pub enum Value {
    Null,
}

/// A map that nothing can be in; it only lets the raw operations compile.
#[derive(Debug)]
pub struct Map;

impl Map {
    pub fn insert(&mut self, _key: String, _value: Value) {}

    pub fn contains_key(&self, _key: &str) -> bool {
        false
    }
}

impl Value {
    pub fn as_object_mut(&mut self) -> Option<&mut Map> {
        None
    }
}

impl From<u64> for Value {
    fn from(_number: u64) -> Self {
        Self::Null
    }
}

#[macro_export]
macro_rules! json {
    ($($token:tt)*) => {
        $crate::Value::Null
    };
}
