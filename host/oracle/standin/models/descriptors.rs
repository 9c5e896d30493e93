//! Stand-in for descriptors: configuration commands are left out.

#[derive(Clone, Copy)]
pub struct DescriptorRequest {
    pub length: u16,
}

pub enum DescriptorSummary {
    Configuration { total_length: u16 },
    Other,
}

pub struct DescriptorRead {
    pub parsed: Option<DescriptorSummary>,
    pub bytes: Vec<u8>,
}

impl DescriptorRead {
    pub fn from_bytes(_request: DescriptorRequest, bytes: Vec<u8>) -> Self {
        Self {
            parsed: None,
            bytes,
        }
    }

    pub fn complete_configuration_value(&self) -> Option<u8> {
        None
    }
}

pub fn validate_configuration(_bytes: &[u8]) -> Result<(), String> {
    Ok(())
}
