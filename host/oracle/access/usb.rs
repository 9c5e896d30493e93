// Brought into `services/usb.rs` by the serde stand-in.
impl<B: DeviceBackend> UsbSession<B> {
    pub(crate) fn set_ports(&mut self, ports: Option<Ports>) {
        self.ports = ports;
    }

    pub(crate) fn ports(&self) -> Option<&Ports> {
        self.ports.as_ref()
    }

    pub(crate) fn set_port(
        &mut self,
        number: u8,
        generation: u64,
        reading: Option<u32>,
    ) -> Result<(), OperationError> {
        self.ports
            .as_mut()
            .ok_or_else(|| OperationError::validation("ports not initialized"))?
            .set_row(number, generation, reading)
    }

    pub(crate) fn set_device(&mut self, device: DeviceSnapshot) {
        self.devices.insert(device.id.slot, device);
    }
}
