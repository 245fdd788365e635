//! Fields packed by bits, most significant first.

/// Bytes under way, with how many bits of the last one are used.
#[derive(Default)]
pub struct BitWriter {
    bytes: Vec<u8>,
    used: u32,
}

impl BitWriter {
    /// Appends the low `width` bits of `value`, most significant first.
    pub fn write(&mut self, value: u64, width: u32) {
        assert!(width == 64 || value >> width == 0, "{value} does not fit {width} bits");
        for place in (0..width).rev() {
            self.push(value >> place & 1 == 1);
        }
    }

    /// The bytes, zero bits up to a whole one.
    pub fn finish(self) -> Vec<u8> {
        self.bytes
    }

    fn push(&mut self, bit: bool) {
        if self.used == 0 {
            self.bytes.push(0);
        }
        if bit {
            *self.bytes.last_mut().expect("a byte under way") |= 0x80 >> self.used;
        }
        self.used = (self.used + 1) % 8;
    }
}
