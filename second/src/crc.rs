//! CRC-32 as zlib has it.

const TABLE: [u32; 256] = table();

const fn table() -> [u32; 256] {
    let mut all = [0; 256];
    let mut i = 0;
    while i < 256 {
        let mut value = i as u32;
        let mut bit = 0;
        while bit < 8 {
            value = if value & 1 == 1 { 0xEDB8_8320 ^ (value >> 1) } else { value >> 1 };
            bit += 1;
        }
        all[i] = value;
        i += 1;
    }
    all
}

#[derive(Clone, Copy)]
pub struct Crc(u32);

impl Crc {
    pub fn new() -> Crc {
        Crc(u32::MAX)
    }

    pub fn byte(&mut self, byte: u8) {
        let low = self.0.to_le_bytes()[0];
        self.0 = TABLE[usize::from(low ^ byte)] ^ (self.0 >> 8);
    }

    pub fn bytes(&mut self, bytes: &[u8]) {
        bytes.iter().for_each(|&byte| self.byte(byte));
    }

    pub fn value(self) -> u32 {
        !self.0
    }
}

#[cfg(test)]
mod tests {
    use super::*;

    #[test]
    fn the_known_check_value() {
        let mut crc = Crc::new();
        crc.bytes(b"123456789");
        assert_eq!(crc.value(), 0xCBF4_3926);
        assert_eq!(Crc::new().value(), 0);
    }
}
