//! The crate `object` 0.37.3 with what the six files expect of a newer one: `Endian::read_u32` on bytes.
pub use object_0_37::*;

pub trait Endian: Copy {
    fn read_u32(self, bytes: [u8; 4]) -> u32;
}

impl<T: object_0_37::Endian> Endian for T {
    fn read_u32(self, bytes: [u8; 4]) -> u32 {
        self.read_u32_bytes(bytes)
    }
}
