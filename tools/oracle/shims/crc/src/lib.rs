//! Stand-in for crc 3: CRC-32C only, one byte at a time. Same results, slower.
pub struct Table<const L: usize>;
pub struct Algorithm {
    pub poly_reflected: u32,
}
pub const CRC_32_ISCSI: Algorithm = Algorithm { poly_reflected: 0x82F6_3B78 };
pub struct Crc<W, I> {
    table: [u32; 256],
    p: core::marker::PhantomData<(W, I)>,
}
pub struct Digest<'a> {
    table: &'a [u32; 256],
    v: u32,
}
impl<const L: usize> Crc<u32, Table<L>> {
    pub const fn new(a: &Algorithm) -> Self {
        let mut table = [0u32; 256];
        let mut i = 0;
        while i < 256 {
            let mut c = i as u32;
            let mut k = 0;
            while k < 8 {
                c = if c & 1 == 1 { (c >> 1) ^ a.poly_reflected } else { c >> 1 };
                k += 1;
            }
            table[i] = c;
            i += 1;
        }
        Crc { table, p: core::marker::PhantomData }
    }
    pub const fn digest(&self) -> Digest<'_> {
        Digest { table: &self.table, v: !0 }
    }
}
impl Digest<'_> {
    pub fn update(&mut self, b: &[u8]) {
        for x in b {
            self.v = (self.v >> 8) ^ self.table[((self.v ^ *x as u32) & 0xff) as usize];
        }
    }
    pub fn finalize(self) -> u32 {
        !self.v
    }
}
