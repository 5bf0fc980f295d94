//! Stand-in for bytes 1: what sctp-proto's receive path names, on Arc<[u8]> and Vec<u8>.
use std::ops::{Bound, Deref, DerefMut, RangeBounds};
use std::sync::Arc;
use std::sync::atomic::AtomicBool;

#[derive(Clone)]
enum Store {
    Static(&'static [u8]),
    Shared(Arc<[u8]>),
}

/// The real Bytes holds an atomic pointer. Rust's sort goes by that: where a type has an atomic in it a comparison that is no total order was never
/// seen to panic, and without one it was. So this one holds an atomic too; nothing reads it.
struct Cell {
    _atomic: AtomicBool,
}
impl Cell {
    const fn new() -> Self {
        Cell { _atomic: AtomicBool::new(false) }
    }
}
impl Clone for Cell {
    fn clone(&self) -> Self {
        Self::new()
    }
}

#[derive(Clone)]
pub struct Bytes {
    s: Store,
    from: usize,
    to: usize,
    _cell: Cell,
}
impl Bytes {
    pub const fn new() -> Self {
        Self::from_static(&[])
    }
    pub const fn from_static(b: &'static [u8]) -> Self {
        Bytes { s: Store::Static(b), from: 0, to: b.len(), _cell: Cell::new() }
    }
    pub fn copy_from_slice(b: &[u8]) -> Self {
        b.to_vec().into()
    }
    pub fn slice(&self, r: impl RangeBounds<usize>) -> Self {
        let a = match r.start_bound() {
            Bound::Included(n) => *n,
            Bound::Excluded(n) => n + 1,
            Bound::Unbounded => 0,
        };
        let b = match r.end_bound() {
            Bound::Included(n) => n + 1,
            Bound::Excluded(n) => *n,
            Bound::Unbounded => self.len(),
        };
        assert!(a <= b, "range start must not be greater than end: {a:?} <= {b:?}");
        assert!(b <= self.len(), "range end out of bounds: {b:?} <= {:?}", self.len());
        Bytes { s: self.s.clone(), from: self.from + a, to: self.from + b, _cell: Cell::new() }
    }
    pub fn split_to(&mut self, at: usize) -> Self {
        let h = self.slice(..at);
        self.from += at;
        h
    }
    pub fn clear(&mut self) {
        self.to = self.from
    }
}
impl Deref for Bytes {
    type Target = [u8];
    fn deref(&self) -> &[u8] {
        match &self.s {
            Store::Static(b) => &b[self.from..self.to],
            Store::Shared(b) => &b[self.from..self.to],
        }
    }
}
impl AsRef<[u8]> for Bytes {
    fn as_ref(&self) -> &[u8] {
        self
    }
}
impl Default for Bytes {
    fn default() -> Self {
        Self::new()
    }
}
impl From<Vec<u8>> for Bytes {
    fn from(v: Vec<u8>) -> Self {
        let to = v.len();
        Bytes { s: Store::Shared(v.into()), from: 0, to, _cell: Cell::new() }
    }
}
impl std::fmt::Debug for Bytes {
    fn fmt(&self, f: &mut std::fmt::Formatter<'_>) -> std::fmt::Result {
        write!(f, "{:?}", &self[..])
    }
}
impl PartialEq for Bytes {
    fn eq(&self, o: &Self) -> bool {
        self[..] == o[..]
    }
}
impl Eq for Bytes {}
impl IntoIterator for Bytes {
    type Item = u8;
    type IntoIter = std::vec::IntoIter<u8>;
    fn into_iter(self) -> Self::IntoIter {
        Vec::from(&self[..]).into_iter()
    }
}

#[derive(Default, Debug, Clone)]
pub struct BytesMut(Vec<u8>);
impl BytesMut {
    pub fn new() -> Self {
        Self::default()
    }
    pub fn with_capacity(n: usize) -> Self {
        BytesMut(Vec::with_capacity(n))
    }
    pub fn resize(&mut self, n: usize, v: u8) {
        self.0.resize(n, v)
    }
    pub fn extend_from_slice(&mut self, b: &[u8]) {
        self.0.extend_from_slice(b)
    }
    pub fn freeze(self) -> Bytes {
        self.0.into()
    }
}
impl Deref for BytesMut {
    type Target = [u8];
    fn deref(&self) -> &[u8] {
        &self.0
    }
}
impl DerefMut for BytesMut {
    fn deref_mut(&mut self) -> &mut [u8] {
        &mut self.0
    }
}
impl AsMut<[u8]> for BytesMut {
    fn as_mut(&mut self) -> &mut [u8] {
        &mut self.0
    }
}
impl Extend<u8> for BytesMut {
    fn extend<T: IntoIterator<Item = u8>>(&mut self, t: T) {
        self.0.extend(t)
    }
}

pub trait Buf {
    fn remaining(&self) -> usize;
    fn has_remaining(&self) -> bool {
        self.remaining() > 0
    }
    fn advance(&mut self, n: usize);
    fn take_n<const N: usize>(&mut self) -> [u8; N];
    fn get_u8(&mut self) -> u8 {
        self.take_n::<1>()[0]
    }
    fn get_u16(&mut self) -> u16 {
        u16::from_be_bytes(self.take_n())
    }
    fn get_u32(&mut self) -> u32 {
        u32::from_be_bytes(self.take_n())
    }
    fn get_u32_le(&mut self) -> u32 {
        u32::from_le_bytes(self.take_n())
    }
}
impl Buf for Bytes {
    fn remaining(&self) -> usize {
        self.len()
    }
    fn advance(&mut self, n: usize) {
        assert!(n <= self.len());
        self.from += n
    }
    fn take_n<const N: usize>(&mut self) -> [u8; N] {
        let r = self[..N].try_into().unwrap();
        self.from += N;
        r
    }
}
pub trait BufMut {
    fn put_slice(&mut self, b: &[u8]);
    fn put_u8(&mut self, v: u8) {
        self.put_slice(&[v])
    }
    fn put_u16(&mut self, v: u16) {
        self.put_slice(&v.to_be_bytes())
    }
    fn put_u32(&mut self, v: u32) {
        self.put_slice(&v.to_be_bytes())
    }
}
impl BufMut for BytesMut {
    fn put_slice(&mut self, b: &[u8]) {
        self.0.extend_from_slice(b)
    }
}
