//! Lent memory, with bytes on either side that must stay as they were.

/// Bytes on either side.
const MARGIN: usize = 64;

fn pattern(place: usize) -> u8 {
    (place * 37 + 11) as u8
}

/// What is lent, and the bytes on either side.
#[derive(Clone, Debug, PartialEq, Eq)]
pub struct Guarded(Vec<u8>);

impl Guarded {
    /// So many bytes that nothing was written to.
    pub fn new(length: usize) -> Self {
        Guarded((0..length + 2 * MARGIN).map(pattern).collect())
    }

    /// Memory that holds these bytes.
    pub fn holding(bytes: &[u8]) -> Self {
        Guarded::new(bytes.len()).starting(bytes)
    }

    /// The same, but what is lent starts with these bytes.
    pub fn starting(mut self, bytes: &[u8]) -> Self {
        self.lent()[..bytes.len()].copy_from_slice(bytes);
        self
    }

    pub fn lent(&mut self) -> &mut [u8] {
        let end = self.0.len() - MARGIN;
        &mut self.0[MARGIN..end]
    }

    pub fn bytes(&self) -> &[u8] {
        &self.0[MARGIN..self.0.len() - MARGIN]
    }
}
