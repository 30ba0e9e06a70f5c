//! What is lent to the one under test, with bytes around it that show whether it
//! keeps to that.

/// Bytes kept on both sides; nobody may touch them.
const MARGIN: usize = 64;
const MARGIN_BYTE: u8 = 0xA5;

/// A memory or a map of the one under test, between its margins.
pub struct Arena {
    bytes: Vec<u8>,
    start: usize,
}

impl Arena {
    /// It starts at any byte, aligned or not.
    pub fn new(memory: &[u8], shift: usize) -> Self {
        let start = MARGIN + shift;
        let mut bytes = vec![MARGIN_BYTE; start + memory.len() + MARGIN];
        bytes[start..start + memory.len()].copy_from_slice(memory);
        Arena { bytes, start }
    }

    /// Where the memory starts, counted from the margin's end.
    pub fn shift(&self) -> usize {
        self.start - MARGIN
    }

    fn end(&self) -> usize {
        self.bytes.len() - MARGIN
    }

    pub fn memory(&self) -> &[u8] {
        &self.bytes[self.start..self.end()]
    }

    pub fn lend(&mut self, length: usize) -> &mut [u8] {
        &mut self.bytes[self.start..][..length]
    }

    fn margins_stand(&self) -> bool {
        let before = &self.bytes[..self.start];
        let behind = &self.bytes[self.end()..];
        before.iter().chain(behind).all(|&b| b == MARGIN_BYTE)
    }

    /// What is wrong with the bytes, and with those around them.
    pub fn differences(&self, name: &str, wanted: &[u8]) -> Vec<String> {
        let mut why: Vec<String> = unlike(name, wanted, self.memory()).into_iter().collect();
        if !self.margins_stand() {
            why.push(format!("bytes beside the {name} were written"));
        }
        why
    }
}

/// Where two memories or maps of one length differ.
pub fn unlike(name: &str, wanted: &[u8], came: &[u8]) -> Option<String> {
    if wanted == came {
        return None;
    }
    let differs = |&at: &usize| wanted[at] != came[at];
    let at = (0..wanted.len()).find(differs)?;
    let count = (at..wanted.len()).filter(differs).count();
    let (wanted, came) = (wanted[at], came[at]);
    let first = format!("at offset {at:#x}: expected {wanted:#04x}, came {came:#04x}");
    Some(format!(
        "bytes of the {name} differ: {count}, the first {first}"
    ))
}
