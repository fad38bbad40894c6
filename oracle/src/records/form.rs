//! A record, field by field, each of which may say anything.

/// Bytes of the header.
pub const HEADER: usize = 20;

/// The largest order that the program takes.
pub const MOST: u16 = 32;

#[derive(Clone)]
pub struct Record {
    /// Bytes behind this field.
    pub length: u32,
    pub kind: u16,
    pub order: u16,
    pub budget: u32,
    /// The pattern of an f64.
    pub tolerance: u64,
    /// All that stands behind the header.
    pub rest: Vec<u8>,
}

impl Record {
    /// A record in which all lengths fit. The entries stand column by column.
    pub fn new(order: usize, budget: u32, tolerance: f64, entries: &[f64]) -> Record {
        Record {
            length: right_length(order as u16) as u32,
            kind: 1,
            order: order as u16,
            budget,
            tolerance: tolerance.to_bits(),
            rest: manulsek::bytes::of(entries).to_vec(),
        }
    }

    pub fn bytes(&self) -> Vec<u8> {
        let mut bytes = self.length.to_le_bytes().to_vec();
        bytes.extend(self.kind.to_le_bytes());
        bytes.extend(self.order.to_le_bytes());
        bytes.extend(self.budget.to_le_bytes());
        bytes.extend(self.tolerance.to_le_bytes());
        bytes.extend(&self.rest);
        bytes
    }

    /// What the first bytes say, and the others; none if there are less than a header has.
    pub fn read(bytes: &[u8]) -> Option<Record> {
        let (header, rest) = bytes.split_at_checked(HEADER)?;
        let field = |from: usize, to: usize| {
            let digits = header[from..to].iter().rev();
            digits.fold(0, |number, &digit| number << 8 | u64::from(digit))
        };
        Some(Record {
            length: field(0, 4) as u32,
            kind: field(4, 6) as u16,
            order: field(6, 8) as u16,
            budget: field(8, 12) as u32,
            tolerance: field(12, 20),
            rest: rest.to_vec(),
        })
    }

    /// The numbers that the rest holds, as far as it goes.
    pub fn entries(&self) -> Vec<f64> {
        let eight = |bytes: &[u8]| f64::from_le_bytes(bytes.try_into().expect("eight bytes"));
        self.rest.chunks_exact(8).map(eight).collect()
    }
}

/// What the length field has to say at an order. Of large orders it does not fit the field.
pub fn right_length(order: u16) -> u64 {
    16 + 8 * u64::from(order) * u64::from(order)
}

#[cfg(test)]
mod tests {
    use super::*;

    /// The bytes of document 01's sample, written down by hand.
    #[test]
    fn fields_stand_where_document_01_has_them() {
        let sample = Record::new(2, 1, 0.0, &[2.0, 0.0, 0.0, 3.0]).bytes();
        let mut right = vec![48, 0, 0, 0, 1, 0, 2, 0, 1, 0, 0, 0];
        right.extend([0; 8]);
        right.extend([0, 0, 0, 0, 0, 0, 0, 0x40]);
        right.extend([0; 16]);
        right.extend([0, 0, 0, 0, 0, 0, 8, 0x40]);
        assert_eq!(sample, right);
    }

    #[test]
    fn what_is_written_is_read() {
        let bytes: Vec<u8> = (1..60).collect();
        let record = Record::read(&bytes).unwrap();
        assert_eq!(record.length, 0x0403_0201);
        assert_eq!(record.tolerance, 0x1413_1211_100f_0e0d);
        assert_eq!(record.bytes(), bytes);
        assert!(Record::read(&bytes[..HEADER - 1]).is_none());
        assert_eq!(Record::read(&bytes[..HEADER]).unwrap().rest, []);
    }
}
