//! Sheets: orders framed, numbers in the shortest form.

/// Writes a number in the shortest form: base 128, the low group first, the top bit of a byte set where more follow.
///
/// ```
/// let mut order = vec![2]; // an annotation hole
/// sheet_checker::write_number(&mut order, 300);
/// assert_eq!(order, [2, 0xac, 0x02]);
/// ```
pub fn write_number(bytes: &mut Vec<u8>, mut number: u32) {
    while number >= 128 {
        bytes.push(number as u8 | 128);
        number >>= 7;
    }
    bytes.push(number as u8);
}

/// Reads a number, and returns it with the bytes behind it; none where the bytes end early, or where the number is not in the
/// shortest form or above 4294967295.
///
/// ```
/// use sheet_checker::read_number;
///
/// assert_eq!(read_number(&[0x80, 0x01, 0x2a]), Some((128, &[0x2a][..])));
/// assert_eq!(read_number(&[0x80]), None);
/// assert_eq!(read_number(&[0x80, 0x00]), None);
/// assert_eq!(read_number(&[0x80, 0x80, 0x80, 0x80, 0x10]), None);
/// ```
pub fn read_number(bytes: &[u8]) -> Option<(u32, &[u8])> {
    let mut number = 0;
    for (i, &byte) in bytes.iter().enumerate().take(5) {
        if i == 4 && byte > 0x0f {
            return None;
        }
        number |= u32::from(byte & 127) << (7 * i);
        if byte < 128 {
            let shortest = i == 0 || byte != 0;
            return shortest.then_some((number, &bytes[i + 1..]));
        }
    }
    None
}

/// A sheet that is being put together.
///
/// It frames what it is given and looks at no order: an order that is not sound is answered with its refusal.
///
/// ```
/// let mut sheet = sheet_checker::SheetBuilder::new();
/// sheet.push(&[0, 7, 0]).push(&[8]);
/// assert_eq!(sheet.bytes(), [3, 0, 7, 0, 1, 8]);
/// ```
#[derive(Clone, Debug, Default, PartialEq, Eq)]
pub struct SheetBuilder {
    bytes: Vec<u8>,
}

impl SheetBuilder {
    /// A sheet with no order.
    pub fn new() -> Self {
        Self::default()
    }

    /// Adds an order: its kind and its fields. The length is put before it.
    ///
    /// # Panics
    ///
    /// Where the order has more than 4294967295 bytes, which no length can say.
    pub fn push(&mut self, order: &[u8]) -> &mut Self {
        let length = u32::try_from(order.len()).expect("an order of at most 4294967295 bytes");
        write_number(&mut self.bytes, length);
        self.bytes.extend_from_slice(order);
        self
    }

    /// The sheet so far.
    pub fn bytes(&self) -> &[u8] {
        &self.bytes
    }

    /// The sheet, with no copy made.
    pub fn into_bytes(self) -> Vec<u8> {
        self.bytes
    }
}

#[cfg(test)]
mod tests {
    use super::*;

    fn written(number: u32) -> Vec<u8> {
        let mut bytes = Vec::new();
        write_number(&mut bytes, number);
        bytes
    }

    #[test]
    fn numbers_in_the_shortest_form() {
        assert_eq!(written(0), [0]);
        assert_eq!(written(127), [0x7f]);
        assert_eq!(written(128), [0x80, 0x01]);
        assert_eq!(written(16_383), [0xff, 0x7f]);
        assert_eq!(written(16_384), [0x80, 0x80, 0x01]);
        assert_eq!(written(u32::MAX), [0xff, 0xff, 0xff, 0xff, 0x0f]);
    }

    #[test]
    fn numbers_are_read_back() {
        for shift in 0..32 {
            for number in [1 << shift, (1 << shift) - 1, u32::MAX >> shift] {
                let mut bytes = written(number);
                assert_eq!(read_number(&bytes), Some((number, &[][..])));
                bytes.push(9);
                assert_eq!(read_number(&bytes), Some((number, &[9][..])));
            }
        }
    }

    #[test]
    fn faulty_numbers() {
        let faulty: [&[u8]; 6] = [
            &[],
            &[0xff, 0xff],
            &[0x80, 0x00],
            &[0xff, 0x80, 0x00],
            &[0xff, 0xff, 0xff, 0xff, 0x10],
            &[0x80, 0x80, 0x80, 0x80, 0x80, 0x01],
        ];
        for bytes in faulty {
            assert_eq!(read_number(bytes), None, "{bytes:02x?}");
        }
    }

    #[test]
    fn a_long_order_has_a_long_length() {
        let mut sheet = SheetBuilder::new();
        sheet.push(&[7; 200]);
        assert_eq!(sheet.bytes()[..3], [0xc8, 0x01, 7]);
        assert_eq!(sheet.into_bytes().len(), 202);
    }
}
