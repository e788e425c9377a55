//! Many images in one file: before each its length in two bytes, low byte
//! first.

pub fn pack<'a>(images: impl IntoIterator<Item = &'a Vec<u8>>) -> Vec<u8> {
    let mut bytes = Vec::new();
    for image in images {
        let length = u16::try_from(image.len()).expect("an entry's length fits two bytes");
        bytes.extend(length.to_le_bytes());
        bytes.extend(image);
    }
    bytes
}

#[cfg(test)]
mod tests {
    use super::*;

    #[test]
    fn lengths_stand_low_byte_first() {
        let images = [vec![], vec![9; 258]];
        let packed = pack(&images);
        assert_eq!(packed.len(), 2 + 2 + 258);
        assert_eq!(packed[..5], [0, 0, 2, 1, 9]);
    }
}
