//! Elements and components.

/// Size in bytes of a componentType, if it is one of the six.
pub fn component_size(component_type: u32) -> Option<u64> {
    match component_type {
        5120 | 5121 => Some(1),
        5122 | 5123 => Some(2),
        5125 | 5126 => Some(4),
        _ => None,
    }
}

/// Columns and rows of a type by its number, 1 SCALAR to 7 MAT4; a vector is one column.
pub fn shape(element_type: u32) -> Option<(u64, u64)> {
    match element_type {
        1..=4 => Some((1, u64::from(element_type))),
        5..=7 => Some((u64::from(element_type) - 3, u64::from(element_type) - 3)),
        _ => None,
    }
}

/// The type is MAT2, MAT3 or MAT4.
pub fn is_matrix(element_type: u32) -> bool {
    (5..=7).contains(&element_type)
}

/// How many components an element has.
pub fn component_count(element_type: u32) -> u64 {
    shape(element_type).map_or(0, |(columns, rows)| columns * rows)
}

/// Bytes from one column's start to the next's: in a matrix each starts at the first free multiple of 4.
fn column_bytes(element_type: u32, size: u64) -> u64 {
    let rows = shape(element_type).map_or(0, |(_, rows)| rows);
    if is_matrix(element_type) {
        (rows * size).next_multiple_of(4)
    } else {
        rows * size
    }
}

/// The element's bytes, a matrix with the padding of its last column.
pub fn element_bytes(element_type: u32, size: u64) -> u64 {
    shape(element_type).map_or(0, |(columns, _)| columns * column_bytes(element_type, size))
}

/// Where a component starts in its element: its number is column × rows + row.
pub fn component_start(element_type: u32, size: u64, component: u64) -> u64 {
    let rows = shape(element_type).map_or(1, |(_, rows)| rows);
    component / rows * column_bytes(element_type, size) + component % rows * size
}

/// What the offsets of an accessor or of sparse values must be a multiple of.
pub fn alignment(element_type: u32, size: u64) -> u64 {
    if is_matrix(element_type) {
        4
    } else {
        size
    }
}

/// The little-endian number at a place: two's complement for 5120 and 5122, the bits for 5126.
pub fn number_at(bytes: &[u8], at: u64, component_type: u32) -> i64 {
    let byte = |k: usize| bytes[at as usize + k];
    match component_type {
        5120 => i64::from(byte(0) as i8),
        5121 => i64::from(byte(0)),
        5122 => i64::from(i16::from_le_bytes([byte(0), byte(1)])),
        5123 => i64::from(u16::from_le_bytes([byte(0), byte(1)])),
        _ => i64::from(u32::from_le_bytes([byte(0), byte(1), byte(2), byte(3)])),
    }
}

#[cfg(test)]
mod tests {
    use super::*;

    /// The paper's table of element bytes.
    #[test]
    fn element_bytes_are_the_table() {
        let table = [(1, [1, 2, 3, 4, 8, 12, 16]), (2, [2, 4, 6, 8, 8, 24, 32]), (4, [4, 8, 12, 16, 16, 36, 64])];
        for (size, row) in table {
            for (column, bytes) in row.into_iter().enumerate() {
                assert_eq!(element_bytes(column as u32 + 1, size), bytes);
            }
        }
    }

    #[test]
    fn component_counts() {
        let counts: Vec<u64> = (0..=8).map(component_count).collect();
        assert_eq!(counts, [0, 1, 2, 3, 4, 4, 9, 16, 0]);
    }
}
