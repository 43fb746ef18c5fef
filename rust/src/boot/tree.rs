//! The offset of a line in a device tree.

/// The first four bytes of a flattened device tree, and the token before a property.
const MAGIC: u32 = 0xd00d_feed;
const PROPERTY: u32 = 3;

/// The name of the property that has the line.
const BOOTARGS: &[u8] = b"bootargs\0";

/// The bytes before a property's value: its token, the length of its value, and the offset of its name.
const BEFORE: usize = 12;

/// Where the line and its zero are in a blob: in a flattened device tree they are all of the value of a property
/// `bootargs`, so that a longer line with the same end is not taken for it.
pub(super) fn offset_of(blob: &[u8], text: &[u8]) -> Option<u64> {
    let line = [text, b"\0"].concat();
    let mut found = blob.windows(line.len()).enumerate();
    let is_tree = number(blob, 0) == Some(MAGIC);
    let offset = found.find(|(at, bytes)| {
        *bytes == line && (!is_tree || is_bootargs(blob, *at, line.len() as u32))
    });
    offset.map(|(at, _)| at as u64)
}

/// Whether the value of a property `bootargs` of this length begins at an offset.
fn is_bootargs(blob: &[u8], at: usize, length: u32) -> bool {
    let field = |place| number(blob, at.checked_sub(BEFORE)? + place);
    let names = number(blob, 12).and_then(|strings| {
        let at = (strings as usize).checked_add(field(8)? as usize)?;
        blob.get(at..)
    });
    field(0) == Some(PROPERTY)
        && field(4) == Some(length)
        && names.map_or(false, |names| names.starts_with(BOOTARGS))
}

/// The number of four bytes at a place, the most first.
fn number(blob: &[u8], at: usize) -> Option<u32> {
    let bytes = blob.get(at..at.checked_add(4)?)?.try_into().ok()?;
    Some(u32::from_be_bytes(bytes))
}

#[cfg(test)]
mod tests {
    use super::*;

    #[test]
    fn in_a_blob_the_first_one_is_taken() {
        assert_eq!(offset_of(b"a quiet\0quiet\0", b"quiet"), Some(2));
        assert_eq!(offset_of(b"quietquiet\0", b"quiet"), Some(5));
        assert_eq!(offset_of(b"quiet", b"quiet"), None);
        assert_eq!(offset_of(b"", b""), None);
        assert_eq!(offset_of(b"a\0", b""), Some(1));
    }

    /// A device tree of two properties, of which the second is `name`, with these values.
    fn tree(values: [&[u8]; 2], name: &[u8]) -> Vec<u8> {
        let mut body = Vec::new();
        for (value, name_at) in values.iter().zip([0u32, 6]) {
            for number in [PROPERTY, value.len() as u32, name_at] {
                body.extend(number.to_be_bytes());
            }
            body.extend(*value);
            body.resize((body.len() + 3) / 4 * 4, 0);
        }
        let strings = 40 + body.len() as u32;
        let mut tree = vec![0; 40];
        tree[..4].copy_from_slice(&MAGIC.to_be_bytes());
        tree[12..16].copy_from_slice(&strings.to_be_bytes());
        tree.extend(body);
        tree.extend(*b"model\0");
        tree.extend(name);
        tree
    }

    #[test]
    fn in_a_tree_it_is_the_value_of_bootargs() {
        let found = |values, text: &[u8]| offset_of(&tree(values, BOOTARGS), text);
        assert_eq!(found([b"quiet\0", b"quiet\0"], b"quiet"), Some(72));
        assert_eq!(found([b"x\0", b"quiet\0"], b"quiet"), Some(68));
        // the end of a longer line, a line without its zero, a longer value
        assert_eq!(found([b"x\0", b"ro quiet\0"], b"quiet"), None);
        assert_eq!(found([b"x\0", b"quiet"], b"quiet"), None);
        assert_eq!(found([b"x\0", b"quiet\0\0"], b"quiet"), None);
        let other = tree([b"quiet\0", b"quiet\0"], b"bootarg\0");
        assert_eq!(offset_of(&other, b"quiet"), None);
        assert_eq!(offset_of(&other[..40], b""), None);
    }
}
