//! The text that tells a kernel of a virtio device over memory-mapped I/O.

use crate::Refusal;

/// `virtio_mmio.device=SIZE@0xADDRESS:IRQ`, and `:ID` if one is given.
pub fn device_text(size: u64, address: u64, irq: u32, id: Option<u32>) -> Result<Vec<u8>, Refusal> {
    if size == 0 {
        return Err(Refusal::MmioSize);
    }
    let mut text = format!("virtio_mmio.device={}@0x{address:x}:{irq}", size_text(size));
    if let Some(id) = id {
        text += &format!(":{id}");
    }
    Ok(text.into_bytes())
}

/// The size in the largest unit that divides it.
fn size_text(size: u64) -> String {
    for (unit, shift) in [('G', 30), ('M', 20), ('K', 10)] {
        if size % (1 << shift) == 0 {
            return format!("{}{unit}", size >> shift);
        }
    }
    format!("{size}")
}

#[cfg(test)]
mod tests {
    use super::*;

    fn check(size: u64, address: u64, irq: u32, id: Option<u32>, wanted: &str) {
        let text = device_text(size, address, irq, id).unwrap();
        assert_eq!(String::from_utf8(text).unwrap(), wanted);
    }

    #[test]
    fn sizes_take_the_largest_unit() {
        check(4096, 4096, 5, Some(42), "virtio_mmio.device=4K@0x1000:5:42");
        check(1, 0, 0, None, "virtio_mmio.device=1@0x0:0");
        check(1 << 20, 0xABC, 1, None, "virtio_mmio.device=1M@0xabc:1");
        check(3 << 30, 1, 1, Some(0), "virtio_mmio.device=3G@0x1:1:0");
        check(1025, 1, 1, None, "virtio_mmio.device=1025@0x1:1");
    }

    #[test]
    fn the_longest_text_has_at_most_80_bytes() {
        let text = device_text(u64::MAX, u64::MAX, u32::MAX, Some(u32::MAX)).unwrap();
        assert_eq!(text.len(), 80);
    }

    #[test]
    fn no_size_is_refused() {
        assert_eq!(device_text(0, 1, 1, None), Err(Refusal::MmioSize));
    }
}
