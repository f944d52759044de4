//! Fields in few bits: intervals around a reference (RFC 3095 4.5.1 to 4.5.5), and self-describing values (4.5.6).

/// The low bits of a value.
pub fn mask(bits: u8) -> u64 {
    (1u64 << bits) - 1
}

/// How far below the reference the interval of a sequence number begins (RFC 3095 5.7.1).
fn sn_offset(bits: u8) -> u32 {
    if bits <= 4 {
        1
    } else {
        (1 << (bits - 5)) - 1
    }
}

/// How far below the reference the interval of a timestamp begins (RFC 3095 4.5.3).
fn ts_offset(bits: u8) -> i64 {
    (1 << (bits - 2)) - 1
}

/// The steps from the reference to this sequence number, if its low bits mean it.
pub fn sn_steps(bits: u8, reference: u16, sn: u16) -> Option<i64> {
    let offset = sn_offset(bits);
    let place = u32::from(sn.wrapping_sub(reference).wrapping_add(offset as u16));
    (place < 1 << bits).then(|| i64::from(place) - i64::from(offset))
}

/// The timestamp without bits: the steps times the stride after the reference, or the reference without a stride.
pub fn ts_by_steps(reference: u32, steps: i64, stride: Option<u32>) -> u32 {
    let advance = steps * i64::from(stride.unwrap_or(0));
    (i64::from(reference) + advance).rem_euclid(1 << 32) as u32
}

/// The scaled bits that mean this timestamp to a decompressor with this reference (RFC 3095 4.5.3).
pub fn ts_scaled(bits: u8, reference: u32, stride: u32, ts: u32) -> Option<u64> {
    let quotient = i64::from(reference / stride);
    let first = quotient - ts_offset(bits);
    let step = i64::from(ts) - i64::from(reference);
    [step, step + (1 << 32), step - (1 << 32)]
        .into_iter()
        .filter(|step| step % i64::from(stride) == 0)
        .map(|step| quotient + step / i64::from(stride))
        .find(|scaled| *scaled >= first && *scaled < first + (1 << bits))
        .map(|scaled| scaled.rem_euclid(1 << bits) as u64)
}

/// The unscaled bits that mean this timestamp to a decompressor with this reference.
pub fn ts_unscaled(bits: u8, reference: u32, ts: u32) -> Option<u64> {
    let place = ts.wrapping_sub(reference).wrapping_add(ts_offset(bits) as u32);
    (u64::from(place) <= mask(bits)).then_some(u64::from(ts) & mask(bits))
}

/// The bits of an offset of the Identification; without bits it must be the reference's.
pub fn offset_bits(bits: u8, reference: u16, offset: u16) -> Option<u64> {
    let place = offset.wrapping_sub(reference);
    (u64::from(place) <= mask(bits)).then_some(u64::from(offset) & mask(bits))
}

/// A self-describing value in the spelling of these value bits: 7, 14, 21 or 29.
pub fn spelled(value: u32, bits: u8) -> Vec<u8> {
    let (octets, first) = match bits {
        7 => (1, 0),
        14 => (2, 0x8000),
        21 => (3, 0xc0_0000),
        _ => (4, 0xe000_0000),
    };
    (first | value).to_be_bytes()[4 - octets..].to_vec()
}

/// The shortest spelling of a self-describing value below 2^29.
pub fn shortest(value: u32) -> Vec<u8> {
    let bits = [7, 14, 21, 29].into_iter().find(|bits| u64::from(value) <= mask(*bits));
    spelled(value, bits.unwrap_or(29))
}

/// A self-describing value in the shortest spelling, or in the next longer one that there is.
pub fn longer(value: u32, wide: bool) -> Vec<u8> {
    match (wide, shortest(value).len()) {
        (false, _) => shortest(value),
        (true, octets) => spelled(value, [14, 21, 29, 29][octets - 1]),
    }
}

#[cfg(test)]
mod tests {
    use super::*;

    #[test]
    fn self_describing_values() {
        let values = [
            (127, vec![0x7f]),
            (128, vec![0x80, 0x80]),
            (16_383, vec![0xbf, 0xff]),
            (16_384, vec![0xc0, 0x40, 0x00]),
            (2_097_151, vec![0xdf, 0xff, 0xff]),
            (2_097_152, vec![0xe0, 0x20, 0x00, 0x00]),
            (536_870_911, vec![0xff, 0xff, 0xff, 0xff]),
        ];
        for (value, octets) in values {
            assert_eq!(shortest(value), octets);
        }
        assert_eq!(spelled(5, 14), [0x80, 0x05]);
        assert_eq!(longer(5, true), [0x80, 0x05]);
        assert_eq!(longer(128, true), [0xc0, 0x00, 0x80]);
        assert_eq!(longer(5, false), [0x05]);
    }

    /// Four bits, reference 100: p is 1, so the interval is 99 to 114.
    #[test]
    fn sn_of_four_bits() {
        let steps: Vec<_> = [98, 99, 100, 114, 115].iter().map(|sn| sn_steps(4, 100, *sn)).collect();
        assert_eq!(steps, [None, Some(-1), Some(0), Some(14), None]);
    }

    /// Six bits: p is 2^1 - 1 = 1. Nine bits, reference 0: p is 2^4 - 1 = 15, the interval is -15 to 496.
    #[test]
    fn sn_of_more_bits_and_past_the_end() {
        assert_eq!(sn_steps(6, 65_535, 61), Some(62));
        assert_eq!(sn_steps(6, 65_535, 62), None);
        assert_eq!(sn_steps(9, 0, 65_521), Some(-15));
        assert_eq!(sn_steps(9, 0, 65_520), None);
        assert_eq!(sn_steps(9, 0, 496), Some(496));
    }

    /// Five bits, reference 320 with stride 160: quotient 2, p is 2^3 - 1 = 7, the interval is -5 to 26. 3200 is 20.
    #[test]
    fn ts_of_five_scaled_bits() {
        assert_eq!(ts_scaled(5, 320, 160, 3200), Some(20));
        assert_eq!(ts_scaled(5, 320, 160, 26 * 160), Some(26));
        assert_eq!(ts_scaled(5, 320, 160, 27 * 160), None);
        assert_eq!(ts_scaled(5, 320, 160, 3201), None);
        // -1 in five bits is 31; the timestamp is 2^32 - 160.
        assert_eq!(ts_scaled(5, 320, 160, 0xffff_ff60), Some(31));
    }

    /// Five bits, reference a0 = 160: the interval is 153 to 184.
    #[test]
    fn ts_of_five_unscaled_bits() {
        assert_eq!(ts_unscaled(5, 160, 0xa8), Some(8));
        assert_eq!(ts_unscaled(5, 160, 152), None);
        assert_eq!(ts_unscaled(5, 160, 185), None);
        assert_eq!(ts_unscaled(32, 160, 159), Some(159));
    }

    #[test]
    fn ts_without_bits() {
        assert_eq!(ts_by_steps(0xffff_ff60, 1, Some(160)), 0);
        assert_eq!(ts_by_steps(160, -1, Some(160)), 0);
        assert_eq!(ts_by_steps(160, 5, None), 160);
    }

    #[test]
    fn offsets() {
        assert_eq!(offset_bits(0, 9, 9), Some(0));
        assert_eq!(offset_bits(0, 9, 10), None);
        assert_eq!(offset_bits(5, 0xffff, 30), Some(30));
        assert_eq!(offset_bits(5, 0xffff, 31), None);
    }
}
