//! The three checks (RFC 3095 5.9).

/// The register of a check after these octets, the least significant bit of an octet first.
fn register(polynomial: u8, start: u8, octets: &[u8]) -> u8 {
    let mut register = start;
    for octet in octets {
        for place in 0..8 {
            let bit = (octet >> place) & 1;
            let carry = (register & 1) ^ bit;
            register >>= 1;
            if carry == 1 {
                register ^= polynomial;
            }
        }
    }
    register
}

/// 1+x+x^3, from all ones.
pub fn crc3(octets: &[u8]) -> u8 {
    register(0x6, 0x7, octets)
}

/// 1+x+x^2+x^3+x^6+x^7, from all ones.
pub fn crc7(octets: &[u8]) -> u8 {
    register(0x79, 0x7f, octets)
}

/// 1+x+x^2+x^8, from all ones.
pub fn crc8(octets: &[u8]) -> u8 {
    register(0xe0, 0xff, octets)
}

#[cfg(test)]
mod tests {
    use super::*;

    #[test]
    fn check_values() {
        let text = b"123456789";
        assert_eq!((crc3(text), crc7(text), crc8(text)), (0x6, 0x53, 0xd0));
    }
}
