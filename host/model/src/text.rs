//! Texts leave as UTF-8: how code points and numbers are written.

pub type Text = Vec<u8>;

/// The code points of UTF-16 units, or None where a surrogate has no partner (Unicode Standard, D91).
pub fn utf16(units: &[u16]) -> Option<Vec<u32>> {
    let mut points = Vec::new();
    let mut at = 0;
    while at < units.len() {
        let unit = u32::from(units[at]);
        at += 1;
        points.push(match unit {
            0xd800..=0xdbff => {
                let low = u32::from(*units.get(at).filter(|u| (0xdc00..=0xdfff).contains(*u))?);
                at += 1;
                0x10000 + (unit - 0xd800) * 0x400 + (low - 0xdc00)
            }
            0xdc00..=0xdfff => return None,
            _ => unit,
        });
    }
    Some(points)
}

/// UTF-8 (RFC 3629, section 3).
pub fn utf8(points: impl IntoIterator<Item = u32>) -> Text {
    let mut out = Vec::new();
    for point in points {
        let tail = |shift: u32| 0x80 | (point >> shift & 0x3f) as u8;
        match point {
            0..0x80 => out.push(point as u8),
            0x80..0x800 => out.extend([0xc0 | (point >> 6) as u8, tail(0)]),
            0x800..0x10000 => out.extend([0xe0 | (point >> 12) as u8, tail(6), tail(0)]),
            _ => out.extend([0xf0 | (point >> 18) as u8, tail(12), tail(6), tail(0)]),
        }
    }
    out
}

pub fn decimal(number: u64) -> Text {
    let mut out = if number < 10 {
        Vec::new()
    } else {
        decimal(number / 10)
    };
    out.push(b'0' + (number % 10) as u8);
    out
}

/// 16 hexadecimal digits, lower case.
pub fn hex16(number: u64) -> Text {
    (0..16)
        .map(|i| b"0123456789abcdef"[(number >> (60 - 4 * i) & 15) as usize])
        .collect()
}
