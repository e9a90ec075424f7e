//! Bytes that are no UTF-8, of every kind.

/// A kind, and bytes of it.
#[rustfmt::skip]
pub const ILL_FORMED: [(&str, &[u8]); 38] = [
    ("the first tail byte alone", b"\x80"),
    ("the last tail byte alone", b"\xbf"),
    ("a tail byte behind a character", b"\xc3\xa9\x80"),
    ("two bytes for U+0000", b"\xc0\x80"),
    ("two bytes for U+002F", b"\xc0\xaf"),
    ("two bytes for U+007F", b"\xc1\xbf"),
    ("three bytes for U+0000", b"\xe0\x80\x80"),
    ("three bytes for U+0080", b"\xe0\x82\x80"),
    ("three bytes for U+07FF", b"\xe0\x9f\xbf"),
    ("four bytes for U+0000", b"\xf0\x80\x80\x80"),
    ("four bytes for U+0800", b"\xf0\x80\xa0\x80"),
    ("four bytes for U+FFFF", b"\xf0\x8f\xbf\xbf"),
    ("the first high surrogate", b"\xed\xa0\x80"),
    ("the last high surrogate", b"\xed\xaf\xbf"),
    ("the first low surrogate", b"\xed\xb0\x80"),
    ("the last low surrogate", b"\xed\xbf\xbf"),
    ("a pair of surrogates", b"\xed\xa0\xbd\xed\xb8\x80"),
    ("U+110000", b"\xf4\x90\x80\x80"),
    ("U+13FFFF", b"\xf4\xbf\xbf\xbf"),
    ("U+140000", b"\xf5\x80\x80\x80"),
    ("U+1FFFFF", b"\xf7\xbf\xbf\xbf"),
    ("five bytes", b"\xf8\x88\x80\x80\x80"),
    ("six bytes", b"\xfc\x84\x80\x80\x80\x80"),
    ("byte FE", b"\xfe"),
    ("byte FF", b"\xff"),
    ("one of two bytes", b"\xc3"),
    ("one of three bytes", b"\xe2"),
    ("two of three bytes", b"\xe2\x82"),
    ("one of four bytes", b"\xf0"),
    ("two of four bytes", b"\xf0\x9f"),
    ("three of four bytes", b"\xf0\x9f\x8e"),
    ("a letter for the second of two", b"\xc3A"),
    ("a letter for the second of three", b"\xe2A\xa1"),
    ("a letter for the third of three", b"\xe2\x82A"),
    ("a letter for the second of four", b"\xf0A\x8e\xaf"),
    ("a letter for the third of four", b"\xf0\x9fA\xaf"),
    ("a letter for the fourth of four", b"\xf0\x9f\x8eA"),
    ("a first byte for the third of three", b"\xe2\x82\xc3"),
];

/// The bytes alone, before, behind and between sound text, short and long.
pub fn around(bytes: &[u8]) -> Vec<(&'static str, Vec<u8>)> {
    let long = "Tönung_of_some_forty_letters_é_or_so_🎯";
    let plain = "Sixteen_letters_and_some_more_of_ASCII";
    vec![
        ("alone", bytes.to_vec()),
        ("before a letter", [bytes, b"a"].concat()),
        ("behind a letter", [b"a", bytes].concat()),
        ("before long text", [bytes, long.as_bytes()].concat()),
        ("behind long text", [long.as_bytes(), bytes].concat()),
        (
            "amid letters",
            [plain.as_bytes(), bytes, plain.as_bytes()].concat(),
        ),
    ]
}
