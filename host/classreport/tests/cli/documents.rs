//! What is no JSON: each fault with its line and its column.
use crate::tool::Place;

/// What is told of a document, without the name of the file.
pub(crate) fn told(place: &Place, document: &[u8]) -> String {
    place.write("tone.json", document);
    let said = place.fails(4, &["header", "tone.json"]);
    let said = said.strip_prefix("classreport: tone.json:");
    said.expect("the file").trim_end().to_owned()
}

const LONE: &str = "1:15: half of a surrogate pair: a character above U+FFFF has two of these";

const CASES: &[(&str, &str)] = &[
    ("", "1:1: the document ends too early: a value is missing"),
    (
        " \n\n ",
        "3:2: the document ends too early: a value is missing",
    ),
    ("{\n", "2:1: the name of a field is needed here, in quotes"),
    (
        "{package}",
        "1:2: the name of a field is needed here, in quotes",
    ),
    (
        "{\"package\"\n \"A\"}",
        "2:2: a colon is needed here, behind the name of a field",
    ),
    (r#"{"package": }"#, "1:13: a value is needed here"),
    (
        r#"{"package": A}"#,
        "1:13: A is no value: a text stands in quotes",
    ),
    (
        r#"{"package": nul}"#,
        "1:13: nul is no value: a text stands in quotes",
    ),
    (r#"{"package": 'A'}"#, "1:13: a value is needed here"),
    (
        r#"{"package": "A",}"#,
        "1:17: the name of a field is needed here, in quotes",
    ),
    (
        "{\"package\": \"A\"\n\"names\": []}",
        "2:1: a comma or } is needed here",
    ),
    (
        r#"{"names": ["A" "B"]}"#,
        "1:16: a comma or ] is needed here",
    ),
    (r#"{"names": ["A",]}"#, "1:16: a value is needed here"),
    (r#"{"names": ["A""#, "1:15: a comma or ] is needed here"),
    (
        r#"{"package": "A"} x"#,
        "1:18: nothing may stand behind the description",
    ),
    (
        r#"{"package": "A"}{}"#,
        "1:17: nothing may stand behind the description",
    ),
    (
        "{\n  \"package\": \"A\n}",
        "2:16: a text may not hold this: a line end is \\n, a tab \\t",
    ),
    (
        r#"{"package": "A"#,
        "1:13: this text has no end: a quote is missing",
    ),
    (
        "{\"ä♪🎵\": \"A\\x\"}",
        "1:11: there is no such escape; a backslash is written \\\\",
    ),
    (
        "{\"package\": \"\\",
        "1:14: there is no such escape; a backslash is written \\\\",
    ),
    (
        "{\"package\": \"\\u12g4\"}",
        "1:14: \\u is followed by four hexadecimal digits",
    ),
    (
        "{\"package\": \"\\u12",
        "1:14: \\u is followed by four hexadecimal digits",
    ),
    (
        "{\"package\": \"\\u+123\"}",
        "1:14: \\u is followed by four hexadecimal digits",
    ),
    ("{\"package\": \"A\\ud83c\"}", LONE),
    ("{\"package\": \"A\\ud83c!\\udfb5\"}", LONE),
    ("{\"package\": \"A\\ud83c\\u0041\"}", LONE),
    ("{\"package\": \"A\\udfb5\\ud83c\"}", LONE),
    (
        "[01]",
        "1:2: 01 is no number; a hexadecimal one stands in quotes",
    ),
    (
        "[0x10]",
        "1:2: 0x10 is no number; a hexadecimal one stands in quotes",
    ),
    (
        "[-]",
        "1:2: - is no number; a hexadecimal one stands in quotes",
    ),
    (
        "[1.]",
        "1:2: 1. is no number; a hexadecimal one stands in quotes",
    ),
    (
        "[1e+]",
        "1:2: 1e+ is no number; a hexadecimal one stands in quotes",
    ),
    ("[+1]", "1:2: a value is needed here"),
];

#[test]
fn what_is_no_json() {
    let place = Place::new("documents-json");
    for (document, expected) in CASES {
        assert_eq!(told(&place, document.as_bytes()), *expected, "{document}");
    }
    let deep = "[".repeat(65);
    let too_deep = "1:65: lists and objects lie too deep in each other";
    assert_eq!(told(&place, deep.as_bytes()), too_deep);
    let deepest = "[".repeat(64) + "1";
    let open = "1:66: a comma or ] is needed here";
    assert_eq!(told(&place, deepest.as_bytes()), open);
    let latin1 = b"{\n\"package\": \"T\xf6ne\"}";
    assert_eq!(told(&place, latin1), "2:14: this is not UTF-8");
}

/// For programs, line and column are numbers; the file may be standard input.
#[test]
fn for_programs() {
    let place = Place::new("documents-programs");
    let fed = place.fed(&["--errors=json", "header", "-"], b"{\n  \"package\": 7}");
    assert_eq!(fed.status.code(), Some(4));
    assert_eq!(
        String::from_utf8_lossy(&fed.stderr),
        "{\"error\":\"malformed\",\"status\":4,\"file\":\"standard input\",\"line\":2,\"column\":14,\
         \"message\":\"package: a text or an object is needed, not a number\"}\n"
    );
}
