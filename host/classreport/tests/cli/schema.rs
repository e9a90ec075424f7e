//! What is no description: each fault with its line, its column and its field.
use crate::documents::told;
use crate::tool::Place;

/// Each in the document that is made of it.
fn all_told(name: &str, cases: &[(&str, &str)], document: impl Fn(&str) -> String) {
    let place = Place::new(name);
    for (part, expected) in cases {
        let document = document(part);
        assert_eq!(told(&place, document.as_bytes()), *expected, "{part}");
    }
}

const HEXADECIMAL: [&str; 4] = [
    r#"1:29: hashes[0]: '12' is not "0x" and 1 to 16 hexadecimal digits, or a number without quotes"#,
    r#"1:29: hashes[0]: '0x' is not "0x" and 1 to 16 hexadecimal digits, or a number without quotes"#,
    r#"1:29: hashes[0]: '0x+1' is not "0x" and 1 to 16 hexadecimal digits, or a number without quotes"#,
    r#"1:29: hashes[0]: '0x00000000000000001' is not "0x" and 1 to 16 hexadecimal digits, or a number without quotes"#,
];

const DESCRIPTIONS: &[(&str, &str)] = &[
    ("[]", "1:1: an object is needed, not a list"),
    ("null", "1:1: an object is needed, not null"),
    ("{}", "1:1: the field 'package' is missing"),
    (
        "{\"package\": \"A\",\n \"export\": []}",
        "2:2: there is no field 'export' here, only package, exports, names, hashes, imported",
    ),
    (
        "{\"package\": \"A\",\n \"package\": \"B\"}",
        "2:2: package: the field comes twice",
    ),
    (
        r#"{"package": 1}"#,
        "1:13: package: a text or an object is needed, not a number",
    ),
    (
        r#"{"package": {"number": 1}}"#,
        "1:13: package: the field 'name' is missing",
    ),
    (
        r#"{"package": {"name": 0}}"#,
        "1:22: package.name: text 0 is not in `names`, which has 0",
    ),
    (
        r#"{"package": {"name": true}}"#,
        "1:22: package.name: a text or its number in `names` is needed, not true or false",
    ),
    (
        r#"{"package": {"name": "A", "number": 4294967296}}"#,
        "1:37: package.number: 4294967296 is more than 4294967295",
    ),
    (
        r#"{"package": {"name": "A", "nummer": 1}}"#,
        "1:27: package: there is no field 'nummer' here, only name, number",
    ),
    (
        r#"{"package": "A", "names": {}}"#,
        "1:27: names: a list is needed, not an object",
    ),
    (
        "{\"package\": \"A\", \"names\": [\"A\",\n 1]}",
        "2:2: names[1]: a text is needed, not a number",
    ),
    (
        "{\"package\": \"A\", \"hashes\": [1,\n 18446744073709551616]}",
        "2:2: hashes[1]: 18446744073709551616 is more than 18446744073709551615",
    ),
    (
        r#"{"package": "A", "hashes": [null]}"#,
        r#"1:29: hashes[0]: a number or "0x…" is needed, not null"#,
    ),
    (r#"{"package": "A", "hashes": ["12"]}"#, HEXADECIMAL[0]),
    (r#"{"package": "A", "hashes": ["0x"]}"#, HEXADECIMAL[1]),
    (r#"{"package": "A", "hashes": ["0x+1"]}"#, HEXADECIMAL[2]),
    (
        r#"{"package": "A", "hashes": ["0x00000000000000001"]}"#,
        HEXADECIMAL[3],
    ),
    (
        r#"{"package": "A", "imported": ["B", 0]}"#,
        "1:36: imported[1]: a text or an object is needed, not a number",
    ),
    (
        r#"{"package": "A", "imported": [{"name": 0}]}"#,
        "1:40: imported[0].name: a text is needed, not a number",
    ),
    (
        r#"{"package": "A", "imported": [{}]}"#,
        "1:31: imported[0]: the field 'name' is missing",
    ),
];

#[test]
fn what_is_no_description() {
    all_told("schema-fields", DESCRIPTIONS, str::to_owned);
}

const EXPORTS: &[(&str, &str)] = &[
    ("1", "3:3: exports[1]: an object is needed, not a number"),
    ("{}", "3:3: exports[1]: the field 'name' is missing"),
    (
        r#"{"name": 1}"#,
        "3:12: exports[1].name: text 1 is not in `names`, which has 1",
    ),
    (
        r#"{"name": "C", "number": "1"}"#,
        "3:27: exports[1].number: a number is needed, not a text",
    ),
    (
        r#"{"name": "C", "number": -1}"#,
        "3:27: exports[1].number: -1 is not a whole number from 0 to 4294967295",
    ),
    (
        r#"{"name": "C", "number": 1.0}"#,
        "3:27: exports[1].number: 1.0 is not a whole number from 0 to 4294967295",
    ),
    (
        r#"{"name": "C", "number": 1e3}"#,
        "3:27: exports[1].number: 1e3 is not a whole number from 0 to 4294967295",
    ),
    (
        r#"{"name": "C", "hash": false}"#,
        r#"3:25: exports[1].hash: a number or "0x…" is needed, not true or false"#,
    ),
    (
        r#"{"name": "C", "parent": null}"#,
        "3:17: exports[1]: there is no field 'parent' here, only name, number, outer, class, super, hash",
    ),
    (
        r#"{"name": "C", "super": null, "super": null}"#,
        "3:32: exports[1].super: the field comes twice",
    ),
];

#[test]
fn what_is_no_export() {
    all_told("schema-exports", EXPORTS, |export| {
        let before = r#"{"package": "A", "names": ["A"], "exports": ["#;
        format!("{before}\n  {{\"name\": 0}},\n  {export}\n]}}")
    });
}

const INDICES: &[(&str, &str)] = &[
    (
        "[]",
        r#"2:11: exports[0].class: null, a number, "0x…" or an object is needed, not a list"#,
    ),
    (
        "{}",
        "2:11: exports[0].class: an index has the field export, script, import or package",
    ),
    (
        r#"{"exports": 0}"#,
        "2:11: exports[0].class: an index has the field export, script, import or package",
    ),
    (
        r#""Tone_C""#,
        r#"2:11: exports[0].class: 'Tone_C' is not "0x" and 1 to 16 hexadecimal digits, or a number without quotes"#,
    ),
    (
        r#"{"export": "Tone_C"}"#,
        "2:22: exports[0].class.export: a number is needed, not a text",
    ),
    (
        r#"{"export": 4611686018427387904}"#,
        "2:22: exports[0].class.export: 4611686018427387904 is more than 4611686018427387903",
    ),
    (
        r#"{"export": 0, "script": "a"}"#,
        "2:25: exports[0].class: there is no field 'script' here, only export",
    ),
    (
        r#"{"script": 4611686018427387904}"#,
        "2:22: exports[0].class.script: a text is needed, not a number",
    ),
    (
        r#"{"script": "0xg"}"#,
        r#"2:22: exports[0].class.script: '0xg' is not "0x" and 1 to 16 hexadecimal digits, or a number without quotes"#,
    ),
    (
        r#"{"script": "0x1"}"#,
        "2:22: exports[0].class.script: 0x1 is no index of a script object: the highest hexadecimal digit of 16 is 4 to 7",
    ),
    (
        r#"{"import": 0}"#,
        "2:22: exports[0].class.import: a list is needed, not a number",
    ),
    (
        r#"{"import": [0]}"#,
        "2:22: exports[0].class.import: two numbers are needed: an imported name's and a hash's",
    ),
    (
        r#"{"import": [1073741824, 0]}"#,
        "2:23: exports[0].class.import[0]: 1073741824 is more than 1073741823",
    ),
    (
        r#"{"import": [0, "0x0"]}"#,
        "2:26: exports[0].class.import[1]: a number is needed, not a text",
    ),
    (
        r#"{"package": "/Game/B"}"#,
        "2:11: exports[0].class: the field 'hash' is missing",
    ),
    (
        r#"{"hash": 1}"#,
        "2:11: exports[0].class: the field 'package' is missing",
    ),
    (
        r#"{"package": {"name": 0}, "hash": 1}"#,
        "2:32: exports[0].class.package.name: a text is needed, not a number",
    ),
    (
        r#"{"package": "/Game/B", "hash": "1"}"#,
        r#"2:42: exports[0].class.hash: '1' is not "0x" and 1 to 16 hexadecimal digits, or a number without quotes"#,
    ),
];

#[test]
fn what_is_no_index() {
    all_told("schema-indices", INDICES, |index| {
        let before = r#"{"package": "A", "exports": [{"name": "B","#;
        format!("{before}\n \"class\": {index}}}]}}")
    });
}
