//! `header`: descriptions in JSON become headers, for a file, a pipe or a build.
use classreport::chain::script_index;
use classreport::{Description, Export, ImportedName, NULL, Name, header};

use crate::tool::{Place, Ran};

/// The header of a description in JSON.
fn written(place: &Place, document: &str) -> Vec<u8> {
    let ran = place.fed(&["header", "-"], document.as_bytes());
    assert_eq!(String::from_utf8_lossy(&ran.stderr), "", "{document}");
    assert!(ran.status.success());
    ran.stdout
}

fn texts(all: &[&str]) -> Vec<String> {
    all.iter().map(|text| (*text).to_owned()).collect()
}

fn name(text: u32, number: u32) -> Name {
    Name { text, number }
}

fn imported(text: &str, number: u32) -> ImportedName {
    ImportedName {
        text: text.to_owned(),
        number,
    }
}

/// Every field in every form; the lists are made on the way.
const EVERYTHING: &str = r#"{
  "exports": [
    {"name": "Tone_C", "class": {"script": "/Script/Engine.BlueprintGeneratedClass"},
     "super": {"package": {"name": "/Game/Base", "number": 2}, "hash": "0x1001"}, "hash": 4097},
    {"name": "Tone_GEN_VARIABLE", "number": 4294967295, "outer": {"export": 0},
     "class": {"hash": 18446744073709551615, "package": "/Game/Other"}, "super": null},
    {"name": "Tone_C", "outer": {"export": 4611686018427387903}, "class": {"import": [1073741823, 4294967295]},
     "super": {"script": "0x7FFFFFFFFFFFFFFF"}, "hash": "0xffffffffffffffff"},
    {"name": 1, "outer": "0xC000000000000000", "class": 9223372036854775807, "super": "0x0", "hash": 0},
    {"name": "\u00e4\ud83c\udfb5\n\/", "class": {"package": {"name": "/Game/Base", "number": 2}, "hash": "0x2"}}
  ],
  "package": {"name": "/Game/Tone", "number": 1},
  "names": ["A", "A"],
  "imported": [{"name": "/Game/Other"}],
  "hashes": [2]
}"#;

fn everything() -> Description {
    let import = |name: u64, hash: u64| 2 << 62 | name << 32 | hash;
    let export = |name, outer, class, super_index, hash| Export {
        name,
        outer,
        class,
        super_index,
        hash,
    };
    let blueprint = script_index("/Script/Engine.BlueprintGeneratedClass");
    Description {
        name: name(2, 1),
        texts: texts(&[
            "A",
            "A",
            "/Game/Tone",
            "Tone_C",
            "Tone_GEN_VARIABLE",
            "ä🎵\n/",
        ]),
        exports: vec![
            export(name(3, 0), NULL, blueprint, import(1, 1), 0x1001),
            export(name(4, u32::MAX), 0, import(0, 2), NULL, 0),
            export(
                name(3, 0),
                u64::MAX >> 2,
                import((1 << 30) - 1, u32::MAX.into()),
                u64::MAX >> 1,
                u64::MAX,
            ),
            export(name(1, 0), 3 << 62, u64::MAX >> 1, 0, 0),
            export(name(5, 0), NULL, import(1, 0), NULL, 0),
        ],
        hashes: vec![2, 0x1001, u64::MAX],
        imported: vec![imported("/Game/Other", 0), imported("/Game/Base", 2)],
    }
}

#[test]
fn every_field_in_every_form() {
    let place = Place::new("header-fields");
    let expected = header(&everything()).expect("accepted");
    assert_eq!(written(&place, EVERYTHING), expected);
    // With a byte order mark, other line ends and no white space it is the same.
    let marked = format!("\u{feff}{}\r\n", EVERYTHING.replace('\n', "\r\n"));
    assert_eq!(written(&place, &marked), expected);
    assert_eq!(
        written(&place, &EVERYTHING.replace(['\n', ' '], "")),
        expected
    );
    // The least that can be said, and document 01's package named A.
    assert_eq!(written(&place, r#"{"package":""}"#).len(), 90);
    let a = written(&place, r#"{"package": "A", "exports": []}"#);
    assert_eq!((a.len(), &a[24..28]), (91, &[87, 0, 0, 0][..]));
}

/// Files, standard input and output, and a file that was there.
#[test]
fn to_files_and_pipes() {
    let place = Place::new("header-files");
    place.write("all.json", EVERYTHING.as_bytes());
    let expected = header(&everything()).expect("accepted");
    assert_eq!(place.done(&["header", "all.json", "-o", "all.bin"]), "");
    assert_eq!(place.read("all.bin"), expected);
    assert_eq!(place.output(&["header", "all.json"]).stdout, expected);
    assert_eq!(
        place.output(&["header", "all.json", "-o-"]).stdout,
        expected
    );
    let said = place.fails(3, &["header", "none.json", "-o", "all.bin"]);
    assert_eq!(said, "classreport: none.json: No such file or directory\n");
    place.write("bad.json", b"{");
    place.fails(4, &["header", "bad.json", "-o", "all.bin"]);
    place.fails(4, &["header", "bad.json", "-o", "new.bin"]);
    assert_eq!(place.read("all.bin"), expected);
    assert_eq!(place.names("."), ["all.bin", "all.json", "bad.json"]);
    for words in [&["header"][..], &["header", "all.json", "bad.json"]] {
        let said = place.fails(2, words);
        assert!(said.starts_with("classreport: usage: classreport header DESCRIPTION\n"));
    }
}

/// In a build a header is called by its id, and takes part in the report like any other.
#[test]
fn into_a_build() {
    let place = Place::with_example("header-build");
    let tone = r#"{"package": {"name": "/Game/Test/Töne", "number": 3}, "exports": [
        {"name": "Hum_GEN_VARIABLE", "class": {"script": "/Script/Booth.ToneComponent"}},
        {"name": "Hum_GEN_VARIABLE", "number": 1, "class": {"package": "/Game/Sound/BP_Speaker", "hash": "0x1001"}}]}"#;
    place.write("tone.json", tone.as_bytes());
    let before = place.names("booth/packages");
    let said = place.done(&["header", "tone.json", "-o", "booth/packages/"]);
    let id = classreport::chain::id("/Game/Test/Töne_2");
    let length = written(&place, tone).len();
    assert_eq!(
        said,
        format!("booth/packages/{id:016x}.bin: /Game/Test/Töne_2, {length} bytes\n")
    );
    assert_eq!(place.names("booth/packages").len(), before.len() + 1);
    assert_eq!(
        place.done(&["header", "-q", "tone.json", "-o", "booth/packages"]),
        ""
    );
    assert_eq!(place.names("booth/packages").len(), before.len() + 1);
    let shown = place.done(&["show", "booth", "--package", "/Game/Test/*", "-f", "csv"]);
    let rows: Vec<&str> = shown.lines().skip(1).collect();
    assert_eq!(rows.len(), 2);
    assert!(rows[0].contains(",Hum,") && rows[0].contains("1,/Script/Booth.ToneComponent,"));
    assert!(rows[1].contains(",Hum_0,") && rows[1].contains("1,/Script/Engine.AudioComponent,"));
    let verified = place.done(&["verify", "booth"]);
    assert!(verified.contains(&format!("yes      {id:#018x}  /Game/Test/Töne_2\n")));
    let why = place.done(&["why", "booth", "Hum_0"]);
    assert!(
        why.contains("Native class: /Script/Engine.AudioComponent\n"),
        "{why}"
    );
}

/// The call decides; a name that is too long is told.
#[test]
fn refusals_are_told() {
    let place = Place::new("header-refused");
    let refused = "refused 27 (block 0, the description): the description is malformed, or its header can't be written";
    let named = |text: &str| format!("{{\"package\": \"{text}\"}}");
    let importing = |text: &str| format!("{{\"package\": \"A\", \"imported\": [\"{text}\"]}}");
    let (letters, notes) = ("é".repeat(32_768), "🎵".repeat(16_384));
    for (document, start) in [
        (named(&letters), "é".repeat(32)),
        (importing(&notes), "🎵".repeat(32)),
    ] {
        place.write("long.json", document.as_bytes());
        place.write("old", b"as it was");
        let reason = format!("the name '{start}…' has 32768 units, and a name has at most 32767");
        assert_eq!(
            place.fails(1, &["header", "long.json", "-o", "old"]),
            format!("classreport: long.json: {refused}: {reason}\n")
        );
        assert_eq!(place.read("old"), b"as it was");
        assert_eq!(
            place.fails(1, &["--errors", "json", "header", "long.json"]),
            format!(
                "{{\"error\":\"refused\",\"status\":1,\"file\":\"long.json\",\"question\":27,\"block\":0,\"package\":null,\
                 \"id\":null,\"message\":\"{refused}: {reason}\"}}\n"
            )
        );
    }
    assert_eq!(written(&place, &named(&letters[2..])).len(), 90 + 32_767);
    for number in ["27", "28", "0x8000001b00000000"] {
        let told = place.done(&["explain", number]);
        let end = "It names block 0: what describes a header has no blocks.\n";
        assert!(told.ends_with(end), "{told}");
    }
}

#[test]
fn help_says_what_stands_in_it() {
    let place = Place::new("header-help");
    let help = place.done(&["header", "--help"]);
    for field in ["package", "exports", "names", "hashes", "imported"] {
        assert!(help.contains(&format!("\n  {field} ")), "{field}");
    }
    // Each index that the help shows can be written.
    let shown: Vec<&str> = help
        .lines()
        .skip_while(|line| !line.starts_with("An INDEX"))
        .skip(1)
        .take_while(|line| line.starts_with("  "))
        .map(|line| line.trim_start().split("   ").next().unwrap_or_default())
        .collect();
    assert_eq!(shown.len(), 5, "{help}");
    for index in shown {
        let document = format!(
            "{{\"package\": \"A\", \"exports\": [{{\"name\": \"B\", \"class\": {index}}}]}}"
        );
        assert!(written(&place, &document).len() > 160, "{index}");
    }
}

/// A document that was changed anywhere is written, refused or told to be wrong; the program never ends otherwise.
#[test]
fn changed_documents() {
    let place = Place::new("header-changed");
    let whole = EVERYTHING.as_bytes();
    let mut seen = [0; 5];
    for number in 0..1_200 {
        let at = number * 7919 % whole.len();
        let mut other = whole.to_vec();
        match number % 4 {
            0 => drop(other.remove(at)),
            1 => other.truncate(at),
            2 => other[at] ^= 1 << (number / 4 % 8),
            _ => other.insert(at, b"{}[],:\"\\u0e.-"[number / 4 % 13]),
        }
        let Ran { status, out, err } = Ran::of(&place.fed(&["header", "-"], &other));
        seen[status as usize] += 1;
        if status != 0 {
            assert_eq!((status, &*out), (4, ""), "{err}");
            assert!(err.starts_with("classreport: standard input:"), "{err}");
        }
    }
    assert!(seen[0] > 100 && seen[4] > 100, "{seen:?}");
}
