//! `describe`: the way back from a header to JSON.
use classreport::chain::{id, script_index};
use classreport::{Description, Export, ImportedName, NULL, Name, header};
use corpus::{Described, Package, Text, script_block};

use crate::descriptions::random;
use crate::tool::{Place, Ran};

/// What a header is described as, when nothing is left out.
fn described(place: &Place, header: &[u8]) -> String {
    let ran = Ran::of(&place.fed(&["describe", "-"], header));
    assert_eq!((ran.status, &*ran.err), (0, ""));
    ran.out
}

/// Whatever is described: its header, described and written again, is the same byte for byte.
#[test]
fn there_and_back() {
    let place = Place::new("describe-random");
    let mut lists = 0;
    for seed in 10_000..10_400 {
        let bytes = header(&random(seed)).expect("accepted");
        let document = described(&place, &bytes);
        lists += document.matches("\n  \"names\": [").count();
        let again = place.fed(&["header", "-"], document.as_bytes());
        assert_eq!(String::from_utf8_lossy(&again.stderr), "", "{document}");
        assert!(again.stdout == bytes, "seed {seed}: {document}");
    }
    println!("{lists} of 400 list their names");
    assert!((100..390).contains(&lists));
}

fn tone() -> Description {
    let import = |name: u64, hash: u64| 2 << 62 | name << 32 | hash;
    let own = |text, number| Name { text, number };
    let texts = ["/Game/Tone", "Tone_C", "Hum_GEN_VARIABLE"];
    Description {
        name: own(0, 0),
        texts: texts.map(str::to_owned).to_vec(),
        exports: vec![
            Export {
                name: own(1, 0),
                class: 1 << 62 | 5,
                super_index: import(0, 0),
                hash: 7,
                ..Export::default()
            },
            Export {
                name: own(2, 1),
                outer: 0,
                class: import(0, 1),
                ..Export::default()
            },
        ],
        hashes: vec![0x1001, 2],
        imported: vec![ImportedName {
            text: "/Game/Base".to_owned(),
            number: 3,
        }],
    }
}

/// As it is read by people: no list that is made again, nothing that is null or 0.
#[test]
fn what_is_printed() {
    let place = Place::new("describe-printed");
    let mut tone = tone();
    let base = "{\"package\": {\"name\": \"/Game/Base\", \"number\": 3}, \"hash\": \"0x0000000000001001\"}";
    let exports = format!(
        "\"exports\": [\n    \
         {{\"name\": \"Tone_C\", \"class\": {{\"script\": \"0x4000000000000005\"}}, \"super\": {base}, \"hash\": \"0x0000000000000007\"}},\n    \
         {{\"name\": \"Hum_GEN_VARIABLE\", \"number\": 1, \"outer\": {{\"export\": 0}}, \"class\": {}}}\n  ]",
        base.replace("1001", "0002")
    );
    let printed = |tone: &Description| described(&place, &header(tone).expect("accepted"));
    let expected = format!("{{\n  \"package\": \"/Game/Tone\",\n  {exports}\n}}\n");
    assert_eq!(printed(&tone), expected);
    // Lists in another order, or with what is not used, are printed; imports outside of them are numbers.
    tone.texts.push("/Game/Tone".to_owned());
    tone.name = Name { text: 3, number: 2 };
    tone.hashes.push(9);
    tone.imported.push(ImportedName::default());
    tone.exports[1].class = 2 << 62 | 4 << 32 | 1;
    tone.exports[1].outer = 3 << 62;
    let other = exports
        .replace("{\"export\": 0}", "\"0xc000000000000000\"")
        .replace(&base.replace("1001", "0002"), "{\"import\": [4, 1]}");
    assert_eq!(
        printed(&tone),
        format!(
            "{{\n  \"package\": {{\"name\": 3, \"number\": 2}},\n  {other},\n  \
             \"names\": [\n    \"/Game/Tone\",\n    \"Tone_C\",\n    \"Hum_GEN_VARIABLE\",\n    \"/Game/Tone\"\n  ],\n  \
             \"hashes\": [\n    \"0x0000000000001001\",\n    \"0x0000000000000002\",\n    \"0x0000000000000009\"\n  ],\n  \
             \"imported\": [\n    {{\"name\": \"/Game/Base\", \"number\": 3}},\n    \"\"\n  ]\n}}\n"
        )
    );
}

/// Another package's header: what can't be taken over is told, and all else is written.
#[test]
fn what_is_left_out() {
    let place = Place::new("describe-left-out");
    let full = Package {
        names: vec![Text::of("A")],
        bulk: vec![1; 32],
        imports: vec![1, 2],
        skipped: [vec![1], vec![2, 3], vec![4]],
        tail: vec![0; 5],
        ..Package::default()
    };
    place.write("full.bin", &full.bytes());
    let Ran { status, out, err } = place.run(&["describe", "full.bin"]);
    assert_eq!((status, &*out), (0, "{\n  \"package\": \"A\"\n}\n"));
    let left_out = "left out: 32 bytes of bulk data; 2 indices of the import map; 4 bytes of bundles and dependencies; \
                    5 bytes behind the header; values that no description has (hashes of names, flags, sizes, templates, or \
                    wide text that fits Latin-1)";
    assert_eq!(err, format!("classreport: full.bin: {left_out}\n"));
    let ran = place.run(&["--errors=json", "describe", "full.bin", "-o", "a.json"]);
    let told = format!(
        "{{\"error\":\"left_out\",\"status\":0,\"file\":\"full.bin\",\"message\":\"{left_out}\"}}\n"
    );
    assert_eq!(
        ran,
        Ran {
            status: 0,
            out: String::new(),
            err: told
        }
    );
    assert_eq!(place.read("a.json"), out.as_bytes());
}

#[test]
fn bytes_behind_are_left_out() {
    let place = Place::new("describe-behind");
    let mut longer = header(&tone()).expect("accepted");
    let whole = described(&place, &longer);
    longer.push(0);
    place.write("longer.bin", &longer);
    let left_out = "classreport: longer.bin: left out: 1 byte behind the header\n";
    let Ran { status, out, err } = place.run(&["describe", "longer.bin"]);
    assert_eq!((status, out, &*err), (0, whole, left_out));
}

/// With a script block its objects are told by their paths, where these are their hashes.
#[test]
fn paths_of_script_objects() {
    let place = Place::with_example("describe-script");
    let file = format!("booth/packages/{:016x}.bin", id("/Game/Booth/BP_Booth"));
    let script = ["--script", "booth/script.bin"];
    let run = |words: &[&str]| place.run(&[&["describe", &*file], words].concat()).out;
    let (plain, told) = (run(&[]), run(&script));
    assert!(
        told.contains("{\"script\": \"/Script/Booth.ToneComponent\"}"),
        "{told}"
    );
    assert_eq!(told.matches("\"/Script/").count(), 4);
    assert_eq!(plain.matches("{\"script\": \"0x").count(), 4);
    let written = |document: &str| place.fed(&["header", "-"], document.as_bytes()).stdout;
    assert_eq!(written(&told), written(&plain));
    // A path that looks like an index, one that is not the object's, and one that isn't there are no paths.
    let mut build = Described::default();
    let odd = script_index("0x4");
    build.add_object(Text::of("0x4"), 0, odd, NULL);
    build.add_object(Text::of("Wrong"), 0, 1 << 62 | 5, NULL);
    place.write("odd.bin", &script_block(&build.names, &build.entries));
    for class in [odd, 1 << 62 | 5, 1 << 62 | 6] {
        let mut tone = tone();
        tone.exports[0].class = class;
        place.write("tone.bin", &header(&tone).expect("accepted"));
        let out = place.done(&["describe", "tone.bin", "--script", "odd.bin"]);
        assert!(
            out.contains(&format!("{{\"script\": \"{class:#018x}\"}}")),
            "{out}"
        );
    }
    place.write("bad.bin", &[1]);
    let said = place.fails(1, &["describe", "tone.bin", "--script", "bad.bin"]);
    assert_eq!(
        said,
        "classreport: bad.bin: refused 3: a field's bytes are not there\n"
    );
}

/// The call decides what a header is.
#[test]
fn what_is_no_header() {
    let place = Place::with_example("describe-refused");
    let bytes = header(&tone()).expect("accepted");
    let at = |place: usize, byte: u8| {
        let mut other = bytes.clone();
        other[place] = byte;
        other
    };
    for (bytes, told) in [
        (Vec::new(), "refused 3: a field's bytes are not there"),
        (
            bytes[..100].to_vec(),
            "refused 15: the header size is larger than the block",
        ),
        (at(0, 1), "refused 14: the versioning flag is not 0"),
        (
            at(8, 9),
            "refused 10: a name index is outside its name batch",
        ),
        (
            place.read("booth/script.bin"),
            "refused 14: the versioning flag is not 0",
        ),
    ] {
        place.write("bad.bin", &bytes);
        place.write("old", b"as it was");
        let said = place.fails(1, &["describe", "bad.bin", "-o", "old"]);
        assert_eq!(said, format!("classreport: bad.bin: {told}\n"));
        assert_eq!(place.read("old"), b"as it was");
    }
    place.fails(3, &["describe", "none.bin"]);
    let said = place.fails(2, &["describe"]);
    assert!(said.starts_with("classreport: usage: classreport describe HEADER\n"));
    // `show` shows reports, and says who shows headers.
    place.write("tone.bin", &bytes);
    let said = place.fails(4, &["show", "tone.bin"]);
    let hint = "it is a package header: `classreport describe` shows it";
    assert_eq!(said, format!("classreport: tone.bin: {hint}\n"));
}
