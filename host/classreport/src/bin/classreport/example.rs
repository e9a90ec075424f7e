//! A small build of a listening booth, with what an engineer looks for: two speakers of one name, chains through several
//! packages, a package that is missing and a ring. Its indices and ids are the hashes of its names.
use corpus::name::id;
use corpus::{Described, Export, NULL, Package, Text, import_index, script_index};

/// A hash that is not 0; every class has the only one of its package.
const HASH: u64 = 0x1001;

/// The script objects by number.
const BLUEPRINT_CLASS: u64 = 1;
const ACTOR: u64 = 2;
const AUDIO: u64 = 3;
const MESH: u64 = 4;
const TONE: u64 = 6;

fn objects(build: &mut Described) {
    let engine = Some(0);
    let booth = Some(5);
    for (number, (name, outer)) in (0..).zip([
        ("/Script/Engine", None),
        ("BlueprintGeneratedClass", engine),
        ("Actor", engine),
        ("AudioComponent", engine),
        ("StaticMeshComponent", engine),
        ("/Script/Booth", None),
        ("ToneComponent", booth),
    ]) {
        let outer = outer.map_or(NULL, script_index);
        build.add_object(Text::of(name), 0, script_index(number), outer);
    }
}

/// A package under construction: its first export is its class.
struct Draft {
    name: &'static str,
    package: Package,
}

impl Draft {
    fn new(name: &'static str) -> Draft {
        let names = [name, &class_name(name)].map(Text::of).to_vec();
        let package = Package {
            names,
            ..Package::default()
        };
        Draft { name, package }
    }

    /// The class that a package of this name defines.
    fn import(&mut self, package: &str) -> u64 {
        self.package.imported.push((Text::of(package), 0));
        self.package.hashes = vec![HASH];
        import_index(self.package.imported.len() as u32 - 1, 0)
    }

    fn export(&mut self, name: u32, number: u32, outer: u64, class: u64, super_index: u64) {
        let hash = if super_index == NULL { 0 } else { HASH };
        self.package.exports.push(Export {
            name,
            number,
            outer,
            class,
            super_index,
            hash,
        });
    }

    fn class(&mut self, super_index: u64) {
        self.export(1, 0, NULL, script_index(BLUEPRINT_CLASS), super_index);
    }

    /// A component's template: a name and an instance number.
    fn component(&mut self, name: &str, number: u32, class: u64) {
        let name = self
            .package
            .add_name(Text::of(&format!("{name}_GEN_VARIABLE")));
        self.export(name, number, 0, class, NULL);
    }

    /// A component that lies in the class's default object.
    fn default_component(&mut self, name: &str, class: u64) {
        let default = format!("Default__{}", class_name(self.name));
        let default = self.package.add_name(Text::of(&default));
        self.export(default, 0, NULL, 0, NULL);
        let outer = self.package.exports.len() as u64 - 1;
        let name = self.package.add_name(Text::of(name));
        self.export(name, 0, outer, class, NULL);
    }
}

/// The name of the class that a package defines: the last part of its own name, and `_C`.
fn class_name(package: &str) -> String {
    let last = package.rsplit('/').next().unwrap_or(package);
    format!("{last}_C")
}

/// The booth: two speakers that differ by their instance numbers alone, a tone and a mesh.
fn booth() -> Draft {
    let mut p = Draft::new("/Game/Booth/BP_Booth");
    let speaker = p.import("/Game/Sound/BP_Speaker");
    p.class(script_index(ACTOR));
    p.component("Speaker", 1, speaker);
    p.component("Speaker", 2, speaker);
    p.component("Tone", 0, script_index(TONE));
    p.default_component("Body", script_index(MESH));
    p
}

/// The speaker is a sound, which is an audio component.
fn sounds() -> [Draft; 2] {
    let mut speaker = Draft::new("/Game/Sound/BP_Speaker");
    let sound = speaker.import("/Game/Sound/BP_Sound");
    speaker.class(sound);
    let mut sound = Draft::new("/Game/Sound/BP_Sound");
    sound.class(script_index(AUDIO));
    [speaker, sound]
}

/// Echo and delay are each other's super; the lamp's class lies in a package that is not in the build.
fn faulty() -> [Draft; 3] {
    let mut echo = Draft::new("/Game/Sound/BP_Echo");
    let delay = echo.import("/Game/Sound/BP_Delay");
    echo.class(delay);
    let mut delay = Draft::new("/Game/Sound/BP_Delay");
    let own = delay.import("/Game/Sound/BP_Echo");
    delay.class(own);
    let mut lamp = Draft::new("/Game/Booth/BP_Lamp");
    let (bulb, echo_class) = (
        lamp.import("/Game/Shared/BP_Bulb"),
        lamp.import("/Game/Sound/BP_Echo"),
    );
    lamp.class(script_index(ACTOR));
    lamp.component("Bulb", 0, bulb);
    lamp.component("Click", 0, echo_class);
    [echo, delay, lamp]
}

/// The example's corpus, packages by rising ids.
pub fn corpus() -> Vec<u8> {
    let mut build = Described::default();
    objects(&mut build);
    let drafts = [booth()].into_iter().chain(sounds()).chain(faulty());
    build.packages = drafts
        .map(|draft| (id(draft.name), draft.package))
        .collect();
    let mut build = build.hashed();
    build.packages.sort_by_key(|(id, _)| *id);
    build.bytes()
}
