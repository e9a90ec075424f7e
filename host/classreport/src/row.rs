//! A row of a report: a component with its class and its native class.
use crate::fields::{Fields, Malformed};

/// Why an export is a candidate.
#[derive(Debug, Clone, Copy, PartialEq, Eq, Hash)]
pub enum Kind {
    /// 1: its base name ends in `_GEN_VARIABLE`.
    Template,
    /// 2: it lies in a default object.
    Default,
}

impl Kind {
    /// The number in the report.
    pub fn number(self) -> u8 {
        match self {
            Kind::Template => 1,
            Kind::Default => 2,
        }
    }
}

/// What a row's class reference leads to.
#[derive(Debug, Clone, Copy, PartialEq, Eq, Hash)]
pub enum ClassKind {
    /// A script object whose path is known.
    ScriptFound,
    /// A script object that is missing, or whose path is not known.
    ScriptUnresolved,
    /// A class of another package.
    ImportFound,
    /// Another package, which has no such class or is missing.
    ImportUnresolved,
    /// A class of the same package.
    ExportFound,
    /// An export of the same package that is no class.
    ExportUnresolved,
    /// Nothing.
    Null,
    /// Something outside the package's lists.
    Bad,
}

impl ClassKind {
    /// All of them, in the order of their numbers from 0.
    pub const ALL: [ClassKind; 8] = [
        ClassKind::ScriptFound,
        ClassKind::ScriptUnresolved,
        ClassKind::ImportFound,
        ClassKind::ImportUnresolved,
        ClassKind::ExportFound,
        ClassKind::ExportUnresolved,
        ClassKind::Null,
        ClassKind::Bad,
    ];

    /// The number in the report.
    pub fn number(self) -> u8 {
        self as u8
    }

    /// In words: `import found`.
    pub fn words(self) -> &'static str {
        match self {
            ClassKind::ScriptFound => "script found",
            ClassKind::ScriptUnresolved => "script unresolved",
            ClassKind::ImportFound => "import found",
            ClassKind::ImportUnresolved => "import unresolved",
            ClassKind::ExportFound => "export found",
            ClassKind::ExportUnresolved => "export unresolved",
            ClassKind::Null => "null",
            ClassKind::Bad => "bad",
        }
    }
}

/// A component: an export that is a template or lies in a default object.
#[derive(Debug, Clone, Copy, PartialEq, Eq)]
pub struct Row<'a> {
    /// Why the export has a row.
    pub kind: Kind,
    /// Whether a template's name has an instance number.
    pub numbered: bool,
    /// What its class reference leads to.
    pub class_kind: ClassKind,
    /// The component's name.
    pub instance: &'a str,
    /// The export's name, with its instance number.
    pub export: &'a str,
    /// The name of the export that it lies in; empty without one.
    pub outer: &'a str,
    /// The class's path, where it is known. A class may be called `?`: that is `Some("?")`.
    pub class: Option<&'a str>,
    /// The native class's path, where it is known.
    pub native: Option<&'a str>,
    /// The class reference as text.
    pub reference: &'a str,
}

/// Reads the next row.
pub(crate) fn row<'a>(all: &mut Fields<'a>) -> Result<Row<'a>, Malformed> {
    let mut fields = all.part()?;
    fields.version()?;
    let kind = match fields.byte()? {
        1 => Kind::Template,
        2 => Kind::Default,
        _ => return Err(fields.wrong("a kind is not 1 or 2")),
    };
    let numbered = fields.flag()?;
    let class_kind = ClassKind::ALL.get(usize::from(fields.byte()?)).copied();
    let class_kind = class_kind.ok_or(fields.wrong("a class kind is above 7"))?;
    let (class_known, native_known) = (fields.flag()?, fields.flag()?);
    let row = Row {
        kind,
        numbered,
        class_kind,
        instance: fields.text()?,
        export: fields.text()?,
        outer: fields.text()?,
        class: fields.text_if(class_known)?,
        native: fields.text_if(native_known)?,
        reference: fields.text()?,
    };
    fields.end("bytes are left behind a row's texts")?;
    Ok(row)
}
