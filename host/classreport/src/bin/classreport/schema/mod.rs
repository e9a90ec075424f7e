//! Descriptions of headers in JSON. The lists of texts, hashes and imported names are made as they are used: what a list
//! doesn't hold yet is added behind it.
mod fields;
mod index;
mod lists;
mod print;
mod read;

pub use print::printed;
pub use read::description;

/// What stands in them, for `header --help`.
pub const HELP: &str = "\
DESCRIPTION is JSON, one object. Only `package` has to be there:
  package    the package's name: a TEXT, or {\"name\": TEXT, \"number\": N}. An instance number of N shows as _ and N - 1,
             and 0 is none
  exports    a list of objects: name and number as above, outer, class and super (each an INDEX, without it null), and the
             public hash (a WORD, without it 0)
  names      the list of texts, where its order matters; a text may repeat, and a name may then say a number in it, from 0
  hashes     the list of public hashes (WORDs) that imports name
  imported   the list of imported names: TEXTs, or {\"name\": TEXT, \"number\": N}
What is used and not in its list is added behind it, so that the last three are seldom needed.

An INDEX is null, or one of
  {\"script\": \"/Script/Engine.AudioComponent\"}       a script object by its path (or by its index, \"0x…\")
  {\"package\": \"/Game/BP_Base\", \"hash\": \"0x1001\"}    an object of another package, by its public hash
  {\"export\": 0}                                     an object of this package, by its number from 0
  {\"import\": [0, 0]}                                an imported name and a hash, both by number
  \"0x4000000000000001\"                              a WORD, as it is
A WORD has 64 bits: \"0x\" and hexadecimal digits in quotes, or a number.

All that is not said is 0 or empty in the header. Where -o names a folder, as a build's packages/, the header is written
there as ID.bin, ID being that of the package's name. What is wrong is told with line, column and field.

Examples:
  classreport header tone.json -o build/packages
  echo '{\"package\": \"/Game/Tone\"}' | classreport header - -o tone.bin
";
