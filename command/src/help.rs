//! The help texts.

use crate::arguments::Command;

const WHOLE: &str = "\
tdload tries the launch of a firmware image for an Intel TDX trust domain and shows
what the host would do, or which rule refuses it.

usage: tdload plan    IMAGE MAP [--width 48|52] [--json]   the pages to add, in order
       tdload measure IMAGE MAP [--width 48|52] [--json] [--quiet]
                                                           the measurement, MRTD, in hex
       tdload hob     IMAGE MAP [--width 48|52] [--json]   the memory the guest is told of
       tdload map     TEXT OUT [--json]                    a text map to a binary one
       tdload COMMAND --help
       tdload --help | --version
";

const PLAN: &str = "\
usage: tdload plan IMAGE MAP [--width 48|52] [--json]

Prints `pages P hob H blocks B` (planned pages, bytes of the hand-off list, measured
blocks of 128 bytes) and then a line for each page in the order in which the TDX module
adds it: address in hex, data offset, data length, section type, measured 0 or 1.
";

const MEASURE: &str = "\
usage: tdload measure IMAGE MAP [--width 48|52] [--json] [--quiet]

Prints the measurement of the launch, 48 bytes in hex: MRTD as the TDX module computes it.

It is worked out in turns of 4,096 blocks of 128 bytes. Where standard error is a terminal a
bar shows there how many are done, the padding counting as one, and is erased at the end;
--quiet shows none. An interrupt (SIGINT) or SIGTERM lets the turn under way end: nothing is
printed on standard output, and the command ends by that signal, which a shell shows as
status 130 or 143. The same signal once more ends it at once.
";

const HOB: &str = "\
usage: tdload hob IMAGE MAP [--width 48|52] [--json]

Prints `hob H pieces N end E` (bytes and pieces of the hand-off list, and the address just
past it in the guest's memory) and then a table of the pieces: start, end and length in
hex, resource type, attributes, and what it is.
";

const MAP: &str = "\
usage: tdload map TEXT OUT [--json]

Writes the binary form of the map in TEXT to OUT, and prints `records N bytes M`. It does
not try the rules of a map: `tdload plan` does.
";

const IMAGE: &str = "
IMAGE is a firmware image in the TDVF format.
";

const FORMS: &str = "
The text form of a map has a record a line, `start length kind`: numbers in decimal or in
hex behind 0x, and the kind as ram, firmware or mmio or as a number. `#` starts a comment;
blank lines are passed over. The binary form has records of 24 bytes: start (8), length
(8), kind (4; 1 RAM, 2 firmware, 3 MMIO), zero (4), little-endian.
";

const TOLD_APART: &str = "
MAP may have either form. A file with a zero byte is read as binary, and one without as
text. Neither passes for the other: each record of a binary map that keeps the rules ends
in four zero bytes, and a text has none. A text of more than 1 MiB is not read.
";

const WIDTH: &str = "
--width is the guest address width in bits, 48 or 52; without it, 48. Any other number is
handed to the library too, which refuses it by rule 2.
";

const REFUSED: &str = "
A refused launch prints `refused NUMBER`, behind it `section INDEX` or `record INDEX` (from
0) where the rule has a place, and on standard error what the rule asks. docs/RULES.md has
all rules.
";

const JSON: &str = "
--json prints one JSON object instead, also for a refusal. It has `accepted` (true or
false) and `map_form` (text or binary), and if refused, `refusal` with `number`, `place`
(section, record or null), `index` (or null) and `meaning`; else:
";

const JSON_PLAN: &str = "\
  pages, hob_length, blocks, plan (address, offset, length, type, measured)
";

const JSON_MEASURE: &str = "\
  blocks, measurement
";

const JSON_HOB: &str = "\
  hob_length, end, pieces (start, end, length, resource_type, attributes, what)
";

const JSON_MAP: &str = "
--json prints one JSON object instead: `records`, `bytes`.
";

const STATUS: &str = "
Exit status: 0 accepted, 1 refused, 2 wrong usage or a file that cannot be read or written,
with the cause on standard error and nothing on standard output. A standard output that is
closed early is status 2 too, without a message.
";

/// The help of a command, or of the whole program.
pub fn of(command: Option<Command>) -> String {
    match command {
        None => [WHOLE, IMAGE, FORMS, TOLD_APART, WIDTH, REFUSED, STATUS].concat(),
        Some(Command::Plan) => of_launch(PLAN, JSON_PLAN),
        Some(Command::Measure) => of_launch(MEASURE, JSON_MEASURE),
        Some(Command::Hob) => of_launch(HOB, JSON_HOB),
        Some(Command::Map) => [MAP, FORMS, JSON_MAP, STATUS].concat(),
    }
}

fn of_launch(own: &str, members: &str) -> String {
    [own, IMAGE, FORMS, TOLD_APART, WIDTH, REFUSED, JSON, members, STATUS].concat()
}
