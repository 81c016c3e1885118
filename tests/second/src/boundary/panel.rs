//! The editor's panel: the loads of every column after every operation, and the first red column or 0.

use super::{add, All};

pub fn add_all(all: &mut All) {
    for (panel, edits) in EDITS {
        let (ops, said): (Vec<&str>, Vec<&str>) = edits.iter().copied().unzip();
        add(all, format!("edit {panel} {}", ops.join(",")), said.join(","));
    }
    sizes(all);
    full(all);
    widest(all);
    protocol(all);
}

/// A panel's N and T, and its operations with their answers.
type Edits = (&'static str, &'static [(&'static str, &'static str)]);

const EDITS: [Edits; 21] = [
    // The connections of job A, of job B, and of job B with its first and its last as pieces of one net.
    ("6 2", &[("a:1:2:0", "ok:1.1.0.0.0.0:0"), ("a:3:5:0", "ok:1.1.1.1.1.0:0"), ("a:4:6:0", "ok:1.1.1.2.2.1:0")]),
    ("6 2", &[("a:3:5:0", "ok:0.0.1.1.1.0:0"), ("a:4:6:0", "ok:0.0.1.2.2.1:0"), ("a:4:4:0", "ok:0.0.1.3.2.1:4")]),
    ("6 2", &[("a:3:5:2", "ok:0.0.1.1.1.0:0"), ("a:4:6:0", "ok:0.0.1.2.2.1:0"), ("a:4:4:2", "ok:0.0.1.2.2.1:0")]),
    // Three pieces over one column: one leaves, then another, then the last.
    (
        "5 2",
        &[
            ("a:1:3:2", "ok:1.1.1.0.0:0"),
            ("a:2:4:2", "ok:1.1.1.1.0:0"),
            ("a:3:5:3", "ok:1.1.1.1.1:0"),
            ("d:2", "ok:1.1.1.1.1:0"),
            ("d:1", "ok:0.0.1.1.1:0"),
            ("d:1", "ok:0.0.0.0.0:0"),
        ],
    ),
    // A piece that alone held the middle.
    ("5 2", &[("a:1:2:2", "ok:1.1.0.0.0:0"), ("a:2:4:2", "ok:1.1.1.1.0:0"), ("a:4:5:2", "ok:1.1.1.1.1:0"), ("d:2", "ok:1.1.0.1.1:0")]),
    // Red at load T + 1 and not at T.
    ("3 2", &[("a:1:2:0", "ok:1.1.0:0"), ("a:2:3:0", "ok:1.2.1:0"), ("a:2:2:0", "ok:1.3.1:2"), ("d:1", "ok:0.2.1:0")]),
    // The first of two red columns.
    (
        "5 1",
        &[
            ("a:2:2:0", "ok:0.1.0.0.0:0"),
            ("a:4:4:0", "ok:0.1.0.1.0:0"),
            ("a:4:5:0", "ok:0.1.0.2.1:4"),
            ("a:1:2:0", "ok:1.2.0.2.1:2"),
            ("d:1", "ok:1.1.0.2.1:4"),
        ],
    ),
    // Red in the first column, and in the last.
    ("3 1", &[("a:1:1:0", "ok:1.0.0:0"), ("a:1:1:0", "ok:2.0.0:1"), ("m:2:3:3", "ok:1.0.1:0"), ("a:3:3:0", "ok:1.0.2:3")]),
    // Refused moves leave the loads: bad columns before an absent number, with the number given as place.
    (
        "4 3",
        &[
            ("a:1:2:0", "ok:1.1.0.0:0"),
            ("a:3:4:2", "ok:1.1.1.1:0"),
            ("m:1:0:2", "refused:5:1"),
            ("m:1:2:5", "refused:5:1"),
            ("m:1:3:2", "refused:5:1"),
            ("m:1:2:256", "refused:5:1"),
            ("m:2:300:300", "refused:5:2"),
            ("m:3:1:1", "refused:10:0"),
            ("m:3:5:5", "refused:5:3"),
            ("m:0:1:1", "refused:10:0"),
            ("m:0:0:0", "refused:5:0"),
            ("m:1:1:1", "ok:1.0.1.1:0"),
        ],
    ),
    // Refused adds: the place is one behind the last.
    (
        "4 3",
        &[
            ("a:0:1:0", "refused:5:1"),
            ("a:1:4:0", "ok:1.1.1.1:0"),
            ("a:1:5:0", "refused:5:2"),
            ("a:3:2:255", "refused:5:2"),
            ("a:2:3:0", "ok:1.2.2.1:0"),
        ],
    ),
    // Numbers are never cut to a byte, or to four.
    (
        "4 3",
        &[
            ("a:1:2:0", "ok:1.1.0.0:0"),
            ("a:257:258:0", "refused:5:2"),
            ("a:1:258:0", "refused:5:2"),
            ("a:4294967297:4294967298:0", "refused:5:2"),
            ("d:257", "refused:10:0"),
            ("d:4294967297", "refused:10:0"),
            ("d:18446744073709551615", "refused:10:0"),
            ("m:257:1:1", "refused:10:0"),
            ("m:257:0:1", "refused:5:257"),
            ("m:18446744073709551615:0:1", "refused:5:18446744073709551615"),
            ("m:1:2:300", "refused:5:1"),
            ("d:1", "ok:0.0.0.0:0"),
        ],
    ),
    // A drop in the middle closes the gap: the third is the second then.
    (
        "4 3",
        &[
            ("a:1:1:0", "ok:1.0.0.0:0"),
            ("a:2:2:0", "ok:1.1.0.0:0"),
            ("a:3:3:0", "ok:1.1.1.0:0"),
            ("d:2", "ok:1.0.1.0:0"),
            ("m:2:4:4", "ok:1.0.0.1:0"),
            ("d:3", "refused:10:0"),
            ("d:2", "ok:1.0.0.0:0"),
        ],
    ),
    // A move keeps the mark: what is moved over a piece of its net, and what is added to it, count once.
    (
        "4 1",
        &[
            ("a:1:2:2", "ok:1.1.0.0:0"),
            ("a:3:4:2", "ok:1.1.1.1:0"),
            ("m:1:3:4", "ok:0.0.1.1:0"),
            ("d:2", "ok:0.0.1.1:0"),
            ("a:3:3:3", "ok:0.0.1.1:0"),
            ("a:3:3:0", "ok:0.0.2.1:3"),
        ],
    ),
    // One column on and back, longer, shorter, and onto itself.
    (
        "5 2",
        &[
            ("a:2:3:0", "ok:0.1.1.0.0:0"),
            ("m:1:3:4", "ok:0.0.1.1.0:0"),
            ("m:1:2:3", "ok:0.1.1.0.0:0"),
            ("m:1:2:4", "ok:0.1.1.1.0:0"),
            ("m:1:3:3", "ok:0.0.1.0.0:0"),
            ("m:1:3:3", "ok:0.0.1.0.0:0"),
        ],
    ),
    // To where another piece is already, half over it, and back; onto itself there.
    (
        "6 2",
        &[
            ("a:1:2:4", "ok:1.1.0.0.0.0:0"),
            ("a:4:6:4", "ok:1.1.0.1.1.1:0"),
            ("m:1:5:6", "ok:0.0.0.1.1.1:0"),
            ("m:1:5:6", "ok:0.0.0.1.1.1:0"),
            ("m:1:3:4", "ok:0.0.1.1.1.1:0"),
            ("m:2:3:3", "ok:0.0.1.1.0.0:0"),
            ("m:1:1:2", "ok:1.1.1.0.0.0:0"),
        ],
    ),
    // The last is dropped, and then there is none.
    ("3 1", &[("a:1:3:0", "ok:1.1.1:0"), ("d:1", "ok:0.0.0:0"), ("d:1", "refused:10:0"), ("d:0", "refused:10:0"), ("m:1:1:1", "refused:10:0")]),
    // Cleared, and then begun again.
    (
        "3 1",
        &[
            ("a:1:2:0", "ok:1.1.0:0"),
            ("a:2:3:2", "ok:1.2.1:2"),
            ("c", "ok:0.0.0:0"),
            ("d:1", "refused:10:0"),
            ("a:3:3:2", "ok:0.0.1:0"),
            ("a:1:3:2", "ok:1.1.1:0"),
            ("c", "ok:0.0.0:0"),
            ("c", "ok:0.0.0:0"),
        ],
    ),
    // Net 0 never joins, critical or not; the last nets, and nets that would be one if a bit were lost.
    ("2 3", &[("a:1:2:1", "ok:1.1:0"), ("a:1:2:1", "ok:2.2:0"), ("a:1:2:0", "ok:3.3:0"), ("a:2:2:0", "ok:3.4:2")]),
    ("1 2", &[("a:1:1:254", "ok:1:0"), ("a:1:1:255", "ok:1:0"), ("a:1:1:126", "ok:2:0"), ("a:1:1:127", "ok:2:0"), ("a:1:1:128", "ok:3:1")]),
    ("1 2", &[("a:1:1:2", "ok:1:0"), ("a:1:1:3", "ok:1:0"), ("a:1:1:1", "ok:2:0"), ("a:1:1:130", "ok:3:1")]),
    // One column.
    ("1 1", &[("a:1:1:0", "ok:1:0"), ("a:1:2:0", "refused:5:2"), ("a:0:1:0", "refused:5:2"), ("m:1:1:1", "ok:1:0"), ("d:1", "ok:0:0")]),
];

/// The limits of N and T on both sides.
fn sizes(all: &mut All) {
    for panel in ["1 1", "255 36", "1 36", "255 1"] {
        add(all, format!("edit {panel} -"), "-");
    }
    for panel in ["0 1", "256 1", "257 1", "1 0", "1 37", "1 256", "1 257", "0 0", "4294967297 1", "1 18446744073709551615"] {
        add(all, format!("edit {panel} -"), "refused 2 0");
        add(all, format!("edit {panel} a:1:1:0,d:7"), "refused 2 0");
    }
}

/// Sixty-four connections and a sixty-fifth, on their own and as pieces. A full list is refused before bad columns are.
fn full(all: &mut All) {
    let alone: Vec<String> = (1..=64).map(|n| format!("ok:{n}:{}", u8::from(n > 36))).collect();
    let ops = format!("{}a:1:1:0,a:0:9:0,m:65:1:1,d:65,d:64,a:1:2:0,a:1:1:2,a:1:1:2,d:1", "a:1:1:0,".repeat(64));
    let rest = "refused:2:0,refused:2:0,refused:10:0,refused:10:0,ok:63:1,refused:5:64,ok:64:1,refused:2:0,ok:63:1";
    add(all, format!("edit 1 36 {ops}"), format!("{},{rest}", alone.join(",")));
    let ops = format!("{}a:1:2:254,m:64:2:2,d:1,a:1:1:0", "a:1:1:254,".repeat(64));
    let said = format!("{}refused:2:0,ok:1.1:0,ok:1.1:0,ok:2.1:1", "ok:1.0:0,".repeat(64));
    add(all, format!("edit 2 1 {ops}"), said);
}

/// All columns, and the last.
fn widest(all: &mut All) {
    let (noughts, ones) = ("0.".repeat(254), "1.".repeat(254));
    let said = format!("ok:{noughts}1:0,ok:{ones}2:255,refused:5:3,refused:5:3,ok:{noughts}2:255,ok:{ones}1:0");
    add(all, "edit 255 1 a:255:255:2,a:1:255:0,a:1:256:0,a:2:300:0,m:2:255:255,m:2:1:254", said);
}

fn protocol(all: &mut All) {
    for line in [
        "edit 6 2",
        "edit 6 2 x",
        "edit 6 2 c,",
        "edit 6 2 a:1:2",
        "edit 6 2 a:1:2:256",
        "edit 6 2 d:18446744073709551616",
        "edit 6 2 n:6:2",
        "panel 00 c",
    ] {
        add(all, line, "protocol-error");
    }
}
