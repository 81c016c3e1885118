//! Panels that no sequence makes, byte by byte, and panels of house part P1 that are routed.

use super::{add, hex, All};

/// A panel's bytes: N, T, M, some of its records by their numbers from 1, and some of its loads by their columns.
fn bytes(sizes: [u8; 3], list: &[(usize, [u8; 3])], loads: &[(usize, u8)]) -> String {
    let mut bytes = [0; wire::PANEL];
    bytes[..3].copy_from_slice(&sizes);
    for &(number, record) in list {
        bytes[3 * number..3 * number + 3].copy_from_slice(&record);
    }
    for &(column, load) in loads {
        bytes[195 + column] = load;
    }
    hex(&bytes)
}

pub fn add_all(all: &mut All) {
    counts(all);
    loads(all);
    records(all);
    moved(all);
    cleared(all);
    routed(all);
}

/// Operations, what they are answered, and the panel before and after.
fn run(all: &mut All, before: &str, ops: &str, said: &str, after: &str) {
    add(all, format!("panel {before} {ops}"), format!("panel {said} {after}"));
}

/// M above 64 is read as 64, and an edit that is done leaves the number of the new list.
fn counts(all: &mut All) {
    let full = |count: u8, loads: &[(usize, u8)], last: [u8; 3]| bytes([2, 9, count], &[(64, last)], loads);
    for count in [64, 65, 255] {
        let before = full(count, &[(1, 5), (2, 5)], [1, 2, 0]);
        run(all, &before, "a:1:1:0,a:0:0:0,d:65,m:65:1:1,m:65:3:3", "refused:2:0,refused:2:0,refused:10:0,refused:10:0,refused:5:65", &before);
        run(all, &before, "d:64", "ok:4.4:0", &full(63, &[(1, 4), (2, 4)], [1, 2, 0]));
        run(all, &before, "m:64:2:2", "ok:4.5:0", &full(64, &[(1, 4), (2, 5)], [2, 2, 0]));
        run(all, &before, "d:1", "ok:5.5:0", &bytes([2, 9, 63], &[(63, [1, 2, 0]), (64, [1, 2, 0])], &[(1, 5), (2, 5)]));
    }
}

/// 255 goes no further up and 0 no further down; the byte of column 0 is no column's; the bytes behind N go as the others; red is read off the bytes.
fn loads(all: &mut All) {
    let odd = [(0, 9), (1, 255), (3, 7), (4, 1)];
    let up = [(0, 9), (1, 255), (2, 1), (3, 8), (4, 1)];
    run(all, &bytes([3, 7, 0], &[], &odd), "a:1:3:0", "ok:255.1.8:1", &bytes([3, 7, 1], &[(1, [1, 3, 0])], &up));
    let down = [(0, 9), (1, 254), (3, 7), (4, 1)];
    run(all, &bytes([3, 7, 1], &[(1, [1, 3, 0])], &up), "d:1", "ok:254.0.7:1", &bytes([3, 7, 0], &[(1, [1, 3, 0])], &down));
    run(all, &bytes([1, 255, 0], &[], &[(1, 254)]), "a:1:1:0", "ok:255:0", &bytes([1, 255, 1], &[(1, [1, 1, 0])], &[(1, 255)]));
    let stays = [(1, 3), (2, 1)];
    run(all, &bytes([2, 2, 1], &[(1, [1, 2, 2])], &[(1, 4), (2, 0)]), "m:1:2:2", "ok:3.0:1", &bytes([2, 2, 1], &[(1, [2, 2, 2])], &[(1, 3)]));
    run(all, &bytes([2, 2, 1], &[(1, [1, 2, 2])], &stays), "m:1:1:2", "ok:3.1:1", &bytes([2, 2, 1], &[(1, [1, 2, 2])], &stays));
    run(all, &bytes([2, 0, 0], &[], &[(2, 1), (3, 200)]), "-", "-", &bytes([2, 0, 0], &[], &[(2, 1), (3, 200)]));
    run(all, &bytes([2, 0, 0], &[], &[(3, 200)]), "a:2:2:0", "ok:0.1:2", &bytes([2, 0, 1], &[(1, [2, 2, 0])], &[(2, 1), (3, 200)]));
}

/// A stored connection crosses from its left to its right, wherever these are: from column 1 on if its left is 0, nothing if its left is behind its right.
fn records(all: &mut All) {
    let five = [(0, 5), (1, 5), (2, 5), (3, 5), (4, 5), (255, 5)];
    let before = |record: [u8; 3]| bytes([3, 9, 1], &[(1, record)], &five);
    let after = |record: [u8; 3], loads: &[(usize, u8)]| bytes([3, 9, 0], &[(1, record)], loads);
    for (record, said, loads) in [
        ([0, 2, 0], "ok:4.4.5:0", [(0, 5), (1, 4), (2, 4), (3, 5), (4, 5), (255, 5)]),
        ([0, 0, 2], "ok:5.5.5:0", five),
        ([3, 1, 0], "ok:5.5.5:0", five),
        ([255, 254, 255], "ok:5.5.5:0", five),
        ([2, 4, 0], "ok:5.4.4:0", [(0, 5), (1, 5), (2, 4), (3, 4), (4, 4), (255, 5)]),
        ([255, 255, 7], "ok:5.5.5:0", [(0, 5), (1, 5), (2, 5), (3, 5), (4, 5), (255, 4)]),
    ] {
        run(all, &before(record), "d:1", said, &after(record, &loads));
    }
    // Another piece that crosses nothing holds no column, and one behind N does.
    for (other, said, loads) in [
        ([3, 1, 2], "ok:4.4.4:0", [(0, 5), (1, 4), (2, 4), (3, 4), (4, 5), (255, 5)]),
        ([2, 9, 2], "ok:4.5.5:0", [(0, 5), (1, 4), (2, 5), (3, 5), (4, 5), (255, 5)]),
    ] {
        let pieces = bytes([3, 9, 2], &[(1, [1, 3, 2]), (2, other)], &five);
        run(all, &pieces, "d:1", said, &bytes([3, 9, 1], &[(1, other), (2, other)], &loads));
    }
}

/// Moves from columns that cross nothing, from column 0 and from behind N; a drop moves all three bytes of those behind it.
fn moved(all: &mut All) {
    let five = [(0, 5), (1, 5), (2, 5), (3, 5), (4, 5)];
    for (record, said, loads) in [
        ([3, 1, 0], "ok:5.6.6:0", [(0, 5), (1, 5), (2, 6), (3, 6), (4, 5)]),
        ([255, 254, 0], "ok:5.6.6:0", [(0, 5), (1, 5), (2, 6), (3, 6), (4, 5)]),
        ([0, 2, 0], "ok:4.5.6:0", [(0, 5), (1, 4), (2, 5), (3, 6), (4, 5)]),
        ([3, 4, 0], "ok:5.6.5:0", [(0, 5), (1, 5), (2, 6), (3, 5), (4, 4)]),
    ] {
        run(all, &bytes([3, 9, 1], &[(1, record)], &five), "m:1:2:3", said, &bytes([3, 9, 1], &[(1, [2, 3, 0])], &loads));
    }
    let before = bytes([4, 9, 3], &[(1, [1, 1, 2]), (2, [2, 2, 5]), (3, [3, 3, 9])], &[(1, 1), (2, 1), (3, 1)]);
    let after = bytes([4, 9, 2], &[(1, [2, 2, 5]), (2, [3, 3, 9]), (3, [3, 3, 9])], &[(2, 1), (3, 1)]);
    run(all, &before, "d:1", "ok:0.1.1.0:0", &after);
}

/// What is cleared or made has noughts but for N and T; a refused one is as it was.
fn cleared(all: &mut All) {
    let filled = hex(&[0xa5; wire::PANEL]);
    let noughts = ["0"; 165].join(".");
    run(all, &filled, "c", &format!("ok:{noughts}:0"), &bytes([0xa5, 0xa5, 0], &[], &[]));
    run(all, &filled, "n:3:36", "ok:0.0.0:0", &bytes([3, 36, 0], &[], &[]));
    run(all, &filled, "n:0:36,n:256:1,n:3:0,n:3:37,n:259:36,n:3:292", &["refused:2:0"; 6].join(","), &filled);
    run(
        all,
        &hex(&[0; wire::PANEL]),
        "c,a:1:1:0,d:1,m:1:1:1,m:1:0:0",
        "ok:-:0,refused:5:1,refused:10:0,refused:5:1,refused:5:1",
        &hex(&[0; wire::PANEL]),
    );
}

/// The edited list of P1 as its job file; another N or T is refused, and so is a stored connection that is bad.
fn routed(all: &mut All) {
    let empty = hex(&[0; wire::PANEL]);
    for (ops, rest, answer) in [
        ("-", "1 0 -", "refused 2 0 -"),
        ("n:30:8", "1 0 -", "routed 0 -"),
        ("n:30:8", "0 0 -", "refused 2 0 -"),
        ("n:30:8", "33 0 -", "refused 2 0 -"),
        ("n:30:7", "1 0 -", "refused 2 0 -"),
        ("n:29:8", "1 0 -", "refused 2 0 -"),
        ("n:31:8", "1 0 -", "refused 2 0 -"),
        ("n:30:9,a:1:5:0", "1 0 -", "refused 2 0 -"),
        ("n:30:8,a:1:30:0", "2 7 ff", "routed 7 07"),
        ("n:30:8,a:1:30:0", "2 6 ff", "undecided 6 ff"),
        ("n:30:8,a:1:30:1", "1 8 ff", "unroutable 8 ff"),
        ("n:30:8,a:1:30:0", "2 7 -", "refused 9 0 -"),
        ("n:30:8,a:1:5:0,a:1:5:0,a:1:5:0,d:1", "1 100 aabbff", "routed 3 0102ff"),
        ("n:30:8,a:1:5:2,a:6:10:2,m:2:1:5", "1 100 aabbff", "routed 2 0101ff"),
        ("n:30:8,a:1:5:0,a:6:10:1,m:2:1:5", "1 100 aabbff", "routed 8 0107ff"),
        ("n:30:8,a:1:5:0,a:1:31:0,d:2,m:2:1:1", "1 100 aabbff", "routed 1 01bbff"),
        ("n:30:8,a:1:5:0,c", "1 100 aa", "routed 0 aa"),
    ] {
        add(all, format!("panelroute {empty} {ops} {rest}"), answer);
    }
    let bad = bytes([30, 8, 2], &[(1, [1, 5, 0]), (2, [0, 5, 0])], &[]);
    add(all, format!("panelroute {bad} - 1 100 -"), "refused 5 2 -");
    add(all, format!("panelroute {bad} d:2 1 100 aa"), "routed 1 01");
    let many = bytes([30, 8, 65], &[], &[]);
    add(all, format!("panelroute {many} - 1 100 -"), "refused 5 1 -");
}
