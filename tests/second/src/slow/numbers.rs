//! The documents' numbers and examples, held by the definitions.

use super::*;
use crate::Track;

fn connection(left: u8, right: u8) -> Connection {
    Connection { left, right, mark: 0 }
}

fn job(limit: u8, connections: &[(u8, u8)]) -> Job {
    Job {
        columns: 6,
        limit,
        tracks: vec![Track { performance: false, ends: vec![3, 6] }, Track { performance: false, ends: vec![2, 6] }],
        connections: connections.iter().map(|&(left, right)| connection(left, right)).collect(),
    }
}

fn job_a() -> Job {
    job(2, &[(1, 2), (3, 5), (4, 6)])
}

fn job_b(limit: u8) -> Job {
    job(limit, &[(3, 5), (4, 6), (4, 4)])
}

fn none(pairs: u128) -> Need {
    Need { first: None, pairs }
}

fn some(first: &[usize], pairs: u128) -> Need {
    Need { first: Some(first.to_vec()), pairs }
}

#[test]
fn the_twelve_numbers() {
    let a = job_a();
    assert_eq!(occupied(&a, 1, &connection(3, 4)), [1, 2]);
    assert_eq!(occupied(&a, 1, &connection(3, 3)), [1]);
    assert_eq!(occupied(&a, 1, &connection(4, 6)), [2]);
    assert_eq!(occupied(&a, 2, &connection(2, 3)), [1, 2]);
    assert_eq!(need(&a), some(&[1, 2, 1], 4));
    assert!(legal(&a, &[2, 1, 2]));
    assert!(!legal(&a, &[1, 1, 1]));
    assert_eq!(need(&job_b(2)), none(10));
    assert_eq!(need(&job_b(1)), none(6));
    assert_eq!(need(&job(2, &[])), some(&[], 0));
    let mut critical = job_a();
    critical.connections[1].mark = 1;
    assert_eq!(need(&critical), none(6));
    let one = Job { columns: 6, limit: 1, tracks: vec![Track { performance: false, ends: vec![6] }], connections: vec![connection(1, 6)] };
    assert_eq!(need(&one), some(&[1], 1));
    assert_eq!(lines(&one), ["p cnf 1 1\n", "-1 0\n"]);
}

/// Job B with other marks.
fn job_b_marked(marks: [u8; 3]) -> Job {
    let mut job = job_b(2);
    for (connection, mark) in job.connections.iter_mut().zip(marks) {
        connection.mark = mark;
    }
    job
}

#[test]
fn pieces_of_one_net_in_job_b() {
    assert_eq!(need(&job_b_marked([2, 0, 2])), some(&[1, 2, 1], 4));
    assert_eq!(need(&job_b_marked([254, 0, 254])), some(&[1, 2, 1], 4));
    assert_eq!(need(&job_b_marked([2, 2, 2])), some(&[1, 1, 1], 3));
    assert_eq!(need(&job_b_marked([2, 0, 4])), none(10));
    assert_eq!(need(&job_b_marked([3, 0, 2])), none(2));
    assert_eq!(lines(&job_b_marked([2, 0, 2])), ["p cnf 3 4\n", "1 2 0\n", "-1 -2 0\n", "2 3 0\n", "-2 -3 0\n"]);
    let shared = job_b_marked([2, 0, 2]);
    assert!(share(&shared, 1, &shared.connections[0], &shared.connections[2]));
}

#[test]
fn every_mark_is_a_net_and_a_critical_bit() {
    for mark in 0..=255 {
        let connection = Connection { left: 1, right: 1, mark };
        assert_eq!(u32::from(connection.net()) * 2 + u32::from(connection.critical()), u32::from(mark));
        assert_eq!(read(&job_b_marked([0, mark, 0]).encode()), Ok(job_b_marked([0, mark, 0])));
    }
}

#[test]
fn job_a_as_a_file() {
    let file = [2, 0, 3, 6, 2, 0, 2, 6, 1, 2, 0, 3, 5, 0, 4, 6, 0, 0x11, 0, 9, 0, 6, 2, 3, 2];
    assert_eq!(job_a().encode(), file);
    assert_eq!(read(&file), Ok(job_a()));
    assert_eq!(part_of_file(&file), Ok((8, 9)));
    assert_eq!(lines(&job_a()), ["p cnf 3 3\n", "1 2 0\n", "2 3 0\n", "-2 -3 0\n"]);
    assert_eq!(program(&file), b"routed 4\n1 1 1 1\n2 2 2 2\n3 1 2 2\n");
    assert_eq!(program(&job_b(2).encode()), b"unroutable 10\n");
    assert_eq!(program(&[0; 4097]), b"refused 3 0\n");
    assert_eq!(route(&file, 3, 3), Ok(Verdict::Undecided { trials: 3 }));
    assert_eq!(route(&file, 4, 3), Ok(Verdict::Routed { labels: vec![1, 2, 1], trials: 4 }));
    assert_eq!(reply(&file, b"", 3), Err(Refusal { number: 6, place: 0 }));
    assert_eq!(reply(&file, b"s SATISFIABLE\nv -1 2 -3 0", 3), Ok(Replied::Accepted { labels: vec![1, 2, 1] }));
}

#[test]
fn the_table_of_p1_has_34_numbers() {
    let job = p1_job(&[], 1);
    assert_eq!(job.tracks.iter().map(|t| t.ends.len()).sum::<usize>(), 34);
    assert_eq!(read(&p1(&[1, 30, 0], 2, 100).unwrap()), Ok(p1_job(&[1, 30, 0], 2)));
}
