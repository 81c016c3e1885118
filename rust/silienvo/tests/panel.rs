//! The panel beside the router: a job that has a routing is never red, and a red one has none.

use second::make::{crowded, enumerated, Rng};
use second::{slow, Job, Verdict};
use silienvo::{Panel, PANEL};

/// The panel of a job's connections.
fn panel_of(job: &Job) -> Panel {
    let mut panel = Panel::new(job.columns.into(), job.tracks.len() as u64).expect("a job's sizes");
    for c in &job.connections {
        panel.add(c.left.into(), c.right.into(), c.mark).expect("a job's connection");
    }
    panel
}

#[test]
fn a_routable_channel_is_never_red() {
    let mut rng = Rng::new(22);
    let (mut routable, mut red, mut neither) = (0, 0, 0);
    for i in 0..6_000 {
        let job = if i % 2 == 0 { crowded(&mut rng) } else { enumerated(&mut rng) };
        let column = panel_of(&job).red();
        let ours = silienvo::route(&job.encode(), u32::MAX, &mut [0; 64]).expect("a job");
        match (slow::route_job(&job, u32::MAX), ours) {
            (Verdict::Routed { .. }, silienvo::Verdict::Routed(_)) => {
                assert_eq!(column, None, "{job:?}");
                routable += 1;
            }
            (Verdict::Unroutable { .. }, silienvo::Verdict::Unroutable(_)) if column.is_some() => red += 1,
            (Verdict::Unroutable { .. }, silienvo::Verdict::Unroutable(_)) => neither += 1,
            (theirs, ours) => panic!("{theirs:?} and {ours:?}: {job:?}"),
        }
    }
    println!("{routable} routable, {red} red, {neither} neither");
    assert!(routable > 500 && red > 500 && neither > 100);
}

#[test]
fn a_panel_is_its_bytes() {
    let mut rng = Rng::new(25);
    for _ in 0..100 {
        let bytes: [u8; PANEL] = rng.bytes(PANEL).try_into().expect("a panel's bytes");
        let panel = Panel::from_bytes(&bytes);
        assert_eq!((panel.to_bytes(), panel.columns(), panel.tracks()), (bytes, bytes[0], bytes[1]));
        assert_eq!(panel.connections().len(), usize::from(bytes[2]).min(64));
        assert_eq!(panel.loads(), &bytes[196..196 + usize::from(bytes[0])]);
    }
}
