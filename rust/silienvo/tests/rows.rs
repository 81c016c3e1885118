//! The lines of brought routings, against what the second router says of them: legal or not, room or not, and the segments by the document's words.

use second::make::{batch, Rng};
use second::{slow, Refusal};
use silienvo::ROW;
use wire::Request;

/// The lines, or the refusal: the file's rows, then 9, then 11.
fn expected(file: &[u8], labels: &[u8], room: usize) -> Result<Vec<u8>, Refusal> {
    let job = slow::read(file)?;
    if room < ROW * job.connections.len() {
        return Err(Refusal { number: 9, place: 0 });
    }
    slow::judge(file, labels)?;
    let row = |(i, (c, &label)): (usize, (&second::Connection, &u8))| {
        let occupied = slow::occupied(&job, usize::from(label), c);
        format!("{} {label} {} {}\n", i + 1, occupied[0], occupied[occupied.len() - 1])
    };
    Ok(job.connections.iter().zip(labels).enumerate().map(row).collect::<String>().into_bytes())
}

#[test]
fn the_lines_are_those_of_the_second_router() {
    let mut rng = Rng::new(16);
    let (mut written, mut by_number) = (0, [0; 12]);
    for _ in 0..600 {
        for asked in batch(&mut rng) {
            let Request::Judge { file, labels } = asked.request else { continue };
            let needed = ROW * file.len().checked_sub(2).map_or(0, |at| usize::from(file[at]));
            let room = match rng.below(4) {
                0 => needed.saturating_sub(1 + rng.below(20)),
                1 => needed + rng.below(20),
                _ => needed,
            };
            let before = rng.bytes(room);
            let mut text = before.clone();
            match (silienvo::rows(&file, &labels, &mut text), expected(&file, &labels, before.len())) {
                (Ok(length), Ok(lines)) => {
                    assert_eq!((&text[..length as usize], &text[lines.len()..]), (&lines[..], &before[lines.len()..]));
                    written += 1;
                }
                (Err(ours), Err(theirs)) => {
                    assert_eq!((ours.number, ours.place, &text), (theirs.number, theirs.place, &before));
                    by_number[ours.number as usize] += 1;
                }
                (ours, theirs) => panic!("{ours:?} for {theirs:?}: {file:?} {labels:?}"),
            }
        }
    }
    println!("{written} written, {by_number:?} refused by number");
    assert!(written > 100 && [1, 2, 3, 4, 5, 9, 11].iter().all(|&number: &usize| by_number[number] > 0));
}
