//! The picture of a job as an SVG: the channel with its tracks and segments, and the connections on their tracks or above the channel.

use crate::view::{Connection, Job, Row, Track};

/// In pixels: the room left and right of the channel and above the column numbers, and the height of a line of these.
const GUTTER: usize = 54;
const MARGIN: usize = 21;
const HEAD: usize = 56;
const AXIS: usize = 16;
/// The width that all columns may take together, and the widest column.
const CHANNEL: usize = 1785;
const WIDEST: usize = 48;
/// What the legend explains and where each name has its sample; then its right edge.
const LEGEND: [(&str, usize); 5] =
    [("segment", 12), ("occupied segment", 130), ("connection", 306), ("critical connection", 436), ("performance track", 610)];
const LEGEND_END: usize = 780;
/// The colours and the letters, by class.
const STYLE: &str = "text{fill:#1b1f24;text-anchor:middle} .head,.legend,.beside{text-anchor:start} .label{text-anchor:end}
.head{font-size:15px} .legend{font-size:12px} .axis{fill:#57606a;font-size:10px} .outside{font-size:90%} .inside{fill:#fff}
.inside,.mark{font-weight:bold} .file{font-weight:bold;unicode-bidi:isolate} .even{fill:#fff} .odd{fill:#f1f3f5} .performance{fill:#ffe994}
.segment{fill:#fff;fill-opacity:.6;stroke:#818b96} .occupied{fill:#b9dcff;stroke:#4c7fb5} .connection{fill:#0b5cad}
.critical{fill:#c2410c;stroke:#000;stroke-width:2} .grid{fill:#4a5568;fill-opacity:.18;pointer-events:none}";

/// Where a connection's number stands on its track.
#[derive(Clone, Copy, PartialEq)]
enum Place {
    Inside,
    Above,
    Below,
}

/// The measures of a picture in pixels; each connection's lane, on its track or without a routing above the channel; and how many lanes each track has.
struct Sheet {
    column: usize,
    font: usize,
    pitch: usize,
    right: usize,
    top: usize,
    lanes: Vec<usize>,
    depths: Vec<usize>,
}

impl Sheet {
    /// Columns as wide and letters as large as the screen allows: a number of two digits is never wider than two columns.
    fn new(job: &Job, rows: Option<&[Row]>) -> Sheet {
        let column = (CHANNEL / usize::from(job.columns)).min(WIDEST);
        let font = (column * 10 / 7).min(1010 / job.tracks.len() / 3).clamp(10, 14);
        let pitch = if rows.is_some() { 3 * font - 2 } else { font + 6 };
        let right = GUTTER + column * usize::from(job.columns);
        let (lanes, depths) = (vec![0; job.connections.len()], vec![1; job.tracks.len()]);
        let mut sheet = Sheet { column, font, pitch, right, top: HEAD + AXIS, lanes, depths };
        match rows {
            Some(rows) => (1..=job.tracks.len()).for_each(|label| sheet.depths[label - 1] = sheet.stack(job, &on_track(job, rows, label))),
            None => {
                let all: Vec<usize> = (0..job.connections.len()).collect();
                let depth = sheet.give_lanes(job, &all);
                sheet.top += if all.is_empty() { 0 } else { depth * sheet.lane() + 8 };
            }
        }
        sheet
    }

    /// Gives these connections lanes in which neither their bars nor their numbers lie over each other; says how many.
    fn give_lanes(&mut self, job: &Job, these: &[usize]) -> usize {
        let extents: Vec<_> = these.iter().map(|&i| self.extent(&job.connections[i], i + 1)).collect();
        let lanes = lanes(&extents);
        these.iter().zip(&lanes).for_each(|(&i, &lane)| self.lanes[i] = lane);
        lanes.iter().max().map_or(1, |last| last + 1)
    }

    /// The same for the connections of a track, given from left to right, if two of them have a column in common, as pieces of one net may; else one lane
    /// will do.
    fn stack(&mut self, job: &Job, here: &[usize]) -> usize {
        match here.windows(2).any(|two| job.connections[two[1]].left <= job.connections[two[0]].right) {
            true => self.give_lanes(job, here),
            false => 1,
        }
    }

    /// The left and right edge of a run of columns, a little short so that neighbours stand apart.
    fn edges(&self, left: u8, right: u8) -> (usize, usize) {
        (GUTTER + (usize::from(left) - 1) * self.column, GUTTER + usize::from(right) * self.column - (self.column / 16).max(1))
    }

    /// The most that a connection's number takes across in the usual fonts.
    fn number_width(&self, number: usize) -> usize {
        (number.to_string().len() * self.font * 7).div_ceil(10).max(self.font)
    }

    /// What a connection takes across in its lane: its bar, and its number right of that if the bar is too short.
    fn extent(&self, connection: &Connection, number: usize) -> (usize, usize) {
        let ((left, right), width) = (self.edges(connection.left, connection.right), self.number_width(number));
        (left, if fits((left, right), width) { right } else { right + 2 + width })
    }

    /// The foot of a number in a bar, from the top of its segment: digits are 0.72 of their letters' size high.
    fn foot(&self, top: usize) -> usize {
        top + 1 + (self.font * 43 + 25) / 50
    }

    /// From the top of a lane to the next.
    fn lane(&self) -> usize {
        self.font + 4
    }

    /// The top of a track's row, the tracks counted from 1; for one behind the last, the bottom of the channel.
    fn row(&self, track: usize) -> usize {
        let further: usize = self.depths[..track - 1].iter().map(|depth| depth - 1).sum();
        self.top + (track - 1) * self.pitch + further * self.lane()
    }

    /// The top of a track's segments, and their height.
    fn segments(&self, track: usize) -> (usize, usize) {
        (self.row(track) + (self.pitch - self.font - 2) / 2, self.depths[track - 1] * self.lane() - 2)
    }
}

/// The connections on a track, from 0 and from left to right.
fn on_track(job: &Job, rows: &[Row], label: usize) -> Vec<usize> {
    let mut here: Vec<usize> = (0..rows.len()).filter(|&i| rows[i].label == label).collect();
    here.sort_by_key(|&i| job.connections[i].left);
    here
}

/// The picture of a job: `title` is the file's name, `verdict` what the router said, `rows` the routing if there is one.
pub fn svg(title: &str, verdict: &str, job: &Job, rows: Option<&[Row]>) -> String {
    let sheet = Sheet::new(job, rows);
    let (head, reach) = head(title, verdict, job);
    let bottom = sheet.row(job.tracks.len() + 1);
    let (width, height) = (reach.max(sheet.right + MARGIN), bottom + AXIS + 4);
    let mut out = format!("<?xml version=\"1.0\" encoding=\"UTF-8\"?>\n<svg width=\"{width}\" height=\"{height}\" viewBox=\"0 0 {width} {height}\"");
    out += &format!(" xmlns=\"http://www.w3.org/2000/svg\" font-family=\"Arial, Helvetica, sans-serif\" font-size=\"{}\">\n", sheet.font);
    out += &format!("<style>{STYLE}</style>\n{}{head}", block("even", (0, width), 0, height, 0.0));
    for (track, number) in job.tracks.iter().zip(1..) {
        out += &track_row(&sheet, number, track);
    }
    out += &axis(&sheet, job.columns, bottom);
    out += &match rows {
        Some(rows) => routing(&sheet, job, rows),
        None => waiting(&sheet, job),
    };
    out + "</svg>\n"
}

/// A text as XML holds it: its marks escaped, its control characters and what else XML forbids replaced.
fn escaped(text: &str) -> String {
    let shown = |c: char| match c {
        '&' => "&amp;".to_string(),
        '<' => "&lt;".to_string(),
        '>' => "&gt;".to_string(),
        '"' => "&quot;".to_string(),
        '\'' => "&#39;".to_string(),
        c if c.is_control() || c == '\u{fffe}' || c == '\u{ffff}' => '\u{fffd}'.to_string(),
        c => c.to_string(),
    };
    text.chars().map(shown).collect()
}

/// A title of at most 60 characters: of a longer one the beginning and the end.
fn shortened(title: &str) -> String {
    let all: Vec<char> = title.chars().collect();
    if all.len() <= 60 {
        return title.to_string();
    }
    all[..36].iter().chain(&['…']).chain(&all[all.len() - 23..]).collect()
}

/// The most that a text takes across in the usual fonts, in letters of a size.
fn text_width(text: &str, size: usize) -> usize {
    let narrow = |c: char| c.is_ascii() && !c.is_ascii_uppercase() && !"mw@%&".contains(c);
    text.chars().map(|c| if narrow(c) { 66 } else { 115 }).sum::<usize>() * size / 100
}

/// Whether a number of a width stands free in a bar.
fn fits((left, right): (usize, usize), width: usize) -> bool {
    right - left >= width + 3
}

/// A rectangle between two edges, its outline inside them.
fn block(class: &str, (left, right): (usize, usize), top: usize, height: usize, outline: f64) -> String {
    let (x, y) = (left as f64 + outline / 2.0, top as f64 + outline / 2.0);
    let (width, height) = ((right - left) as f64 - outline, height as f64 - outline);
    format!("<rect class=\"{class}\" x=\"{x}\" y=\"{y}\" width=\"{width}\" height=\"{height}\"/>\n")
}

/// A line of text in the middle of two edges, or at one edge if its class says so.
fn text(class: &str, (left, right): (usize, usize), foot: usize, words: &str) -> String {
    format!("<text class=\"{class}\" x=\"{}\" y=\"{foot}\">{}</text>\n", (left + right) as f64 / 2.0, escaped(words))
}

/// The first line and the legend, and how far across they reach.
fn head(title: &str, verdict: &str, job: &Job) -> (String, usize) {
    let (file, tracks, connections) = (shortened(title), job.tracks.len(), job.connections.len());
    let facts = format!("   N = {}, T = {tracks}, M = {connections}, K = {}:  {verdict}", job.columns, job.limit);
    let line = format!("<tspan class=\"file\">{}</tspan><tspan xml:space=\"preserve\">{}</tspan>", escaped(&file), escaped(&facts));
    let mut out = format!("<title>{}</title>\n<text class=\"head\" x=\"12\" y=\"23\">{line}</text>\n", escaped(&file));
    for (name, left) in LEGEND {
        out += &(sample(name, left) + &text("legend", (left + 44, left + 44), 48, name));
    }
    (out, LEGEND_END.max(12 + text_width(&file, 16) + text_width(&facts, 15) + 12))
}

/// The legend's sample of what a name says.
fn sample(name: &str, left: usize) -> String {
    let (whole, bar) = ((left, left + 38), (left + 10, left + 28));
    let occupied = block("occupied", whole, 38, 12, 1.0);
    match name {
        "segment" => block("segment", whole, 38, 12, 1.0),
        "connection" => occupied + &block("connection", bar, 39, 10, 0.0),
        "critical connection" => occupied + &block("critical", bar, 38, 12, 2.0),
        "performance track" => {
            let mark = text("legend mark", (left + 3, left + 3), 48, "P");
            block("performance", whole, 34, 20, 0.0) + &mark + &block("segment", (left + 15, left + 35), 38, 12, 1.0)
        }
        _ => occupied,
    }
}

/// A track: its background, its label with a P if it is a performance track, and its segments.
fn track_row(sheet: &Sheet, number: usize, track: &Track) -> String {
    let ((top, height), row) = (sheet.segments(number), sheet.row(number));
    let (class, label, mark, kind) = match (track.performance, number % 2) {
        (true, _) => ("performance", "label mark", "P ", ", performance"),
        (false, 0) => ("even", "label", "", ""),
        (false, _) => ("odd", "label", "", ""),
    };
    let ends: Vec<String> = track.ends.iter().map(u8::to_string).collect();
    let mut out = format!("<g><title>track {number}{kind}: {} segments, right ends {}</title>\n", ends.len(), ends.join(" "));
    out += &block(class, (4, sheet.right + 6), row, sheet.row(number + 1) - row - 1, 0.0);
    out += &text(label, (GUTTER - 8, GUTTER - 8), sheet.foot(top), &format!("{mark}{number}"));
    for segment in 1..=track.ends.len() {
        let (left, right) = track.columns_of(segment);
        out += &block("segment", sheet.edges(left, right), top, height, 1.0);
    }
    out + "</g>\n"
}

/// The column numbers above and below, and a light line down each numbered column.
fn axis(sheet: &Sheet, columns: u8, bottom: usize) -> String {
    let step = if sheet.column < 20 { 5 } else { 1 };
    let mut out = String::new();
    for column in (1..=columns).filter(|column| *column == 1 || column % step == 0) {
        let (edges, top) = (sheet.edges(column, column), HEAD + AXIS);
        let middle = (edges.0 + edges.1) / 2;
        out += &block("grid", (middle, middle + 1), top, bottom - top, 0.0);
        out += &(text("axis", edges, top - 5, &column.to_string()) + &text("axis", edges, bottom + AXIS - 4, &column.to_string()));
    }
    out
}

/// A connection with its tooltip: what lies under it, its bar over its own columns (a critical one's in a heavy outline), and its number.
fn bar(sheet: &Sheet, connection: &Connection, top: usize, tooltip: &str, under: &str, number: &str) -> String {
    let edges = sheet.edges(connection.left, connection.right);
    let bar = match connection.critical() {
        true => block("critical", edges, top, sheet.font + 2, 2.0),
        false => block("connection", edges, top + 1, sheet.font, 0.0),
    };
    titled(tooltip, &format!("{under}{bar}{number}"))
}

/// What has one tooltip.
fn titled(tooltip: &str, drawn: &str) -> String {
    format!("<g><title>{tooltip}</title>\n{drawn}</g>\n")
}

/// A connection in words, with what there is to say of its place.
fn told(connection: &Connection, i: usize, place: &str) -> String {
    let net = if connection.net() > 0 { format!(", net {}", connection.net()) } else { String::new() };
    let critical = if connection.critical() { ", critical" } else { "" };
    format!("connection {}: columns {}-{}{place}{net}{critical}", i + 1, connection.left, connection.right)
}

/// The places of the numbers on one track, its connections given from left to right by their edges and their numbers' widths.
fn places(bars: &[((usize, usize), usize)]) -> Vec<Place> {
    let mut taken = 0;
    let place = |&((left, right), width): &((usize, usize), usize)| {
        if fits((left, right), width) {
            return Place::Inside;
        }
        if left + right < taken + width {
            return Place::Below;
        }
        taken = left + right + width;
        Place::Above
    };
    bars.iter().map(place).collect()
}

/// The connections of a routing, track by track, each with its number where that stands free. A segment that pieces of one net share is drawn once, with the
/// first of them, so that it covers no bar; on a track with lanes all segments come first, so that they cover no number.
fn routing(sheet: &Sheet, job: &Job, rows: &[Row]) -> String {
    let mut out = String::new();
    for label in 1..=job.tracks.len() {
        let here = on_track(job, rows, label);
        let bar = |&i: &usize| (sheet.edges(job.connections[i].left, job.connections[i].right), sheet.number_width(i + 1));
        let places = places(&here.iter().map(bar).collect::<Vec<_>>());
        let (mut drawn, mut bars) = (0, String::new());
        for (&i, &place) in here.iter().zip(&places) {
            let (segments, bar) = routed(sheet, job, i, &rows[i], drawn, place);
            out += &segments;
            bars += &bar;
            drawn = drawn.max(rows[i].last);
        }
        out += &bars;
    }
    out
}

/// A connection on its track, over the segments that it occupies; those up to `drawn` are there already. What is to be drawn before all bars, and the bar.
fn routed(sheet: &Sheet, job: &Job, i: usize, row: &Row, drawn: usize, place: Place) -> (String, String) {
    let (connection, track, (top, height)) = (&job.connections[i], &job.tracks[row.label - 1], sheet.segments(row.label));
    let tooltip = told(connection, i, &format!(", track {}, segments {}-{}", row.label, row.first, row.last));
    let segment = |segment| block("occupied", sheet.edges(track.columns_of(segment).0, track.columns_of(segment).1), top, height, 1.0);
    let under: String = (row.first.max(drawn + 1)..=row.last).map(segment).collect();
    if sheet.depths[row.label - 1] > 1 {
        let segments = if under.is_empty() { under } else { titled(&tooltip, &under) };
        return (segments, in_lane(sheet, connection, i, top, &tooltip));
    }
    let (class, foot) = match place {
        Place::Inside => ("inside", sheet.foot(top)),
        Place::Above => ("outside", top - 1),
        Place::Below => ("outside", top + sheet.font + 3 + sheet.font * 2 / 3),
    };
    let number = text(class, sheet.edges(connection.left, connection.right), foot, &(i + 1).to_string());
    (String::new(), bar(sheet, connection, top, &tooltip, &under, &number))
}

/// A connection in its lane, its number in its bar, or right of that if the bar is too short. `top` is that of the first lane.
fn in_lane(sheet: &Sheet, connection: &Connection, i: usize, top: usize, tooltip: &str) -> String {
    let (number, top) = (i + 1, top + sheet.lanes[i] * sheet.lane());
    let edges = sheet.edges(connection.left, connection.right);
    let (class, place) = match fits(edges, sheet.number_width(number)) {
        true => ("inside", edges),
        false => ("beside", (edges.1 + 2, edges.1 + 2)),
    };
    bar(sheet, connection, top, tooltip, "", &text(class, place, sheet.foot(top), &number.to_string()))
}

/// The lanes, from 0, of bars given by their edges: for each the first that is free there.
fn lanes(bars: &[(usize, usize)]) -> Vec<usize> {
    let mut order: Vec<usize> = (0..bars.len()).collect();
    order.sort_by_key(|&i| bars[i]);
    let (mut ends, mut lanes) = (vec![0; bars.len()], vec![0; bars.len()]);
    for i in order {
        lanes[i] = ends.iter().position(|&end| end + 2 < bars[i].0).unwrap_or(0);
        ends[lanes[i]] = bars[i].1;
    }
    lanes
}

/// The connections that have no routing, in their lanes above the channel.
fn waiting(sheet: &Sheet, job: &Job) -> String {
    let mut out = String::new();
    if !job.connections.is_empty() {
        out += &text("axis label", (GUTTER - 8, GUTTER - 8), sheet.foot(HEAD + AXIS + 1), "to route");
    }
    for (i, connection) in job.connections.iter().enumerate() {
        out += &in_lane(sheet, connection, i, HEAD + AXIS + 1, &told(connection, i, ""));
    }
    out
}

#[cfg(test)]
mod tests {
    use super::*;
    use crate::{tell, view};
    use second::make::{crowded, full, joined, packed, Rng};

    fn job(columns: u8, ends: Vec<u8>) -> Job {
        let connections = ends.iter().map(|&end| Connection { left: end, right: end, mark: end % 2 }).collect();
        Job { columns, limit: 2, tracks: vec![Track { performance: true, ends }], connections }
    }

    /// Each connection on its own segment of the one track.
    fn rows(count: usize) -> Vec<Row> {
        (1..=count).map(|segment| Row { label: 1, first: segment, last: segment }).collect()
    }

    #[test]
    fn titles_are_escaped_and_shortened() {
        let picture = svg("<&>\"'\u{1}\u{ffff}", "routed", &job(1, vec![1]), Some(&rows(1)));
        assert!(picture.contains("<title>&lt;&amp;&gt;&quot;&#39;\u{fffd}\u{fffd}</title>"));
        assert_eq!(shortened(&"é".repeat(61)).chars().count(), 60);
    }

    #[test]
    fn every_number_appears() {
        let job = job(255, (1..=31).chain([255]).collect());
        for picture in [svg("", "", &job, Some(&rows(32))), svg("", "", &job, None)] {
            assert!((1..=32).all(|number| picture.contains(&format!(">{number}</text>\n</g>"))));
        }
    }

    /// What is drawn of connections, in order: its class, and its edges across and down. Of the numbers only those right of their bars.
    fn drawn<'a>(sheet: &Sheet, picture: &'a str) -> Vec<(&'a str, [f64; 2], [f64; 2])> {
        let value = |field: &str| field.split('=').nth(1).unwrap().trim_end_matches("/>").trim_matches('"').parse().unwrap();
        let values = |fields: &str| fields.split(' ').map(value).collect::<Vec<f64>>();
        let item = |line: &'a str| {
            if let Some((fields, number)) = line.strip_prefix("<text class=\"beside\" ").and_then(|rest| rest.split_once('>')) {
                let [x, foot] = values(fields)[..] else { panic!("{line}") };
                let width = sheet.number_width(number.trim_end_matches("</text>").parse().unwrap());
                return Some(("beside", [x, x + width as f64], [foot - 0.72 * sheet.font as f64, foot]));
            }
            let (class, fields) = line.strip_prefix("<rect class=\"")?.split_once("\" ")?;
            let [x, y, width, height] = values(fields)[..] else { panic!("{line}") };
            ["occupied", "connection", "critical"].contains(&class).then_some((class, [x, x + width], [y, y + height]))
        };
        picture[picture.find("<g>").unwrap()..].lines().filter_map(item).collect()
    }

    #[test]
    fn nothing_covers_a_bar_or_a_number() {
        let mut rng = Rng::new(8);
        let (mut stacked, mut numbers) = (0, 0);
        for i in 0..600 {
            let made = [crowded, packed, full][i % 3](&mut rng);
            let file = joined(&mut rng, made).encode();
            let Some(lines) = tell::routed(&file, 20_000).unwrap().1 else { continue };
            let (job, rows) = (view::Job::read(&file).unwrap(), view::rows(&lines));
            let (sheet, picture) = (Sheet::new(&job, Some(&rows)), svg("", "", &job, Some(&rows)));
            let drawn = drawn(&sheet, &picture);
            let meet = |a: [f64; 2], b: [f64; 2]| a[0] < b[1] && b[0] < a[1];
            for (n, (class, across, down)) in drawn.iter().enumerate().filter(|(_, (class, ..))| *class != "occupied") {
                assert!(drawn[n + 1..].iter().all(|later| !(meet(*across, later.1) && meet(*down, later.2))), "{picture}");
                numbers += usize::from(*class == "beside");
            }
            assert!((1..=rows.len()).all(|number| picture.contains(&format!(">{number}</text>\n</g>"))));
            stacked += usize::from(sheet.depths.iter().any(|&depth| depth > 1));
        }
        assert!(stacked > 100 && numbers > 100, "{stacked} {numbers}");
    }

    #[test]
    fn pieces_over_each_other_have_lanes_and_their_net() {
        let connections = [(1, 3, 14), (2, 2, 15), (2, 4, 14), (6, 6, 0)].map(|(left, right, mark)| Connection { left, right, mark });
        let job = Job { columns: 6, limit: 2, tracks: vec![Track { performance: true, ends: vec![4, 6] }], connections: connections.into() };
        let rows = [1, 1, 1, 2].map(|segment| Row { label: 1, first: segment, last: segment });
        let sheet = Sheet::new(&job, Some(&rows));
        assert_eq!((&sheet.lanes[..], &sheet.depths[..]), (&[0, 1, 2, 0][..], &[3][..]));
        let picture = svg("", "", &job, Some(&rows));
        assert!(picture.contains("<title>connection 1: columns 1-3, track 1, segments 1-1, net 7</title>"));
        assert!(picture.contains("<title>connection 2: columns 2-2, track 1, segments 1-1, net 7, critical</title>"));
        assert!(picture.contains("<title>connection 4: columns 6-6, track 1, segments 2-2</title>"));
        let shared = picture[picture.find("<g>").unwrap()..].matches("class=\"occupied\"").count();
        assert_eq!(shared, 2, "a segment is drawn once");
    }

    #[test]
    fn lanes_never_overlap() {
        let bars: Vec<(usize, usize)> = (0..64).map(|i| (54 + i * 37 % 200, 55 + i * 37 % 200 + i * 11 % 60)).collect();
        let lanes = lanes(&bars);
        for (i, j) in (0..64).flat_map(|i| (0..i).map(move |j| (i, j))) {
            assert!(lanes[i] != lanes[j] || bars[i].1 < bars[j].0 || bars[j].1 < bars[i].0);
        }
    }

    #[test]
    fn numbers_of_neighbours_never_overlap() {
        for columns in 1..=255 {
            let sheet = Sheet::new(&job(columns, vec![columns]), Some(&[]));
            let bars: Vec<_> = (1..=columns).map(|column| (sheet.edges(column, column), sheet.number_width(usize::from(column % 64)))).collect();
            for side in [Place::Above, Place::Below] {
                let here = bars.iter().zip(places(&bars)).filter(|(_, place)| *place == side);
                let twice: Vec<(usize, usize)> = here.map(|(((left, right), width), _)| (left + right, *width)).collect();
                assert!(twice.windows(2).all(|two| two[0].0 + two[0].1 + two[1].1 <= two[1].0));
            }
        }
    }
}
