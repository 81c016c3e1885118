//! The probe's protocol over the second router: `second-probe [slow]`. An oracle for people, and a stand-in to try the drivers on.

use second::protocol::{answer, Way};

fn main() -> std::io::Result<()> {
    let way = match std::env::args().nth(1).as_deref() {
        Some("slow") => Way::Slow,
        _ => Way::Fast,
    };
    wire::serve(std::io::stdin().lock(), std::io::stdout().lock(), |request| Ok(answer(way, request)))
}
