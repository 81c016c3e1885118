//! Holds the library, through the probe, against the second router (`compare`) and against real solvers (`solvers`).

pub mod channels;
pub mod solver;
pub mod table;
pub mod talk;
