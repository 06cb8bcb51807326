//! A second, independent implementation of document 01, "Timed cellar
//! networks and their node programs", and of document 02's wishes 1 to 14,
//! written from their text alone.
//!
//! One module stands for each heading of document 01, `chart` for wish 1, `plan`
//! for wish 4, `edge_choice` for wish 5, `reasons` for wish 7, `simulation` for wish 10,
//! `positions` for wish 11, `uppaal` for wish 12, `site` for wish 13, `period` and
//! `horizon` for wish 14; the spread of wish 6 stands in `checks` and its offsets
//! in `run`; the budgets of wish 8 stand with the table, the candidates and the
//! statements, the finish ticks of wish 9 with the run. `place` and `opening` say where
//! a table is refused: the one by checks 4 to 6, the other by checks 7 to 9.
//! Sentences in quotation marks in the comments are the documents' own.
#![forbid(unsafe_code)]
#![warn(missing_docs)]

pub mod calls;
pub mod chart;
pub mod checks;
pub mod edge_choice;
pub mod horizon;
pub mod network;
pub mod opening;
pub mod period;
pub mod place;
pub mod plan;
pub mod positions;
pub mod program;
pub mod reasons;
pub mod run;
pub mod schedule;
pub mod simulation;
pub mod site;
pub mod table;
pub mod uppaal;
