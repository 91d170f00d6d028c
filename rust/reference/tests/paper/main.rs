//! Tests of the reference: paper 01's examples, the readings, actions (A1), many requests at once (A4), persons (A9), forgetting
//! (A10), seeded random calls, and the report of the program of examples.

mod actions;
mod batch;
mod common;
mod examples;
mod forgetting;
mod persons;
mod random;
mod readings;
mod report;
