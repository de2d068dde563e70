//! The proved library beside the second evaluator.

mod examples;
mod fences;
mod floats;
mod generated;
mod journal;
mod orders;
mod paper;
mod patterns;
mod register;
