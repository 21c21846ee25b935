//! A second implementation of the three services and the listing of document
//! 01, as document 02 changes them, and of the replay and the brackets that it
//! adds, written from their sentences alone and meant for comparison in tests.
//!
//! Speed is no aim here. Each module names the section of document 01 that it
//! follows; quoted sentences in comments are from there.

// Comments write entries as document 01 does, [p,S]; these are no links.
#![allow(rustdoc::broken_intra_doc_links)]

pub mod attempts;
pub mod automaton;
pub mod brackets;
pub mod callers;
pub mod coded;
pub mod codes;
pub mod compare;
pub mod contents;
pub mod counts;
pub mod damage;
pub mod damage_codes;
pub mod damage_finals;
pub mod data;
pub mod deep;
pub mod derivation;
pub mod early;
pub mod encode;
pub mod every_state;
pub mod file;
pub mod finished;
pub mod finished_examples;
pub mod flat;
pub mod gather;
pub mod generate;
pub mod guide;
pub mod in_time;
pub mod kinds;
pub mod lent;
pub mod lines;
pub mod models;
pub mod news;
pub mod pairs;
pub mod plant;
pub mod printed;
pub mod proved;
pub mod random;
pub mod replay;
pub mod requests;
pub mod rewriting;
pub mod rich;
pub mod saturation;
pub mod search;
pub mod services;
pub mod sets;
pub mod shapes;
pub mod sound;
pub mod sparse;
pub mod stack;
pub mod start_file;
pub mod stop_examples;
pub mod stop_kinds;
pub mod stops;
pub mod table;
pub mod target;
pub mod traces;
pub mod ways;
pub mod won;
