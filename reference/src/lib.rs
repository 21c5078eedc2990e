//! A second implementation of the zone panel's rules, written from the
//! documents alone, to be compared with the first.
//!
//! In the comments "01" is the rule book, "000" the Networking Specification,
//! "001" the Data Link Specification, "003" the API Reference and "design 7"
//! the script language; "C-11" is the change request for the AutoNet exchange,
//! "C-12" the one by which a board that joins again may have another type,
//! "C-13" the one by which each record keeps its board's index, "C-14" the one by
//! which frames of another subnet are not read, "C-15" the one for boards that speak
//! ClimateTalk 1.0, "C-16" the one for the shared data of a replaced control, "C-21"
//! the one for messages inside messages, "C-22" the one for the texts and faults that
//! a display shows and "C-23" the one that retired number 17, as they were settled.
//! The choices made where these are silent or can be read in two ways stand in
//! DECISIONS.md.

#![forbid(unsafe_code)]

pub mod capture_coverage;
pub mod captures;
pub mod checksum;
pub mod compare;
pub mod counts;
pub mod coverage;
pub mod display;
pub mod draft;
pub mod encapsulation;
pub mod finder;
pub mod forms;
pub mod frame;
pub mod generator;
pub mod images;
pub mod language;
pub mod line;
pub mod panel;
pub mod payload_coverage;
pub mod payload_scripts;
pub mod payloads;
pub mod prng;
pub mod refusal;
pub mod room;
pub mod routing;
pub mod rows;
pub mod script;
pub mod shared;
pub mod state;
pub mod version;
