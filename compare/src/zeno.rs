//! zeno 0.3.3's fill core: the side to compare with.
//!
//! zeno/ holds raster.rs, geometry.rs and command.rs byte for byte as published (zeno.sha256);
//! standin/ holds the little that they import, shortened from the crate's other files. Two more
//! imports, `crate::lib::Vec` and `crate::F32Ext`, stand in lib.rs, as they do in zeno.

#![allow(dead_code, clippy::all)]

#[rustfmt::skip]
pub mod command;
#[rustfmt::skip]
pub mod geometry;
#[rustfmt::skip]
pub mod raster;

#[path = "standin/path_builder.rs"]
pub mod path_builder;
#[path = "standin/path_data.rs"]
pub mod path_data;
#[path = "standin/style.rs"]
pub mod style;
