//! Stand-in for src/s2/mod.rs: the modules that the coverer needs in order to compile. Left out are the crate's
//! edge_clipping, edge_crossings, rect_bounder, shape and random, which nothing here names.

pub mod cap;
pub mod cell;
pub mod cellid;
pub mod cellunion;
pub mod edgeutil;
pub mod latlng;
pub mod metric;
pub mod point;
pub mod predicates;
pub mod rect;
pub mod region;
pub mod stuv;
