//! prettyplease's classify.rs.

include!(concat!(env!("OUT_DIR"), "/classify.rs"));
