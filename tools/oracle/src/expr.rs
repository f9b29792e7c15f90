//! prettyplease's expr.rs with the recording lines that build.rs puts in.

include!(concat!(env!("OUT_DIR"), "/expr.rs"));
