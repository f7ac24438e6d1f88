// lost_segments.rs, unchanged, from the path given to the build.
#![allow(unexpected_cfgs, dead_code, unused_variables)]
extern crate seeded_alloc as alloc;

include!(concat!(env!("OUT_DIR"), "/module.rs"));
