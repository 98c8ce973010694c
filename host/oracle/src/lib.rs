//! orion-sdr's convolutional coder and Varicode at commit a2a34555c3, unchanged, under the paths that they
//! have there. build.rs says where the source comes from.

#![allow(clippy::all)]

pub mod codec {
    pub mod psk31 {
        include!(concat!(env!("OUT_DIR"), "/psk31.rs"));
    }
    pub mod varicode {
        include!(concat!(env!("OUT_DIR"), "/varicode.rs"));
    }
    pub use psk31::conv_encode;
}

pub mod fec {
    pub mod conv {
        include!(concat!(env!("OUT_DIR"), "/conv.rs"));
    }
}
