//! A ROHC compressor for tests: profiles 0x0000 and 0x0001 of RFC 3095, in U and O mode.

pub mod check;
pub mod crc;
pub mod fault;
pub mod feedback;
pub mod flow;
pub mod formats;
pub mod gap;
pub mod generate;
pub mod header;
pub mod ir;
pub mod learn;
pub mod live;
pub mod load;
pub mod lossy;
pub mod lsb;
pub mod pcap;
pub mod random;
pub mod reference;
pub mod results;
pub mod script;
pub mod sender;
pub mod wire;
pub mod words;
