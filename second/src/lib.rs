//! A second program for the VEX sandbox, written from its papers alone.

pub mod answer;
pub mod assemble;
pub mod c_interface;
pub mod check;
pub mod effects;
pub mod interface;
pub mod load;
pub mod plain;
pub mod program;
pub mod run;
pub mod source;
pub mod state;
pub mod syllable;
pub mod table;
pub mod text;
pub mod values;
