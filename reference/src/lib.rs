//! Document 01 implemented a second time, by other means than proof: two engines, a generator of
//! sessions, and what is compared with what. All expected answers of the project's tests come from here.

pub mod aes;
mod aimed;
pub mod block;
pub mod calls;
pub mod case;
pub mod cases;
pub mod census;
pub mod chain;
pub mod command;
pub mod compare;
pub mod condition;
pub mod cost;
pub mod coverage;
pub mod edition;
pub mod engine;
pub mod event;
pub mod fault;
pub mod frame;
pub mod generate;
pub mod heard;
pub mod history;
pub mod image;
pub mod index;
pub mod limits;
pub mod lines;
pub mod month;
pub mod options;
pub mod private;
pub mod program;
pub mod random;
pub mod refusal;
pub mod script;
pub mod state;
pub mod timers;
pub mod twin;
