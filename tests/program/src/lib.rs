//! Cases of the program: the bytes of its two inputs. What it prints of them
//! is the second evaluator's `program()`.

pub mod cases;
pub mod file;
pub mod inputs;
pub mod random;
pub mod run;
pub mod shape;
pub mod texts;

pub use inputs::Inputs;
