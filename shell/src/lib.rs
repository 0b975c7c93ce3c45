//! What the command `drf` is made of. The proved core decides; what is here carries.

pub mod text;
