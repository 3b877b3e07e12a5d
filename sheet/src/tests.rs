//! What the sheet must say, of a made-up tree with a made-up output, and of the real tree.

mod against;
mod forms;
mod made_up;
mod passes;
mod real_tree;
