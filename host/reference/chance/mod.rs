//! What chance gives: numbers, lists of bits as they may be received and what is missing of them,
//! blocks that are of both kinds, and what the cable does to bursts.

pub mod both_kinds;
pub mod cable;
pub mod lists;
pub mod losses;
pub mod random;
