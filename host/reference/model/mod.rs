//! What GSM 05.03 (document 000), GSM 08.60 (document 001) and papers 01 and 02 define: how blocks
//! are coded and put on bursts, how they are found again, the two streams, the hub, and the frames of
//! a transcoder.

pub mod bits;
pub mod burst;
pub mod channel;
pub mod coding;
pub mod decoding;
pub mod efr;
pub mod efr_order;
pub mod exhaustive;
pub mod frame;
pub mod frame_order;
pub mod hub;
pub mod kind;
pub mod marking;
pub mod missing;
pub mod polynomial;
pub mod receiving;
pub mod receiving_stream;
pub mod refusal;
pub mod sending_stream;
pub mod survivors;
pub mod trellis;
pub mod whose;
