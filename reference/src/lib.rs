//! The independent second program, written from FIPS 180-4, GB/T 32905-2016, RFC 9162,
//! RFC 6962 and the scope paper alone. It shares no code with the program that it tests.

pub mod algorithm;
pub mod auditor;
pub mod carry;
pub mod counts;
pub mod extensions;
pub mod first;
pub mod growing;
pub mod item;
pub mod pace;
pub mod pipe;
pub mod proofs;
pub mod random;
pub mod requests;
pub mod servers;
pub mod sha256;
pub mod sm3;
pub mod structures;
pub mod talk;
pub mod tree;
pub mod vectors;
pub mod verdict;
pub mod verify;
pub mod words;
pub mod yields;

pub mod layers {
    //! One module a layer: its requests, their answers, its cases and its
    //! random requests.
    pub mod auditor;
    pub mod carry;
    pub mod first;
    pub mod growing;
    pub mod hash;
    pub mod item;
    pub mod tree;
}
