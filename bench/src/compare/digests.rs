//! What a digest is taken over, put together here and not by the client's code: a piece with its place, as document 02 (i) has it, and
//! strings that must not be taken for it.

use crate::coding::{self, DIGEST};
use crate::parties::Pointer;
use crate::random::Numbers;
use jolbizna::Version;
use std::ops::Range;

/// A way to take the digest of a node's piece of a version.
pub type Taken = fn(Version, usize, &[u8]) -> Vec<u8>;

/// SHA-256 of the parts, one after the other.
fn of(parts: &[&[u8]]) -> Vec<u8> {
    let mut out = vec![0; DIGEST];
    coding::digest(&parts.concat(), &mut out).expect("the output is long enough");
    out
}

pub fn placed((sequence, client): Version, node: usize, piece: &[u8]) -> Vec<u8> {
    of(&[&sequence.to_be_bytes(), &[client, node as u8], piece])
}

/// As it was before document 02 (i).
pub fn alone(_: Version, _: usize, piece: &[u8]) -> Vec<u8> {
    of(&[piece])
}

pub fn no_version(_: Version, node: usize, piece: &[u8]) -> Vec<u8> {
    of(&[&[node as u8], piece])
}

pub fn no_node((sequence, client): Version, _: usize, piece: &[u8]) -> Vec<u8> {
    of(&[&sequence.to_be_bytes(), &[client], piece])
}

pub fn node_first((sequence, client): Version, node: usize, piece: &[u8]) -> Vec<u8> {
    of(&[&[node as u8], &sequence.to_be_bytes(), &[client], piece])
}

/// How a sound piece's digest in a pointer may be taken so that the piece must not match.
#[derive(Clone, Copy)]
pub enum Otherwise {
    As(Taken),
    /// The digest that this piece would have at another node.
    OtherNode,
    /// The digest that it would have there in another version.
    OtherVersion,
}

pub const OTHERWISE: [Otherwise; 6] = [
    Otherwise::As(alone),
    Otherwise::As(no_version),
    Otherwise::As(no_node),
    Otherwise::As(node_first),
    Otherwise::OtherNode,
    Otherwise::OtherVersion,
];

impl Otherwise {
    pub fn digest(
        self,
        numbers: &mut Numbers,
        version: Version,
        node: usize,
        piece: &[u8],
    ) -> Vec<u8> {
        match self {
            Otherwise::As(taken) => taken(version, node, piece),
            Otherwise::OtherNode => placed(version, other_node(numbers, node), piece),
            Otherwise::OtherVersion => placed(other_version(numbers, version), node, piece),
        }
    }
}

/// Another of 1 to 16.
fn other_node(numbers: &mut Numbers, node: usize) -> usize {
    1 + (node + numbers.below(15)) % 16
}

/// One bit is another, so that each byte of a version is tried.
fn other_version(numbers: &mut Numbers, (sequence, client): Version) -> Version {
    match numbers.below(40) {
        bit @ 0..32 => (sequence ^ 1 << bit, client),
        bit => (sequence, client ^ 1 << (bit - 32)),
    }
}

/// Where the digest of a node stands among a pointer's digests, if it is named.
pub fn place(pointer: &Pointer, node: usize) -> Option<Range<usize>> {
    if !(1..=16).contains(&node) {
        return None;
    }
    let bit = 1 << (node - 1);
    let before = (pointer.nodes & (bit - 1)).count_ones() as usize;
    (pointer.nodes & bit != 0).then(|| DIGEST * before..DIGEST * (before + 1))
}
