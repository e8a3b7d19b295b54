//! The comment at the head of both files.

/// What the files were made from.
pub struct Made<'a> {
    pub version: &'a str,
    /// The SHA-256 sum of the program's text.
    pub sum: &'a str,
    pub kit: &'a str,
}

pub fn head(made: &Made, of: &str) -> String {
    let Made { version, sum, kit } = made;
    format!(
        "/*
 * Kosmydore {version}: {of}
 *
 * Made by `./kosmydore portable DIR` from the proved program of the crate `firmware`. Not to be edited.
 *   program  sha256 {sum}
 *   kit      {kit}
 *
 * What this rests on. Proved is the program before its translation: every answer and every byte, for every input that
 * keeps the duties below. The translator to C and the C compiler stand in the place of the kit's back end. They are
 * tested, and not proved: the file is compared with the kit's own library call by call.
 *
 * What a caller must keep:
 *   - a lent address is not null, also where its length is 0; it has as many bytes, or counts, as the length says, all of
 *     which may be read, and written where the parameter is not const; that of a tally is aligned as a uint32_t is;
 *   - what is lent for writing does not overlap anything else that is lent to the same call;
 *   - nothing else writes what is lent while a call runs: no two calls on one node or one tally at once, and none from an
 *     interrupt;
 *   - a struct kosmydore_node is what kosmydore_fresh or the last call answered; of a node in lent bytes any bytes will do;
 *   - the compiler is C99's, with uint8_t to uint64_t. The file asserts the layout that it needs, and calls memcpy,
 *     memmove and memset at most.
 *
 * SPDX-License-Identifier: Apache-2.0
 */
"
    )
}
