//! The named refusals of board (R1 to R3) and bench (R4, R5, B0 to B6).

/// The numbers of 01's table "Named refusals".
#[derive(Clone, Copy, Debug, PartialEq, Eq)]
pub enum Refusal {
    /// A plate or state number beyond its limit, or a label that is not 41 bytes.
    R1,
    /// Memory not 17T bytes.
    R2,
    /// Reply room under 134 bytes, needed or not.
    R3,
    /// Request room under 135 bytes.
    R4,
    /// A request the bench does not write.
    R5,
    /// The request is not one the bench writes.
    B0,
    /// Reply under 3 bytes.
    B1,
    /// Checksum wrong.
    B2,
    /// Address not the asked one; for broadcast, not 40h to 5Fh; in a good reply to 55h, not the
    /// new one.
    B3,
    /// Command without bit 7 is neither the request's nor 50h.
    B4,
    /// Data length not the command's; 1 for an error reply.
    B5,
    /// A returned number differs from the request's.
    B6,
}
