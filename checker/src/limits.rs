//! The limits that the paper names.

/// "16 constants"
pub const CONSTANTS: usize = 16;
/// "8 predicates of arity 0 to 3"
pub const PREDICATES: usize = 8;
pub const ARITY: usize = 3;
/// "At most 48 input and 48 learned clauses"
pub const INPUT_CLAUSES: usize = 48;
pub const LEARNED_CLAUSES: usize = 48;
/// "A clause is a record of at most 12 variables, 24 atoms and 8 literals."
pub const VARIABLES: usize = 12;
pub const ATOMS: usize = 24;
pub const LITERALS: usize = 8;
/// "up to 48 rows of key and result" (change request 1)
pub const ROWS: usize = 48;
/// "c is a signed 32-bit number from −1,000,000 to 1,000,000."
pub const C: i32 = 1_000_000;
/// "The trail holds at most 160 entries of both kinds together."
pub const TRAIL: usize = 160;
/// The constraint test is handed no more than "184 atoms".
pub const TEST_ATOMS: usize = 184;
/// "the number of steps (16 bits, at most 2,000)"
pub const STEPS: usize = 2_000;
/// "an instance as a count (at most 12) and constants"
pub const INSTANCE: usize = 12;
/// "a Decide step ends with a count (at most 24) of atoms" (the request "Decisions that bring bounds")
pub const BROUGHT: usize = 24;
/// "so trail constants, and the test's, reach −1,000,001" (the request "Decisions that bring bounds")
pub const LEAST_GROUND_C: i32 = -1_000_001;
/// "From version 2 on a valid file may have up to 65,536 bytes" (the request "Decisions that bring bounds"). No valid
/// file of version 1 has as many.
pub const FILE_BYTES: usize = 65_536;
/// "of any file the program reads one byte more and no further" (the request "Decisions that bring bounds")
pub const READ_BYTES: usize = FILE_BYTES + 1;
