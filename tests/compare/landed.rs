//! What of our program is there to be compared.

/// Our program's native binary, seen from the repository root. SPHEROIDAL overrides it.
pub const PROGRAM: &str = "target/bin/spheroidal";

/// One line for each class of input: its name, and whether our program answers it yet. What has not
/// landed is not sent to our program and counts neither as passed nor as failed.
pub const CLASSES: [(&str, bool); 10] = [
    ("operation 1, prolate row", true),
    ("operation 2, oblate row", true),
    ("operation 3, prolate angular", true),
    ("operation 4, oblate angular", true),
    ("operation 5, oblate radial", true),
    ("operation 6, prolate DLMF row", true),
    ("operation 7, oblate DLMF row", true),
    ("operation 8, oblate first kind", true),
    ("other operations, refused 3", true),
    ("damaged streams, refused 1 or 2", true),
];

const OTHER_OPERATIONS: usize = 8;
pub const DAMAGED_STREAMS: usize = 9;

/// The class of a record with this operation, as an index into `CLASSES`.
pub fn class_of(operation: u8) -> usize {
    match operation {
        1..=8 => usize::from(operation) - 1,
        _ => OTHER_OPERATIONS,
    }
}

pub fn has_landed(class: usize) -> bool {
    CLASSES[class].1
}

pub fn any_landed() -> bool {
    CLASSES.iter().any(|&(_, landed)| landed)
}

/// The operations from 1 to 8 that have landed.
pub fn landed_operations() -> Vec<u8> {
    (1..=8)
        .filter(|&operation| has_landed(class_of(operation)))
        .collect()
}
