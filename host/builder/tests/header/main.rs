//! The C header against the library: every number that it names against the definitions, the Rust names and what is read
//! in answers, its prototype against the source, and its version against the crate's and the changes'.

mod area;
mod by_hand;
mod numbers;
mod places;
mod sources;
mod typed;

use sources::{newest_change, text, version, Definitions, Header};

/// A name of the header that no check asks for fails here.
#[test]
fn every_number_of_the_header() {
    let (header, defined) = (Header::read(), Definitions::read());
    numbers::refusals_and_errors(&header, &defined);
    numbers::tree_file(&header, &defined);
    numbers::area(&header, &defined);
    numbers::longest_answer(&header, &defined);
    numbers::kinds_and_fates(&header, &defined);
    places::every_place(&header);
    assert_eq!(header.not_asked_for(), [""; 0], "names that nothing tests");
}

/// The header, the crate and the newest heading of the changes say one version.
#[test]
fn one_version() {
    assert_eq!(version(), builder::VERSION);
    assert_eq!(newest_change(), builder::VERSION);
}

/// A slice of the source is a pointer and a length of the header, in the same order.
#[test]
fn the_prototype_is_that_of_the_source() {
    let flat = |text: String| text.split_whitespace().collect::<Vec<_>>().join(" ");
    let source = flat(text("crates/builder_c/src/lib.rt"));
    let exported = "#[unsafe(no_mangle)] pub extern \"C\" fn build(file: &[u8], root: &[u8], area: &mut [u8]) -> u64";
    assert!(source.contains(exported));
    let prototype = "uint64_t build(const uint8_t *file, size_t file_length, const uint8_t *root, size_t root_length, \
                     uint8_t *area, size_t area_length);";
    assert!(flat(text("include/builder.h")).contains(prototype));
}
