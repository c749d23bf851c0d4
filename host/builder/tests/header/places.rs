//! The places in the records of an answer: what stands there in an area that the library has written, against values
//! written by hand and against the typed records.

use crate::area::Area;
use crate::by_hand::Model;
use crate::sources::Header;
use crate::typed;
use builder::Answer;

pub fn every_place(header: &Header) {
    let model = Model::new();
    let mut bytes = vec![0; header.place("MOST_BYTES")];
    let used = builder::build_into(&model.bytes(), b"root", &mut bytes).expect("an answer");
    let area = Area::new(header, &bytes[..used]);
    area.words_differ();
    for (section, i, fields) in model.by_hand(header) {
        assert_eq!(area.fields(section, i), fields, "{section} {i} by hand");
    }
    let answer = Answer::read(&bytes[..used]).expect("the layout");
    for section in ["HEADER", "NODE", "STATEMENT", "VARIABLE", "ERROR"] {
        let read = (0..area.count(section)).map(|i| area.fields(section, i));
        let typed = typed::fields(header, &answer, section);
        assert_eq!(read.collect::<Vec<_>>(), typed, "{section}");
    }
}
