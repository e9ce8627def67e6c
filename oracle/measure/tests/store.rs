//! The writer and the judge on what document 01 gives in bytes and lengths.
use measure::random::Random;
use measure::store::{body, file, restore_number, save_number, size_of, Record, MOST};

#[test]
fn lengths_are_those_of_the_document() {
    assert_eq!([0, 1, 2].map(size_of), [176, 240, 304]);
    let (c, state) = Random::stream(1).record(2, 0);
    let full: Vec<Record> = (0..MOST as u32).map(|k| (k, body(&c, state))).collect();
    assert_eq!(file(&full).len(), 40_456);
}

#[test]
fn the_empty_file_and_satellite_7() {
    let empty = [0x4F, 0x52, 0x42, 0x54, 1, 0, 0, 0];
    assert_eq!(file(&[]), empty);
    assert_eq!(restore_number(&empty, 7).number, 15);
    let (c, none) = Random::stream(1).record(0, 0);
    let saved = save_number(&empty, 196, 7, &c, none);
    assert_eq!((saved.number, saved.file.len()), (0, 196));
    assert_eq!(saved.file[..8], [0x4F, 0x52, 0x42, 0x54, 1, 0, 1, 0]);
    assert_eq!(saved.file[8..20], [7, 0, 0, 0, 0x14, 0, 0, 0, 0xB0, 0, 0, 0]);
    assert_eq!(save_number(&empty, 195, 7, &c, none).number, 19);
    let restored = restore_number(&saved.file, 7);
    assert_eq!((restored.number, restored.steps), (0, 0));
    assert_eq!(restored.record.map(|(c, state)| body(&c, state)), Some(saved.file[20..].to_vec()));
}
