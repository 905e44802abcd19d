// Sheets: the bytes of each edit as the paper's table has them, readings in both editions, and what each refusal says.
use std::error::Error as _;

use taxolbin::{
    read, BitSlice, Bitmap, Direction, Edit, Edition, Error, ReadError, Sheet, Style, CAPACITY_MAX, PAYLOAD_MAX, RECORDS_MAX, REGISTER_PAGE,
    RESIZE_MAX,
};

const NONE: &[u64] = &[];

fn bits(words: &[u64]) -> &BitSlice {
    BitSlice::new(words).unwrap()
}

// The bytes of a text in hexadecimal.
fn hex(text: &str) -> Vec<u8> {
    text.split_whitespace().map(|byte| u8::from_str_radix(byte, 16).unwrap()).collect()
}

// A sheet of these edits, as the writer makes it.
fn sheet_of(edits: &[Edit]) -> Vec<u8> {
    let mut buffer = [0; 512];
    let mut sheet = Sheet::start(&mut buffer).unwrap();
    edits.iter().for_each(|&edit| sheet.edit(edit).unwrap());
    sheet.into_bytes().to_vec()
}

// The words and the records of a reading into so many words, or its refusal; a refused one must leave zeros.
fn read_into(words: usize, edition: Edition, sheet: &[u8], old: &[u64]) -> Result<(Vec<u64>, usize), (Error, usize)> {
    let mut result = vec![u64::MAX; words];
    match read(edition, sheet, bits(old), &mut result) {
        Ok(reading) => {
            assert!(reading.bitmap.store()[reading.bitmap.count()..].iter().all(|&word| word == 0));
            Ok((reading.bitmap.words().to_vec(), reading.records))
        }
        Err(refused) => {
            assert!(result.iter().all(|&word| word == 0));
            Err((refused.error, refused.record))
        }
    }
}

// Each kind, with the first edition that has it and the record's bytes.
fn table() -> Vec<(Edit, Edition, &'static str)> {
    use Direction::{Left, Right};
    use Edition::{One, Two};
    vec![
        (Edit::Set { p: 7 }, One, "81 00 04 00 00 00 07"),
        (Edit::Unset { p: 0x0102_0304 }, One, "82 00 04 01 02 03 04"),
        (Edit::SetRegion { value: true, p: 2, k: 4 }, One, "83 00 09 80 00 00 01 00 00 00 02 00"),
        (Edit::SetRegion { value: false, p: 1, k: 3 }, One, "83 00 09 00 00 00 00 80 00 00 01 80"),
        (Edit::SetField { p: 10, width: 5, value: 0x1B }, One, "84 00 0D 00 00 00 0A 0A 00 00 00 00 00 00 00 36"),
        (Edit::SetField { p: 3, width: 64, value: 1 << 63 | 1 }, One, "84 00 0D 00 00 00 03 81 00 00 00 00 00 00 00 02"),
        (Edit::Shift { direction: Left, k: 64 }, One, "85 00 05 00 00 00 20 00"),
        (Edit::Shift { direction: Right, k: 1 }, One, "85 00 05 80 00 00 00 80"),
        (Edit::Rotate { direction: Left, k: 3 }, One, "86 00 05 00 00 00 01 80"),
        (Edit::Rotate { direction: Right, k: 2 }, One, "86 00 05 80 00 00 01 00"),
        (Edit::ResizeBits { bits: 100 }, One, "87 00 05 00 00 00 32 00"),
        (Edit::ResizeBits { bits: 2 }, One, "87 00 05 00 00 00 01 00"),
        (Edit::Reverse, One, "88 00 00"),
        (Edit::ToggleRegion { p: 1, k: 66 }, Two, "89 00 08 00 00 00 01 00 00 00 42"),
        (Edit::Open { p: 4, k: 10 }, Two, "8A 00 08 00 00 00 04 00 00 00 0A"),
        (Edit::Close { p: 1, k: 2 }, Two, "8B 00 08 00 00 00 01 00 00 00 02"),
    ]
}

// What an edit does, by the bitmap's own calls.
fn apply(edit: Edit, b: &mut Bitmap) -> Result<(), Error> {
    use Direction::{Left, Right};
    match edit {
        Edit::Set { p } => b.set(p as usize)?,
        Edit::Unset { p } => b.unset(p as usize),
        Edit::SetRegion { value, p, k } => b.set_region(p as usize, value, k as usize)?,
        Edit::SetField { p, width, value } => b.set_field(p as usize, value, width)?,
        Edit::Shift { direction: Left, k } => b.shift_left(k as usize)?,
        Edit::Shift { direction: Right, k } => b.shift_right(k as usize),
        Edit::Rotate { direction: Left, k } => b.rotate_left(k as usize),
        Edit::Rotate { direction: Right, k } => b.rotate_right(k as usize),
        Edit::ResizeBits { bits } => b.resize_bits(bits)?,
        Edit::Reverse => b.reverse(),
        Edit::ToggleRegion { p, k } => b.toggle_region(p as usize, k as usize)?,
        Edit::Open { p, k } => b.open_gap(p as usize, k as usize)?,
        Edit::Close { p, k } => b.close_gap(p as usize, k as usize),
        _ => panic!("{edit:?} has no call here"),
    }
    Ok(())
}

#[test]
fn each_edit_has_the_paper_s_bytes() {
    for (edit, edition, record) in table() {
        assert_eq!(sheet_of(&[edit]), hex(&format!("4E 53 00 01 {record}")), "{edit:?}");
        assert_eq!(edit.edition(), edition, "{edit:?}");
    }
    let most = Edit::ResizeBits { bits: RESIZE_MAX };
    assert_eq!(sheet_of(&[most]), hex("4E 53 00 01 87 00 05 80 00 00 00 00"));
}

#[test]
fn each_edit_does_what_its_call_does() {
    let old = [0b1010_1010_1101_0110, 0];
    for (edit, edition, record) in table() {
        let sheet = hex(&format!("4E 53 00 01 {record}"));
        let mut store = [old[0], old[1], 0, 0];
        let mut b = Bitmap::with_count(&mut store, 2).unwrap();
        apply(edit, &mut b).unwrap();
        let done = Ok((b.words().to_vec(), 1));
        let newer = Err((Error::NewerKind, 1));
        assert_eq!(read_into(4, Edition::Two, &sheet, &old), done, "{edit:?}");
        assert_eq!(read_into(4, Edition::One, &sheet, &old), if edition == Edition::One { done } else { newer }, "{edit:?}");
    }
}

// Edits in a row, each on what the last one left; edition 1 names the first that is too new.
#[test]
fn a_long_sheet_is_read() {
    let edits: Vec<Edit> = table().into_iter().map(|(edit, _, _)| edit).collect();
    let mut store = [0b11, 0, 0, 0];
    let mut b = Bitmap::with_count(&mut store, 1).unwrap();
    edits.iter().for_each(|&edit| apply(edit, &mut b).unwrap());
    assert!(!b.is_zero());
    let sheet = sheet_of(&edits);
    assert_eq!(read_into(4, Edition::Two, &sheet, &[0b11]), Ok((b.words().to_vec(), 16)));
    assert_eq!(read_into(4, Edition::One, &sheet, &[0b11]), Err((Error::NewerKind, 14)));
}

#[test]
fn the_paper_s_sheet() {
    let sheet = hex("4E 53 00 03 83 00 09 80 00 00 02 00 00 00 01 80 01 00 02 68 69 8A 00 08 00 00 00 05 00 00 00 02");
    let mut buffer = [0; 64];
    let mut written = Sheet::start(&mut buffer).unwrap();
    written.edit(Edit::SetRegion { value: true, p: 4, k: 3 }).unwrap();
    written.remark(1, b"hi").unwrap();
    written.edit(Edit::Open { p: 5, k: 2 }).unwrap();
    assert_eq!(written.bytes(), sheet);

    let (mut store, mut text) = ([0; 128], [0; 64]);
    let refused = read(Edition::One, &sheet, bits(NONE), &mut store).unwrap_err();
    assert_eq!((refused.error, refused.record), (Error::NewerKind, 3));
    let reading = read(Edition::Two, &sheet, bits(NONE), &mut store).unwrap();
    assert_eq!((reading.records, reading.bitmap.count()), (3, 1));
    assert_eq!(reading.bitmap.write_list(&mut text, Style::PLAIN), Ok("4, 7-8"));
}

#[test]
fn each_refusal_of_a_reading_names_its_record() {
    use Error::*;
    let cases = [
        ("4E 53 00", NotSheet, 0),
        ("4E 54 00 00", NotSheet, 0),
        ("4E 53 00 02 88 00 00 88 00", CutRecord, 2),
        ("4E 53 00 01 81 00 04 00 00 00", CutRecord, 1),
        ("4E 53 00 01 88 00 00 FF", BytesRemain, 1),
        ("4E 53 00 00 00", BytesRemain, 0),
        ("4E 53 00 02 00 00 00 80 00 00", NewerKind, 2),
        ("4E 53 00 01 8C 00 00", NewerKind, 1),
        ("4E 53 00 01 81 00 03 00 00 07", BadPayload, 1),
        ("4E 53 00 01 85 00 05 00 00 00 20 01", BadPayload, 1),
        ("4E 53 00 01 84 00 0D 00 00 00 0A 82 00 00 00 00 00 00 00 00", BadPayload, 1),
        ("4E 53 00 01 87 00 05 80 00 00 00 80", BadPayload, 1),
        ("4E 53 00 03 88 00 00 81 00 04 00 00 00 07 81 00 04 00 00 00 80", NoSpace, 3),
    ];
    for (sheet, error, record) in cases {
        for edition in [Edition::One, Edition::Two] {
            assert_eq!(read_into(2, edition, &hex(sheet), &[5]), Err((error, record)), "{sheet}");
        }
    }
    assert_eq!(read_into(2, Edition::Two, b"NS\0\0", &[1, 2, 0]), Err((NoSpace, 0)));
    assert_eq!(read_into(2, Edition::Two, b"NS\0\0", &[1, 2]), Ok((vec![1, 2], 0)));
}

#[test]
fn a_store_too_long_is_left_as_it_was() {
    let mut long = vec![0; CAPACITY_MAX + 1];
    long[0] = 9;
    let refused = read(Edition::Two, b"NS\0\0", bits(&[1]), &mut long).unwrap_err();
    assert_eq!(refused, ReadError { error: Error::StoreTooLong, record: 0 });
    assert_eq!(long[0], 9);
}

#[test]
fn editions_have_numbers() {
    assert_eq!([Edition::try_from(1), Edition::try_from(2)], [Ok(Edition::One), Ok(Edition::Two)]);
    for number in [0, 3, usize::MAX] {
        assert_eq!(Edition::try_from(number), Err(Error::NoEdition));
    }
    assert_eq!((Edition::One.number(), Edition::LATEST.number()), (1, 2));
}

// ---- The writer ----

#[test]
fn the_writer_keeps_to_its_buffer() {
    assert_eq!(Sheet::start(&mut [7; 3]).unwrap_err(), Error::NoSpace);
    let mut buffer = [7; 13];
    let mut sheet = Sheet::start(&mut buffer).unwrap();
    sheet.edit(Edit::Set { p: 1 }).unwrap();
    let before = sheet.bytes().to_vec();
    assert_eq!(sheet.edit(Edit::Reverse), Err(Error::NoSpace));
    assert_eq!(sheet.remark(0, b""), Err(Error::NoSpace));
    assert_eq!(sheet.bytes(), before);
    assert_eq!(format!("{sheet:?}"), "Sheet([78, 83, 0, 1, 129, 0, 4, 0, 0, 0, 1])");
    assert_eq!(buffer, *b"NS\x00\x01\x81\x00\x04\x00\x00\x00\x01\x07\x07");
}

#[test]
fn the_writer_looks_at_fields() {
    let mut buffer = vec![0; PAYLOAD_MAX + 100];
    let mut sheet = Sheet::start(&mut buffer).unwrap();
    assert_eq!(sheet.edit(Edit::SetField { p: 0, width: 65, value: 0 }), Err(Error::WidthOver));
    assert_eq!(sheet.edit(Edit::ResizeBits { bits: RESIZE_MAX + 1 }), Err(Error::IndexOver));
    assert_eq!(sheet.remark(128, b""), Err(Error::NewerKind));
    assert_eq!(sheet.remark(127, &[1; PAYLOAD_MAX + 1]), Err(Error::BadPayload));
    assert_eq!(sheet.bytes(), b"NS\0\0");
    sheet.remark(127, &[1; PAYLOAD_MAX]).unwrap();
    assert_eq!(sheet.bytes()[..8], *b"NS\x00\x01\x7F\xFF\xFF\x01");
    assert_eq!(read_into(1, Edition::One, sheet.bytes(), &[6]), Ok((vec![6], 1)));
}

#[test]
fn a_sheet_is_resumed() {
    let mut buffer = *b"NS\x00\x01\x88\x00\x00.........";
    assert_eq!(Sheet::resume(&mut buffer, 17).unwrap_err(), Error::CountOverStore);
    let cases = [(3, Error::NotSheet), (6, Error::CutRecord), (8, Error::BytesRemain), (16, Error::BytesRemain)];
    for (length, error) in cases {
        let mut sheet = Sheet::resume(&mut buffer, length).unwrap();
        assert_eq!(sheet.edit(Edit::Reverse), Err(error), "{length}");
        assert_eq!(sheet.bytes().len(), length);
    }
    let mut sheet = Sheet::resume(&mut buffer, 7).unwrap();
    sheet.remark(2, b"!").unwrap();
    assert_eq!(sheet.into_bytes(), b"NS\x00\x02\x88\x00\x00\x02\x00\x01!");
    assert_eq!(buffer[11..], *b".....");
}

#[test]
fn a_sheet_may_be_full() {
    let mut buffer = b"NS\xFF\xFE".to_vec();
    buffer.resize(4 + 3 * (RECORDS_MAX + 1), 0);
    let mut sheet = Sheet::resume(&mut buffer, 4 + 3 * (RECORDS_MAX - 1)).unwrap();
    sheet.remark(1, b"").unwrap();
    assert_eq!(sheet.remark(1, b""), Err(Error::NoSpace));
    assert_eq!(read_into(0, Edition::One, sheet.bytes(), NONE), Ok((vec![], RECORDS_MAX)));
}

// ---- Books ----

#[test]
fn an_empty_book_is_saved_and_loaded() {
    let (mut store, mut text) = ([0b111], [0; 8]);
    let empty = Bitmap::empty(&mut store).unwrap();
    let saved = empty.write_list(&mut text, Style::PLAIN).unwrap();
    assert_eq!(saved, "");
    let mut second = [0b111, 0b1];
    let mut loaded = Bitmap::with_count(&mut second, 2).unwrap();
    assert_eq!(loaded.from_list(saved, Style::PLAIN), Err(Error::NotList));
    assert_eq!(loaded.count(), 2);
    loaded.load_list(saved, Style::PLAIN).unwrap();
    assert_eq!((loaded.count(), loaded.store()), (0, &[0, 0][..]));
    for (text, notes) in [("4\n", 1), ("\n", 0), ("\t\n\x0b\x0c\r ", 0)] {
        loaded.load_list(text, Style::PLAIN).unwrap();
        assert_eq!(loaded.count_set_bits(), notes, "{text:?}");
    }
    for text in ["\x08", "\x0e"] {
        assert_eq!(loaded.load_list(text, Style::PLAIN), Err(Error::NotList), "{text:?}");
    }
    assert_eq!(loaded.load_list("4294967296\n", Style::PLAIN), Err(Error::NumberOver));
}

// Two sides with notes at 4 in one word and in two.
#[test]
fn equal_bitmaps_are_reversed_by_their_lengths() {
    let sheet = sheet_of(&[Edit::Reverse]);
    let last = |old: &[u64]| read_into(2, Edition::One, &sheet, old).map(|(words, _)| bits(&words).last_set());
    let (short, long) = ([1 << 4], [1 << 4, 0]);
    assert_eq!(bits(&short), bits(&long));
    assert_eq!((last(&short), last(&long)), (Ok(Some(59)), Ok(Some(123))));

    let (mut here, mut there) = ([1 << 4, 0], [1 << 4, 0]);
    let mut ours = Bitmap::with_count(&mut here, 1).unwrap();
    let mut theirs = Bitmap::with_count(&mut there, 2).unwrap();
    ours.resize_bits(100).unwrap();
    theirs.resize_bits(100).unwrap();
    assert_eq!((last(ours.words()), last(theirs.words())), (Ok(Some(123)), Ok(Some(123))));

    let resized = sheet_of(&[Edit::ResizeBits { bits: 100 }, Edit::Rotate { direction: Direction::Right, k: 5 }]);
    assert_eq!(read_into(2, Edition::One, &resized, &short), Ok((vec![0, 1 << 63], 2)));
    assert_eq!(read_into(2, Edition::One, &resized, &long), Ok((vec![0, 1 << 63], 2)));
}

// ---- What an error says ----

// The rows of include/numbers.txt: number, name, who, sentence.
#[test]
fn each_error_has_its_number_name_and_sentence() {
    let rows: Vec<Vec<&str>> =
        include_str!("../../include/numbers.txt").lines().filter(|line| !line.starts_with('#')).map(|line| line.split('\t').collect()).collect();
    assert_eq!(rows.len(), 17);
    assert_eq!((Error::from_number(0), Error::from_number(17), Error::from_number(u32::MAX)), (None, None, None));
    for row in &rows[1..] {
        let number: u32 = row[0].parse().unwrap();
        let error = Error::from_number(number).unwrap();
        assert_eq!((error.number(), error.why()), (number, row[3]));
        assert_eq!(format!("{error:?}").to_uppercase(), row[1].replace('_', ""));
        assert_eq!(error.to_string(), format!("{} ({number})", row[3]));
    }
    assert_eq!(Error::NotList.why(), "the text is not a list in its style");
    assert_eq!(Error::BadPayload.number(), 12);
}

#[test]
fn a_reading_s_error_names_the_record() {
    let refused = ReadError { error: Error::NewerKind, record: 5 };
    assert_eq!(refused.to_string(), "record 5: a record's kind is newer than the edition, or there is no such kind (13)");
    assert_eq!(ReadError { error: Error::NotSheet, record: 0 }.to_string(), Error::NotSheet.to_string());
    assert_eq!(refused.source().and_then(|source| source.downcast_ref()), Some(&Error::NewerKind));
}

#[test]
fn constants_are_the_header_s() {
    let header = include_str!("../../include/taxolbin.h");
    let rows = [
        ("CAPACITY_MAX", CAPACITY_MAX),
        ("EDITION_MAX", Edition::LATEST.number()),
        ("RECORDS_MAX", RECORDS_MAX),
        ("PAYLOAD_MAX", PAYLOAD_MAX),
        ("RESIZE_MAX", RESIZE_MAX),
        ("REGISTER_PAGE", REGISTER_PAGE),
    ];
    for (name, value) in rows {
        assert!(header.contains(&format!("#define TAXOLBIN_{name} UINT64_C({value})\n")), "{name}");
    }
}
