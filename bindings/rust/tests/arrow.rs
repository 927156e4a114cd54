//! Bitmaps that another library of the Arrow family wrote, and which records it reads as present (tests/arrow/README.md says how they were made):
//! imported they give these records, and these exported give its bytes.
use loftsplice::ColumnBuf;
use std::{fs, path::Path};

/// In such a file the first column's bitmap, in whole words of 64 records, follows the first eight bytes.
const HEAD: usize = 8;

/// The bytes that so many records take.
fn bytes(records: u64) -> usize {
    usize::try_from(records.div_ceil(8)).unwrap()
}

/// The record count of the first line, and the records that follow.
fn present(text: &str) -> (u64, Vec<i64>) {
    let (first, records) = text.split_once('\n').unwrap();
    let count = first.strip_suffix(" records").unwrap().parse().unwrap();
    (count, records.lines().map(|r| r.parse().unwrap()).collect())
}

#[test]
fn what_another_library_wrote() {
    let folder = Path::new(env!("CARGO_MANIFEST_DIR")).join("tests/arrow");
    let mut played = Vec::new();
    for entry in fs::read_dir(folder).unwrap() {
        let path = entry.unwrap().path();
        if path.extension() != Some("feather".as_ref()) {
            continue;
        }
        let file = fs::read(&path).unwrap();
        let text = fs::read_to_string(path.with_extension("present")).unwrap();
        let (count, records) = present(&text);
        assert_eq!(&file[..HEAD], b"FEA1\0\0\0\0");
        let whole = count.next_multiple_of(64);
        // As many bytes as the records need, the padding with them, and all that follows in the file.
        for end in [HEAD + bytes(count), HEAD + bytes(whole), file.len()] {
            let column = ColumnBuf::from_bitmap(&file[HEAD..end], count).unwrap();
            assert!(column.iter().eq(records.iter().copied()), "{path:?}");
        }
        let column = ColumnBuf::try_from(&records[..]).unwrap();
        for records in [count, whole] {
            let bitmap = column.as_column().to_bitmap(records).unwrap();
            assert_eq!(bitmap, file[HEAD..HEAD + bytes(records)], "{path:?}");
        }
        played.push((count, records.len()));
    }
    played.sort_unstable();
    assert_eq!(played, [(10, 6), (64, 63), (65, 1), (100, 50), (300, 125)]);
}
