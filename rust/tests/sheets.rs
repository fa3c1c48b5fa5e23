//! Sheets: which sizes and lengths make one, and how it is lent on.

use nuprikhen::{Premultiplied, Refusal, SIDE_LIMIT, SheetMut, SheetRef, Straight};

/// What both kinds of lent sheet answer to this size and length.
fn told(width: u32, height: u32, length: usize) -> Result<(), Refusal> {
    let mut bytes = vec![5; length];
    let read = SheetRef::<Straight>::new(width, height, &bytes).map(|_| ());
    let written = SheetMut::<Premultiplied>::new(width, height, &mut bytes).map(|_| ());
    assert_eq!(read, written);
    read
}

#[test]
fn sides_are_tested_first() {
    for side in [0, SIDE_LIMIT + 1, u32::MAX] {
        for (width, height) in [(side, 1), (1, side), (side, side)] {
            for length in [0, 4, 5] {
                let size = Err(Refusal::Size);
                assert_eq!(told(width, height, length), size, "{width} x {height}");
            }
        }
    }
}

#[test]
fn a_length_is_exact() {
    for (width, height) in [(1, 1), (2, 3), (SIDE_LIMIT, 1), (1, SIDE_LIMIT)] {
        let length = (4 * width * height) as usize;
        assert_eq!(told(width, height, length), Ok(()));
        for wrong in [0, length - 1, length + 1, 2 * length] {
            assert_eq!(told(width, height, wrong), Err(Refusal::Length));
        }
    }
}

#[test]
fn a_sheet_to_be_written_is_lent_on() -> Result<(), Refusal> {
    let mut bytes = [1, 2, 3, 4, 5, 6, 7, 8];
    let mut sheet = SheetMut::<Straight>::new(2, 1, &mut bytes)?;
    sheet.bytes_mut()[0] = 9;
    let mut again = sheet.reborrow();
    again.bytes_mut()[7] = 9;
    assert_eq!((again.width(), again.height()), (2, 1));
    let read = sheet.as_ref();
    assert_eq!((read.width(), read.height()), (2, 1));
    assert_eq!(read.bytes(), [9, 2, 3, 4, 5, 6, 7, 9]);
    // Its bytes outlive it.
    let kept = sheet.into_bytes();
    kept[1] = 9;
    assert_eq!(bytes, [9, 9, 3, 4, 5, 6, 7, 9]);
    Ok(())
}

/// What is read is copied at will, and lent for as long as its bytes are.
#[test]
fn a_sheet_to_be_read_is_copied() -> Result<(), Refusal> {
    let bytes = [1, 2, 3, 4];
    let kept = {
        let sheet = SheetRef::<Premultiplied>::new(1, 1, &bytes)?;
        let copy = sheet;
        assert_eq!(sheet, copy);
        copy.bytes()
    };
    assert_eq!(kept, bytes);
    Ok(())
}
