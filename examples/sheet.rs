// Makes a change sheet, reads it in both editions and in one that there is not, and prints what each made of it; then saves and loads an empty book.
use taxolbin::{read, BitSlice, Bitmap, Direction, Edit, Edition, Error, ReadError, Sheet, Style};

fn make(buffer: &mut [u8]) -> Result<Sheet<'_>, Error> {
    let mut sheet = Sheet::start(buffer)?;
    sheet.edit(Edit::SetRegion { value: true, p: 2, k: 4 })?;
    sheet.edit(Edit::Unset { p: 3 })?;
    sheet.remark(1, b"hi")?;
    sheet.edit(Edit::Shift { direction: Direction::Left, k: 64 })?;
    sheet.edit(Edit::Open { p: 68, k: 10 })?;
    Ok(sheet)
}

// Edition, number, record and count; then the list, or why there is none.
fn line(old: &BitSlice, sheet: &[u8], number: usize) -> Result<(), Error> {
    let mut store = [0; 128];
    let mut text = [0; 65536];
    let edition = Edition::try_from(number).map_err(|error| ReadError { error, record: 0 });
    match edition.and_then(|edition| read(edition, sheet, old, &mut store)) {
        Ok(done) => println!("{number} 0 {} {} {}", done.records, done.bitmap.count(), done.bitmap.write_list(&mut text, Style::PLAIN)?),
        Err(refused) => println!("{number} {} {} 0 {}", refused.error.number(), refused.record, refused.error.why()),
    }
    Ok(())
}

// A book without notes is kept as a text of no bytes.
fn save_and_load(book: &mut Bitmap) -> Result<(), Error> {
    let mut text = [0; 65536];
    book.resize_bits(0)?;
    let saved = book.write_list(&mut text, Style::PLAIN)?;
    book.load_list(saved, Style::PLAIN)?;
    println!("an empty book: {} bytes, {} notes", saved.len(), book.count_set_bits());
    Ok(())
}

fn main() -> Result<(), Error> {
    let mut buffer = [0; 256];
    let sheet = make(&mut buffer)?;
    let bytes: Vec<String> = sheet.bytes().iter().map(|byte| format!("{byte:02X}")).collect();
    println!("{}", bytes.join(" "));
    let mut store = [0; 4];
    let mut old = Bitmap::empty(&mut store)?;
    old.load_list("0, 4-5", Style::PLAIN)?;
    for edition in 1..=3 {
        line(&old, sheet.bytes(), edition)?;
    }
    save_and_load(&mut old)
}
