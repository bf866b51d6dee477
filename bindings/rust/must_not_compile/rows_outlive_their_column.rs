// E0505
use codrask::Column;

fn main() {
    let column = Column::utf8(&[0, 1], b"x", None);
    let rows = column.check().unwrap();
    println!("{}", rows.len());
    drop(column);
    println!("{}", rows.len()); // wrong
}
