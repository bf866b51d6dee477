// E0597
use codrask::Column;

fn main() {
    let mut longest = String::new();
    let mut lent = "";
    {
        let bytes = b"abc".to_vec();
        let column = Column::utf8(&[0, 3], &bytes, None);
        let rows = column.check().unwrap();
        longest.push_str(rows.text_at(0).unwrap());
        lent = rows.text_at(0).unwrap(); // wrong
    }
    println!("{longest} {lent}");
}
