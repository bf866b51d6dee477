// E0599
use codrask::Column;

fn main() {
    let column = Column::from(&[1i32, 2][..]);
    println!("{:?}", column.check().unwrap().int_at(0));
    println!("{:?}", column.int_at(0)); // wrong
}
