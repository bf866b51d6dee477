// E0506
use codrask::Column;

fn main() {
    let mut numbers = [1i32, 2];
    let column = Column::from(&numbers[..]);
    let rows = column.check().unwrap();
    numbers[0] = 3;
    println!("{:?}", rows.int_at(0)); // wrong
}
