// E0597
use codrask::Column;

fn main() {
    let column;
    {
        let numbers = vec![1i32, 2];
        column = Column::from(&numbers[..]);
        println!("{}", column.len());
    }
    println!("{}", column.len()); // wrong
}
