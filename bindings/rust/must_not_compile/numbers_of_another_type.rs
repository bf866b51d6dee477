// E0277
use codrask::Column;

fn main() {
    println!("{:?}", Column::from(&[1u8][..]));
    println!("{:?}", Column::numbers(&[true], None)); // wrong
}
