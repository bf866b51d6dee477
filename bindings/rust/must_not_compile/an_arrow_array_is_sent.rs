// E0277
use codrask::FFI_ArrowArray;

fn main() {
    let array = FFI_ArrowArray::empty();
    println!("{array:?}");
    std::thread::spawn(move || drop(array)); // wrong
}
