// E0616
use codrask::FFI_ArrowArray;

fn main() {
    let mut array = FFI_ArrowArray::empty();
    array.release = None; // wrong
    array = FFI_ArrowArray::empty();
    println!("{array:?}");
}
