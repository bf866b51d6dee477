// E0277
use codrask::FFI_ArrowArray;

fn main() {
    let array = FFI_ArrowArray::empty();
    std::thread::scope(|scope| {
        scope.spawn(|| println!("{array:?}")); // wrong
        println!("{array:?}");
    });
}
