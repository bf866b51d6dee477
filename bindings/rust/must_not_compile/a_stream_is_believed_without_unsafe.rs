// E0133
use codrask::{from_stream, FFI_ArrowArrayStream, Reading};

fn main() {
    let stream = FFI_ArrowArrayStream::empty();
    println!("{stream:?}");
    from_stream(stream, &Reading::default()); // wrong
}
