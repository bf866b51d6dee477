// E0133
use codrask::{from_ffi, FFI_ArrowArray, FFI_ArrowSchema, Reading};

fn main() {
    let (array, schema) = (FFI_ArrowArray::empty(), FFI_ArrowSchema::empty());
    println!("{array:?} {schema:?} {:?}", Reading::default());
    let read = unsafe { from_ffi(FFI_ArrowArray::empty(), &schema, &Reading::default()) };
    println!("{}", read.is_err());
    from_ffi(array, &schema, &Reading::default()); // wrong
}
