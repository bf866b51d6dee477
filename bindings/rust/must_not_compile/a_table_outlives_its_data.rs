// E0505
use codrask::{from_data, Bits, Data, Reading};

struct Numbers<'a>(&'a [u8]);

impl<'a> Data<'a> for Numbers<'a> {
    fn format(&self) -> String {
        "C".into()
    }
    fn length(&self) -> usize {
        self.0.len()
    }
    fn offset(&self) -> usize {
        0
    }
    fn nulls(&self) -> Option<Bits<'a>> {
        None
    }
    fn buffers(&self) -> Vec<&'a [u8]> {
        vec![self.0]
    }
    fn children(&self) -> Vec<(&'a str, bool, Self)> {
        vec![]
    }
    fn dictionary(&self) -> Option<Self> {
        None
    }
}

fn main() {
    let bytes = vec![1, 2, 3];
    let table = from_data(&Numbers(&bytes), &Reading::default()).unwrap();
    println!("{table:?}");
    drop(bytes); // wrong
    println!("{table:?}");
}
