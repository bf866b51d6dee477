// E0505
use codrask::{run, Column};

fn main() {
    let made = run(&[Column::from(&[1i32][..])], &[], &[0]).unwrap();
    let rows = made[0].rows();
    println!("{:?}", rows.int_at(0));
    drop(made);
    println!("{:?}", rows.int_at(0)); // wrong
}
