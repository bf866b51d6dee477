// E0277
use codrask::Batches;

fn send(_batches: Batches<'static>) {
    std::thread::spawn(move || drop(_batches)); // wrong
}

fn main() {
    println!("{}", send as fn(Batches<'static>) as usize != 0);
}
