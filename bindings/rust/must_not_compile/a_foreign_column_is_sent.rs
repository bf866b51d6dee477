// E0277
use codrask::Foreign;

fn send(_foreign: Foreign) {
    std::thread::spawn(move || drop(_foreign)); // wrong
}

fn main() {
    println!("{}", send as fn(Foreign) as usize != 0);
}
