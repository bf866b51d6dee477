// E0277
use codrask::Kind;

struct Mine;

impl codrask::Number for Mine { const KIND: Kind = Kind::U8; } // wrong

fn main() {
    let _ = (Mine, Kind::U8);
}
