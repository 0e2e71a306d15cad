//! The route check of the depot case's sheet by the process that has the library, on each processor. With a folder: from
//! there.

const SHEET: [u8; 19] = [
    0x26, 0x66, 0x86, 0x43, 0x21, 0xA8, 0x00, 0x00, 0x00, 0x1C, 0x00, 0x00, 0x00, 0x04, 0x44, 0x88,
    0x4C, 0x00, 0x40,
];

fn main() {
    if let Some(folder) = std::env::args_os().nth(1) {
        std::env::set_current_dir(folder).expect("the folder is there");
    }
    println!("{:?}", ebbcandle::linked::piped::check_route(&SHEET));
}
