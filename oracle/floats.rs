//! Rust's own answers: reads lines `w bits` (`round() as i32`) and `a bits` (`abs`), and writes `COMMAND => ANSWER`.
use std::io::BufRead;

fn main() {
    for line in std::io::stdin().lock().lines() {
        let line = line.unwrap();
        let x = f32::from_bits(u32::from_str_radix(&line[2..], 16).unwrap());
        match &line[..1] {
            "w" => println!("{line} => {}", x.round() as i32),
            "a" if x.is_nan() => println!("{line} => 7fc00000"),
            "a" => println!("{line} => {:08x}", x.abs().to_bits()),
            other => panic!("unknown command {}", other),
        }
    }
}
