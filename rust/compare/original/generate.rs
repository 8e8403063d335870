//! Runs the original's generators and writes their own text: generate OUT_FILE. Prints the seconds of CPU time of gen_all_magic.
#![allow(warnings)]
#[path = "../src/clock.rs"]
mod clock;
include!(concat!(env!("OUT_DIR"), "/generators.rs"));

use gen_tables::{bmis, magic, rays};

fn main() {
    if !std::is_x86_feature_detected!("bmi2") {
        eprintln!("this CPU has no BMI2, which src/gen_tables/bmis.rs needs");
        std::process::exit(3);
    }
    let out = std::env::args().nth(1).expect("generate OUT_FILE");
    let mut f = std::fs::File::create(out).unwrap();
    rays::gen_rook_rays();
    rays::gen_bishop_rays();
    rays::write_rays(&mut f);
    let begun = clock::cpu();
    magic::gen_all_magic();
    println!("{:.6}", (clock::cpu() - begun).as_secs_f64());
    magic::write_magic(&mut f);
    bmis::gen_all_bmis();
    bmis::write_bmis(&mut f);
}
