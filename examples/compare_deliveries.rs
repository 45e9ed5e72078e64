//! `compare_deliveries ARCHIVE LOG`: plays an archive and compares the model's deliveries with those that a controller
//! logged, 4 bytes each as in our book: draw (2 bytes, the higher first), packet, site. Prints the first difference.
//! Exit: 0 no difference, 1 a difference, 2 an archive that is refused, or a file that cannot be used.
//! The same as compare_deliveries.c, by the Rust wrapper under bindings/rust.

use fennqualo::{Player, Service};
use std::process::exit;

fn fail(why: String) -> ! {
    eprintln!("compare_deliveries: {why}");
    exit(2);
}

fn read_file(name: &str) -> Vec<u8> {
    std::fs::read(name).unwrap_or_else(|error| fail(format!("{name} cannot be read: {error}")))
}

fn print_delivery(who: &str, delivery: Option<&Service>) {
    match delivery {
        None => println!("{who}: nothing"),
        Some(Service { draw, packet, site }) => println!("{who}: draw {draw} packet {packet} site {site}"),
    }
}

fn main() {
    let words: Vec<String> = std::env::args().skip(1).collect();
    let (archive, log) = match &words[..] {
        [archive, log] => (read_file(archive), read_file(log)),
        _ => {
            eprintln!("usage: compare_deliveries ARCHIVE LOG");
            exit(2);
        }
    };
    if log.len() % 4 != 0 {
        fail(format!("{} is not made of 4 bytes a delivery", words[1]));
    }
    let logged: Vec<Service> =
        log.chunks_exact(4).map(|entry| Service::of([entry[0], entry[1], entry[2], entry[3]])).collect();
    let mut player = Player::new();
    let booked: Vec<Service> = match player.play(&archive) {
        Ok(played) => played.services().collect(),
        Err(refusal) => {
            println!("refused {}", refusal.number());
            exit(2);
        }
    };
    if booked == logged {
        println!("{} deliveries, no difference", booked.len());
        return;
    }
    let same = booked.iter().zip(&logged).take_while(|(model, controller)| model == controller).count();
    println!("delivery {same} differs");
    print_delivery("model", booked.get(same));
    print_delivery("controller", logged.get(same));
    exit(1);
}
