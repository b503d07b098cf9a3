//! Posts a message as process INDEX of the file "box": post [INDEX].

use std::error::Error;
use std::io::ErrorKind;

use rme::{Appended, Seat};

fn main() -> Result<(), Box<dyn Error>> {
    let index = std::env::args().nth(1).map_or(Ok(0), |word| word.parse())?;
    match rme::create("box", 2, 1024, 1, 0) {
        Err(error) if error.kind() != ErrorKind::AlreadyExists => return Err(error.into()),
        _ => {}
    }
    let mut seat = Seat::attach("box", index)?;
    let mut guard = seat.lock()?;
    if guard.owner_died() {
        guard.mended()?; // an earlier process of this index died inside: its append is ended
    }
    let number = 1 + guard.read_from(0).filter(|message| message.sender == index).count() as u64;
    let outcome = match guard.append(number, &[77])? {
        Appended::Stored => "stored",
        Appended::Already => "already there",
    };
    println!("message {number}: {outcome}");
    Ok(guard.unlock()?)
}
