//! Two services write a log, and a reader follows it: services FOLDER. Service 0 is killed in the midst of its messages and started
//! again: it asks the log which number comes next, and each message is there once.

use std::env;
use std::error::Error;
use std::os::unix::process::ExitStatusExt;
use std::process::{Child, Command};

use rme::{Log, LogReader};

const MESSAGES: u64 = 10;

fn serve(folder: &str, index: u64, dies: bool) -> Result<(), Box<dyn Error>> {
    let mut log = Log::open(folder, index)?;
    let first = log.next_number()?;
    if first > 1 {
        println!("service {index} goes on with message {first}");
    }
    for number in first..=MESSAGES {
        log.append(number, &[100 * index + number])?;
        if dies && number == MESSAGES / 2 {
            Command::new("kill").args(["-9", &std::process::id().to_string()]).status()?;
            std::thread::park();
        }
    }
    Ok(())
}

fn start(folder: &str, index: u64, dies: bool) -> std::io::Result<Child> {
    Command::new(env::current_exe()?).args([folder, &index.to_string(), &dies.to_string()]).spawn()
}

fn main() -> Result<(), Box<dyn Error>> {
    let words: Vec<_> = env::args().skip(1).collect();
    let folder = words.first().map_or("log", |word| word);
    if let [folder, index, dies] = &words[..] {
        return serve(folder, index.parse()?, dies == "true");
    }
    rme::create_log(folder, 2, 4, 1)?; // 2 processes, segments of 4 messages of one word
    let (mut killed, mut other) = (start(folder, 0, true)?, start(folder, 1, false)?);
    println!("service 0 was killed: {}", if killed.wait()?.signal() == Some(9) { "yes" } else { "no" });
    start(folder, 0, false)?.wait()?;
    other.wait()?;
    let mut reader = LogReader::named(folder, "audit")?;
    let mut last = [0; 2];
    while let Some(message) = reader.next() {
        let message = message?;
        last[message.sender as usize] += 1;
        assert_eq!(
            (message.number, message.value()),
            (last[message.sender as usize], &[100 * message.sender + message.number][..])
        );
        reader.keep()?; // its work is done
    }
    println!("read {} messages of service 0 and {} of service 1", last[0], last[1]);
    println!("segments are dropped before {}", rme::drop_segments(folder, u64::MAX)?);
    Ok(())
}
