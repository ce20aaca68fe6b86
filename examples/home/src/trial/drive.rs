//! The trial's driver: it starts home and the lanes as processes, kills home at made-up moments and starts it anew, and waits for
//! the lanes.

use super::plan::Sizes;
use super::random::Random;
use super::work::{Done, Waits};
use crate::folder::Folder;
use std::env;
use std::fs;
use std::io::{self, Read};
use std::process::{Child, Command, Stdio};
use std::thread;
use std::time::{Duration, Instant};

/// How often the driver looks, and after how long without a call made it gives up.
const LOOK: Duration = Duration::from_micros(300);
const STANDSTILL: Duration = Duration::from_secs(60);

/// A power cut comes at most so long after the moment that was made up for it, and home comes back at most so long after it.
const LONGEST_DELAY: u64 = 3_000;
const LONGEST_OUTAGE: u64 = 10_000;

/// What came of a book's work.
pub struct Driven {
    pub cuts: u64,
    pub time: Duration,
    /// What each lane told at its end.
    pub done: Vec<Done>,
}

/// Home and its lanes while they work. None of them outlives it.
struct Processes<'a> {
    folder: &'a Folder,
    sizes: Sizes,
    home: Child,
    lanes: Vec<Child>,
}

/// Has all lanes do their work in an empty folder, with so many power cuts of home meanwhile.
pub fn drive(folder: &Folder, sizes: Sizes, cuts: u64) -> io::Result<Driven> {
    let start = Instant::now();
    let home = start_home(folder, sizes)?;
    let mut processes = Processes { folder, sizes, home, lanes: Vec::new() };
    for lane in 0..sizes.lanes {
        processes.lanes.push(start_lane(folder, sizes, lane)?);
    }
    let mut random = Random::new(sizes.seed, &[sizes.book.into(), u64::MAX]);
    // Not at the very end, where the lanes could be done before the driver looks.
    let latest = sizes.fewest_bytes() as u64 * 9 / 10;
    let mut moments: Vec<u64> = (0..cuts).map(|_| random.below(latest)).collect();
    moments.sort_unstable();
    let made = processes.wait(&moments, &mut random)?;
    let time = start.elapsed();
    Ok(Driven { cuts: made, time, done: processes.results()? })
}

impl Processes<'_> {
    /// Waits until all lanes have ended well, and cuts home's power whenever the list of calls has reached the next of the
    /// moments. The answer is how many cuts there were.
    fn wait(&mut self, moments: &[u64], random: &mut Random) -> io::Result<u64> {
        let mut moments = moments.iter().peekable();
        let mut cuts = 0;
        let (mut length, mut moved) = (0, Instant::now());
        while self.is_running()? {
            let now = fs::metadata(self.folder.calls()).map_or(0, |file| file.len());
            if now != length {
                (length, moved) = (now, Instant::now());
            }
            if moved.elapsed() > STANDSTILL {
                return Err(io::Error::other("no call was made for a minute"));
            }
            if moments.next_if(|&&moment| moment <= now).is_some() {
                self.cut_power(random)?;
                cuts += 1;
            }
            thread::sleep(LOOK);
        }
        Ok(cuts)
    }

    /// Kills home, with no chance to do anything more, and starts it anew.
    fn cut_power(&mut self, random: &mut Random) -> io::Result<()> {
        thread::sleep(Duration::from_micros(random.below(LONGEST_DELAY)));
        self.home.kill()?;
        self.home.wait()?;
        thread::sleep(Duration::from_micros(random.below(LONGEST_OUTAGE)));
        self.home = start_home(self.folder, self.sizes)?;
        Ok(())
    }

    /// Whether a lane is still at work. A lane that failed, and home where it has ended by itself, are errors.
    fn is_running(&mut self) -> io::Result<bool> {
        if let Some(status) = self.home.try_wait()? {
            return Err(io::Error::other(format!("home has ended: {status}")));
        }
        let mut running = false;
        for (lane, child) in self.lanes.iter_mut().enumerate() {
            match child.try_wait()? {
                None => running = true,
                Some(status) if !status.success() => {
                    return Err(io::Error::other(format!("lane {lane} has failed: {status}")));
                }
                Some(_) => (),
            }
        }
        Ok(running)
    }

    fn results(&mut self) -> io::Result<Vec<Done>> {
        self.lanes.iter_mut().map(result).collect()
    }
}

impl Drop for Processes<'_> {
    fn drop(&mut self) {
        for child in self.lanes.iter_mut().chain([&mut self.home]) {
            let _ = child.kill();
            let _ = child.wait();
        }
    }
}

fn start_home(folder: &Folder, sizes: Sizes) -> io::Result<Child> {
    let numbers = [sizes.lanes.to_string(), sizes.capacity.to_string()];
    let mut command = Command::new(env::current_exe()?);
    command.arg("serve").arg(folder.path()).args(numbers).arg("attended");
    command.stdin(Stdio::piped()).spawn()
}

fn start_lane(folder: &Folder, sizes: Sizes, lane: u8) -> io::Result<Child> {
    let mut command = Command::new(env::current_exe()?);
    command.arg("lane").arg(folder.path()).arg(lane.to_string()).args(sizes.to_words());
    command.stdout(Stdio::piped()).spawn()
}

/// What a lane that has ended has printed (`Done::to_line`).
fn result(child: &mut Child) -> io::Result<Done> {
    let mut text = String::new();
    child.stdout.take().ok_or_else(|| io::Error::other("no output"))?.read_to_string(&mut text)?;
    Done::from_line(&text).ok_or_else(|| io::Error::other(format!("a lane has printed: {text}")))
}

impl Done {
    pub fn to_line(&self) -> String {
        let Waits { times, sum, longest } = self.waits;
        let (sum, longest) = (sum.as_micros(), longest.as_micros());
        format!("{times} {sum} {longest} {} {}", self.asked_again, self.made_before)
    }

    fn from_line(line: &str) -> Option<Done> {
        let numbers: Vec<u64> =
            line.split_whitespace().map(|word| word.parse().ok()).collect::<Option<_>>()?;
        let [times, sum, longest, asked_again, made_before] = numbers[..] else {
            return None;
        };
        let (sum, longest) = (Duration::from_micros(sum), Duration::from_micros(longest));
        let waits = Waits { times: times.try_into().ok()?, sum, longest };
        Some(Done { waits, asked_again, made_before })
    }
}
