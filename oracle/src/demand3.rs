//! Demand 3, checked over the list of (event, printed answer) alone.
//!
//! Left out: "would be accepted next", which printed lines do not show.

use crate::answer::Answer;
use crate::event::{read_event, Event};
use crate::line::MOST_LANES;
use crate::sheet::{MOST_SHEET, TOO_LONG};

/// What was checked, over all sheets.
#[derive(Default, Debug)]
pub struct Tally {
    pub sheets: u64,
    pub waits: u64,
    pub wakes: u64,
    pub still_due: u64,
    pub longest_d: u64,
    pub most_releases: u64,
    pub releases: u64,
    pub stretches: u64,
    pub places: u64,
    pub ordered: u64,
}

/// The first breach of a sheet: the event's number (none for the end) and a sentence.
#[derive(Debug)]
pub struct Breach {
    pub event: Option<usize>,
    pub sentence: String,
}

/// A lane told to wait, from the answer `waits` until its wake is sent.
#[derive(Clone)]
struct Wait {
    d: u64,
    releases: u64,
    others_woken: Vec<bool>,
}

/// What the lines so far tell. Nothing here looks at the oracle's own state.
struct Checker<'a> {
    tally: &'a mut Tally,
    lanes: usize,
    waits: Vec<Option<Wait>>,
    /// The lane was woken and had no accepted want since.
    woken_since_want: Vec<bool>,
    wake_under_way: Vec<bool>,
    holding: Vec<bool>,
    /// Counts of the accepted 0A of the ordered call now gathering.
    entered: Vec<Option<u64>>,
    /// First of the present stretch, and the place to be handed out next.
    first: u64,
    next: u64,
}

type Said = Result<(), String>;

/// Checks one sheet and what was printed for it.
pub fn check(sheet: &[u8], printed: &[u8], tally: &mut Tally) -> Result<(), Breach> {
    tally.sheets += 1;
    if sheet.len() > MOST_SHEET {
        let right = printed == TOO_LONG.as_bytes();
        return at(None, if right { Ok(()) } else { Err("no `sheet too long`".into()) });
    }
    let text = String::from_utf8_lossy(printed);
    let mut lines = text.lines();
    let mut checker = Checker::new(tally);
    let mut cursor = 0;
    let mut number = 0;
    while let Some(read) = read_event(sheet, &mut cursor) {
        let line = lines.next().unwrap_or("(no line)");
        let said = parse_line(number, line).and_then(|answer| match read {
            Ok(event) => checker.step(&event, &answer),
            Err(_) if matches!(answer, Answer::Refused { .. }) => Ok(()),
            Err(_) => Err(format!("bytes that are no event are answered `{line}`")),
        });
        at(Some(number), said)?;
        number += 1;
        if read.is_err() {
            break;
        }
    }
    at(None, checker.end(lines.next().unwrap_or("(no line)")))?;
    at(None, lines.next().map_or(Ok(()), |line| Err(format!("a line after the end: `{line}`"))))
}

fn at(event: Option<usize>, said: Said) -> Result<(), Breach> {
    said.map_err(|sentence| Breach { event, sentence })
}

fn parse_line(number: usize, line: &str) -> Result<Answer, String> {
    let rest = line.strip_prefix(&format!("{number} "));
    let answer = rest.and_then(Answer::parse);
    answer.ok_or_else(|| format!("the line `{line}` is no answer number {number}"))
}

fn must(holds: bool, sentence: impl FnOnce() -> String) -> Said {
    if holds {
        Ok(())
    } else {
        Err(sentence())
    }
}

impl<'a> Checker<'a> {
    fn new(tally: &'a mut Tally) -> Checker<'a> {
        Checker {
            tally,
            lanes: 0,
            waits: vec![None; MOST_LANES],
            woken_since_want: vec![false; MOST_LANES],
            wake_under_way: vec![false; MOST_LANES],
            holding: vec![false; MOST_LANES],
            entered: vec![None; MOST_LANES],
            first: 0,
            next: 0,
        }
    }

    /// One event and its answer, then what must stand at every point of the list.
    fn step(&mut self, event: &Event, answer: &Answer) -> Said {
        if matches!(answer, Answer::Refused { .. }) {
            return self.one_has_the_turn();
        }
        must(answer.belongs_to(event.kind()), || {
            format!("`{}` is no answer to kind {:02X}", answer.text(), event.kind())
        })?;
        if let Some(lane) = event.lane() {
            must(lane < self.lanes, || format!("accepted for lane {lane} of {}", self.lanes))?;
        }
        self.accepted(event, answer)?;
        self.one_has_the_turn()
    }

    fn accepted(&mut self, event: &Event, answer: &Answer) -> Said {
        let lane = event.lane().unwrap_or(0);
        match (*event, *answer) {
            (Event::Open { .. }, Answer::Open { lanes, .. }) => self.opened(lanes),
            (Event::Want { .. }, Answer::Holds { pointer }) => {
                self.wanted(lane)?;
                self.holds(lane, pointer)
            }
            (Event::Want { .. }, Answer::Waits) => {
                self.wanted(lane)?;
                self.told_to_wait(lane)
            }
            (Event::Receive { .. }, Answer::Holds { pointer }) => {
                self.wake_under_way[lane] = false;
                self.holds(lane, pointer)
            }
            (Event::Take { count, .. }, Answer::Region { start, count: given, wakes }) => {
                must(given == u64::from(count), || {
                    format!("a take of {count} is given a region of {given}")
                })?;
                self.hand_out(start, given)?;
                self.released(lane, wakes)
            }
            (Event::Free { .. }, Answer::Freed { wakes }) => self.released(lane, wakes),
            (Event::Enter { count, .. }, Answer::Gathered) => self.entered(lane, count),
            (Event::Enter { count, .. }, Answer::Ordered { before, total }) => {
                self.entered(lane, count)?;
                self.ordered(before, total)
            }
            (Event::View { .. }, Answer::View) => self.new_stretch(0),
            (Event::Seek { whence, offset }, Answer::Seek { pointer }) => {
                self.sought(whence, offset, pointer)
            }
            _ => Ok(()), // wrote, record, none
        }
    }

    fn opened(&mut self, lanes: u64) -> Said {
        must(self.lanes == 0, || "a second opening is accepted".to_string())?;
        must((1..=MOST_LANES as u64).contains(&lanes), || format!("opened with {lanes} lanes"))?;
        self.lanes = lanes as usize;
        self.new_stretch(0)
    }

    // ---- waits and wakes ----

    fn wanted(&mut self, lane: usize) -> Said {
        must(self.waits[lane].is_none(), || {
            format!("a want of lane {lane} is accepted while it waits")
        })?;
        self.woken_since_want[lane] = false;
        Ok(())
    }

    fn holds(&mut self, lane: usize, pointer: u64) -> Said {
        self.holding[lane] = true;
        self.pointer_is(pointer, "holds")
    }

    /// The lanes that hold or have a wake under way.
    fn turn(&self) -> Vec<usize> {
        let has = |lane: &usize| self.holding[*lane] || self.wake_under_way[*lane];
        (0..self.lanes).filter(has).collect()
    }

    fn told_to_wait(&mut self, lane: usize) -> Said {
        let turn = self.turn();
        must(turn.len() == 1, || {
            format!("lane {lane} is told to wait while {turn:?} hold or are being woken")
        })?;
        let d = (lane + self.lanes - turn[0]) % self.lanes;
        must(d > 0, || format!("lane {lane} is told to wait for itself"))?;
        self.tally.waits += 1;
        self.tally.still_due += 1;
        self.tally.longest_d = self.tally.longest_d.max(d as u64);
        let others_woken = vec![false; self.lanes];
        self.waits[lane] = Some(Wait { d: d as u64, releases: 0, others_woken });
        Ok(())
    }

    /// An accepted release by a lane, and the wake that it sends, if any.
    fn released(&mut self, lane: usize, wakes: Option<u64>) -> Said {
        self.tally.releases += 1;
        self.holding[lane] = false;
        let woken = wakes.map(|lane| lane as usize);
        if let Some(woken) = woken {
            self.wake_is_due(woken)?;
        }
        for waiter in 0..self.lanes {
            self.count_release(waiter, woken)?;
        }
        if let Some(woken) = woken {
            self.waits[woken] = None;
            self.woken_since_want[woken] = true;
            self.wake_under_way[woken] = true;
            self.tally.wakes += 1;
            self.tally.still_due -= 1;
        }
        Ok(())
    }

    /// A wake goes to a lane that waits, and only once for its wait.
    fn wake_is_due(&self, woken: usize) -> Said {
        must(woken < self.lanes, || format!("lane {woken} of {} is woken", self.lanes))?;
        must(!self.woken_since_want[woken], || {
            format!("lane {woken} is woken a second time before its next accepted want")
        })?;
        must(self.waits[woken].is_some(), || {
            format!("lane {woken} is woken but was not told to wait")
        })
    }

    /// One more release as a waiting lane sees it.
    fn count_release(&mut self, waiter: usize, woken: Option<usize>) -> Said {
        let Some(wait) = &mut self.waits[waiter] else { return Ok(()) };
        wait.releases += 1;
        let (d, releases) = (wait.d, wait.releases);
        self.tally.most_releases = self.tally.most_releases.max(releases);
        if woken == Some(waiter) {
            return must(releases <= d, || {
                format!("lane {waiter} is woken by release {releases}, due by release {d}")
            });
        }
        must(releases < d, || {
            format!("lane {waiter} waits on after release {releases}, its wake was due by {d}")
        })?;
        if let Some(other) = woken {
            let first_time = !std::mem::replace(&mut wait.others_woken[other], true);
            must(first_time, || format!("lane {other} is woken twice while lane {waiter} waits"))?;
        }
        Ok(())
    }

    /// While any lane waits, exactly one holds or has a wake under way.
    fn one_has_the_turn(&self) -> Said {
        if self.waits.iter().all(Option::is_none) {
            return Ok(());
        }
        let turn = self.turn();
        must(turn.len() == 1, || format!("a lane waits while {turn:?} hold or are being woken"))
    }

    // ---- places ----

    /// The opening, or an accepted seek or view, begins a stretch.
    fn new_stretch(&mut self, first: u64) -> Said {
        self.tally.stretches += 1;
        self.first = first;
        self.next = first;
        Ok(())
    }

    /// The pointer as printed is first + all counts handed out since.
    fn pointer_is(&self, printed: u64, word: &str) -> Said {
        must(printed == self.next, || {
            format!(
                "`{word}` tells of pointer {printed}, but from {} on the places up to {} were \
                 handed out",
                self.first, self.next
            )
        })
    }

    /// Places start to start + count must go on where the last ended.
    fn hand_out(&mut self, start: u64, count: u64) -> Said {
        must(start == self.next, || {
            format!("places from {start} are handed out where {} is next", self.next)
        })?;
        self.next += count;
        self.tally.places += count;
        Ok(())
    }

    fn entered(&mut self, lane: usize, count: u16) -> Said {
        must(self.entered[lane].is_none(), || {
            format!("lane {lane} enters twice in one ordered call")
        })?;
        self.entered[lane] = Some(u64::from(count));
        Ok(())
    }

    /// The completing 0A hands out to each lane from 0 up, as many as its count.
    fn ordered(&mut self, before: u64, total: u64) -> Said {
        let mut start = before;
        for lane in 0..self.lanes {
            let Some(count) = self.entered[lane].take() else {
                return Err(format!("an ordered call is complete without lane {lane}"));
            };
            self.hand_out(start, count)?;
            start += count;
        }
        self.tally.ordered += 1;
        must(start - before == total, || {
            format!("an ordered call of {} records tells of {total}", start - before)
        })
    }

    /// Whence 1 prints last + offset, so it tells of the stretch's last too.
    fn sought(&mut self, whence: u8, offset: i32, pointer: u64) -> Said {
        if whence == 1 {
            let last = pointer as i64 - i64::from(offset);
            must(last == self.next as i64, || {
                format!("a seek by {offset} to {pointer} where the pointer is {}", self.next)
            })?;
        }
        self.new_stretch(pointer)
    }

    fn end(&mut self, line: &str) -> Said {
        let parts: Vec<&str> = line.split(' ').collect();
        let pointer = match parts.as_slice() {
            ["end", _, pointer] => pointer.parse().ok(),
            _ => None,
        };
        let Some(pointer) = pointer else { return Err(format!("no end line but `{line}`")) };
        self.pointer_is(pointer, "end")
    }
}
