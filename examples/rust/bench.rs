//! The bench's part of a campaign: the cords, the robot and the tester. A real bench has these calls of its own; here
//! they are played. The cords are a file that outlives the program as cords do: in one line the port at each jack and,
//! where a cord is half seated, its jack. Without the file they are at home: 2, 3, .., n, 1. Edit it while the program
//! is not running, and you are the hand that moves a cord, or pulls at one:
//!
//!     echo 2 3 4 1 2 >campaign.panel      at home, and the cord at jack 2 is half seated
//!
//! The tester reports an error while a cord is half seated, and takes every other traffic as run.

use crate::jidrofex::{carry, Answer, ERROR, RAN, SEAT};
use crate::keep;
use std::fs;
use std::io::ErrorKind;
use std::path::PathBuf;

pub struct Bench {
    pub cords: PathBuf,
    pub ports: usize,
}

impl Bench {
    fn home(&self) -> Vec<u8> {
        (1..=self.ports).map(|jack| (jack % self.ports + 1) as u8).collect()
    }

    /// The port at each jack, and the jack whose cord is half seated, if one is.
    fn read_cords(&self) -> Result<(Vec<u8>, Option<u8>), String> {
        let text = match fs::read_to_string(&self.cords) {
            Ok(text) => text,
            Err(error) if error.kind() == ErrorKind::NotFound => return Ok((self.home(), None)),
            Err(error) => return Err(format!("{}: {error}", self.cords.display())),
        };
        let numbers: Result<Vec<u8>, _> = text.split_whitespace().take(self.ports + 1).map(str::parse).collect();
        let mut panel = numbers.unwrap_or_default();
        let half = panel.get(self.ports).copied();
        panel.truncate(self.ports);
        if panel.len() < self.ports || half.is_some_and(|jack| usize::from(jack) > self.ports) {
            return Err(format!("{} is no panel of {} ports", self.cords.display(), self.ports));
        }
        Ok((panel, half.filter(|jack| *jack != 0)))
    }

    /// Reads the panel back from the cords themselves: the port at each jack, 0 where no cord is in.
    pub fn reads(&self) -> Result<Vec<u8>, String> {
        Ok(self.read_cords()?.0)
    }

    /// The robot carries out a swap or a turn, or seats the cord at a jack, and is done when this comes back.
    pub fn obeys(&self, line: &Answer) -> Result<(), String> {
        let (mut panel, half) = self.read_cords()?;
        carry(&mut panel, line)?;
        panel.extend(half.filter(|jack| line[0] != SEAT || line[1] != u64::from(*jack)));
        let numbers: Vec<String> = panel.iter().map(u8::to_string).collect();
        keep::text(&self.cords, &format!("{}\n", numbers.join(" ")))
    }

    /// The tester runs the traffic of a mark to its end, on the cords as they stand, and says of it 0, it ran; 1, an
    /// error, and every jack is seated and the same mark comes again; or 2, it gave up, and the mark stays open.
    pub fn runs(&self, _mark: u64, _rank: u64) -> Result<u8, String> {
        let (_, half) = self.read_cords()?;
        Ok(if half.is_some() { ERROR } else { RAN })
    }
}
