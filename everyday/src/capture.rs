//! A capture: memory and state of a core, read from a file and written to one. The file does not tell which core; whoever reads
//! it does.

use crate::files;
use crate::library::{MOST, STATE, TRAILER};
use crate::numbers;
use crate::profile::Profile;
use crate::refusals;
use crate::registers::{self, State};
use std::path::Path;

#[derive(Clone)]
pub struct Capture {
    pub profile: Profile,
    pub state: State,
    pub memory: Vec<u8>,
}

impl Capture {
    pub fn read(profile: Profile, path: &Path) -> Result<Capture, String> {
        let file = files::read(path, MOST + TRAILER, "a capture")?;
        Capture::of(profile, &file).map_err(|wrong| format!("{}: {wrong}", path.display()))
    }

    /// The capture that a file is.
    pub fn of(profile: Profile, file: &[u8]) -> Result<Capture, String> {
        let length = profile.capture_check(file).map_err(|refusal| refusals::of_capture(refusal, profile, file))?;
        let mut state = State::zero();
        state.0.copy_from_slice(&file[length..length + STATE]);
        Ok(Capture { profile, state, memory: file[..length].to_vec() })
    }

    /// The first profile that takes a file as its capture.
    pub fn profile_of(file: &[u8]) -> Option<Profile> {
        Profile::BOTH.into_iter().find(|profile| profile.capture_check(file).is_ok())
    }

    pub fn write(&self, path: &Path) -> Result<(), String> {
        let file = self
            .profile
            .capture_write(&self.state, &self.memory)
            .map_err(|refusal| refusals::of_start(refusal, self))?;
        files::write(path, &file)
    }

    /// Sets registers as `NAME=HEX` says; what comes of it must be accepted by a run.
    pub fn set(&mut self, settings: &[String]) -> Result<(), String> {
        for setting in settings {
            let (name, value) =
                setting.split_once('=').ok_or(format!("--set {setting}: write NAME=HEX, as in DBCR=01000000"))?;
            let place = registers::place_of(name)
                .ok_or(format!("--set {setting}: there is no register {name}; there are {}", registers::names()))?;
            let word = numbers::word(value).map_err(|wrong| format!("--set {setting}: {wrong}"))?;
            self.state.put(place, word);
        }
        self.profile.start_check(&self.state, &self.memory).map_err(|refusal| refusals::of_start(refusal, self))
    }

    /// The four bytes at an address, if memory has them.
    pub fn word_at(&self, address: u32) -> Option<u32> {
        let at = address as usize;
        let bytes = self.memory.get(at..at.checked_add(4)?)?;
        Some(u32::from_be_bytes([bytes[0], bytes[1], bytes[2], bytes[3]]))
    }
}
