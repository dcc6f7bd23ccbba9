//! Which core is meant: the PPE 42 or, by --42x, the PPE 42X. A capture does not tell, so this is made of the option, once, and
//! handed to what depends on it.

#[derive(Clone, Copy, Debug, PartialEq)]
pub enum Profile {
    Ppe42,
    Ppe42X,
}

impl Profile {
    pub const BOTH: [Profile; 2] = [Profile::Ppe42, Profile::Ppe42X];

    /// By whether --42x is given.
    pub fn of(is_42x: bool) -> Profile {
        if is_42x {
            Profile::Ppe42X
        } else {
            Profile::Ppe42
        }
    }

    pub fn name(self) -> &'static str {
        match self {
            Profile::Ppe42 => "PPE 42",
            Profile::Ppe42X => "PPE 42X",
        }
    }

    /// The profile that --42x would have given, where it was not given. It has more, so what is refused is asked of it again.
    pub fn wider(self) -> Option<Profile> {
        (self == Profile::Ppe42).then_some(Profile::Ppe42X)
    }
}
