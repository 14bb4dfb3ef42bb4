//! Why the program does not end with 0, and how it ends then.

/// Why the program does not end with 0.
pub enum Failure {
    /// Something is wrong, and this is it.
    Wrong(String),
    /// These calls miss a limit.
    Missed(Vec<String>),
}

impl From<String> for Failure {
    fn from(reason: String) -> Failure {
        Failure::Wrong(reason)
    }
}

impl Failure {
    /// Nothing where no call misses a limit.
    pub fn of_missed(calls: Vec<String>) -> Result<(), Failure> {
        if calls.is_empty() {
            Ok(())
        } else {
            Err(Failure::Missed(calls))
        }
    }

    /// What is said, and the code that the program ends with.
    pub fn told(self) -> (String, i32) {
        match self {
            Failure::Wrong(reason) => (reason, 2),
            Failure::Missed(calls) => (format!("a limit is missed: {}", calls.join(", ")), 1),
        }
    }
}

#[cfg(test)]
mod tests {
    use super::*;

    #[test]
    fn a_missed_limit_ends_with_1_and_a_fault_with_2() {
        let told = |calls: &[&str]| {
            let calls = calls.iter().map(|call| call.to_string()).collect();
            Failure::of_missed(calls).map_err(Failure::told)
        };
        let said = "a limit is missed: anyhow plan, families rest".to_string();
        assert_eq!(told(&["anyhow plan", "families rest"]), Err((said, 1)));
        assert_eq!(told(&[]), Ok(()));
        assert_eq!(Failure::from("no file".to_string()).told(), ("no file".to_string(), 2));
    }
}
