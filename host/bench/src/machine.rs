//! What machine it was.
use std::fs;
use std::process::Command;

pub struct Machine {
    processor: String,
    cores: usize,
    /// How many processes were running or waiting in the minute before.
    load: String,
    compiler: String,
}

impl Machine {
    pub fn here() -> Self {
        let processors = fs::read_to_string("/proc/cpuinfo").unwrap_or_default();
        let load = fs::read_to_string("/proc/loadavg").unwrap_or_default();
        let compiler = Command::new("rustc").arg("--version").output();
        let compiler = compiler.map(|it| String::from_utf8_lossy(&it.stdout).into_owned());
        Self {
            processor: field(&processors, "model name").unwrap_or("unknown").into(),
            cores: std::thread::available_parallelism().map_or(1, usize::from),
            load: load.split(' ').next().unwrap_or("unknown").into(),
            compiler: compiler.unwrap_or_default().trim().into(),
        }
    }

    /// One line of a page.
    pub fn line(&self) -> String {
        let Self {
            processor,
            cores,
            load,
            compiler,
        } = self;
        format!(
            "{processor}, {cores} cores, load average {load} when it began; {compiler}, release"
        )
    }
}

fn field<'a>(text: &'a str, name: &str) -> Option<&'a str> {
    let line = text.lines().find(|line| line.starts_with(name))?;
    line.split_once(": ").map(|(_, value)| value)
}

#[cfg(test)]
mod tests {
    use super::*;

    #[test]
    fn a_field_stands_after_its_colon() {
        let text = "vendor_id\t: AuthenticAMD\nmodel name\t: AMD EPYC\n";
        assert_eq!(field(text, "model name"), Some("AMD EPYC"));
        assert_eq!(field(text, "cache size"), None);
    }
}
