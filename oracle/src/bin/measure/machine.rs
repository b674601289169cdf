//! What is told of the machine and of the day.
use std::{
    fs,
    time::{SystemTime, UNIX_EPOCH},
};

/// The processors' name and how many there are. Arm machines tell numbers instead of a name.
pub fn processors() -> String {
    let text = fs::read_to_string("/proc/cpuinfo").unwrap_or_default();
    let field = |name: &str| {
        text.lines().find_map(|line| {
            let (key, value) = line.split_once(':')?;
            (key.trim() == name).then(|| value.trim().to_string())
        })
    };
    let name = field("model name").or_else(|| {
        let (maker, part) = (field("CPU implementer")?, field("CPU part")?);
        Some(arm_name(&maker, &part).map_or(format!("Arm part {part} of maker {maker}"), str::to_string))
    });
    let cores = text.lines().filter(|line| line.starts_with("processor")).count();
    let name = name.unwrap_or_else(|| std::env::consts::ARCH.to_string());
    format!("{name}, {cores} core{}", if cores == 1 { "" } else { "s" })
}

fn arm_name(maker: &str, part: &str) -> Option<&'static str> {
    if maker != "0x41" {
        return None;
    }
    Some(match part {
        "0xd03" => "Arm Cortex-A53",
        "0xd04" => "Arm Cortex-A35",
        "0xd05" => "Arm Cortex-A55",
        "0xd07" => "Arm Cortex-A57",
        "0xd08" => "Arm Cortex-A72",
        "0xd09" => "Arm Cortex-A73",
        "0xd0a" => "Arm Cortex-A75",
        "0xd0b" => "Arm Cortex-A76",
        "0xd0c" => "Arm Neoverse-N1",
        "0xd40" => "Arm Neoverse-V1",
        "0xd49" => "Arm Neoverse-N2",
        "0xd4f" => "Arm Neoverse-V2",
        _ => return None,
    })
}

/// The load averages of one, five and fifteen minutes.
pub fn load() -> String {
    let text = fs::read_to_string("/proc/loadavg").unwrap_or_default();
    let three: Vec<&str> = text.split(' ').take(3).collect();
    three.join(" ")
}

/// The day in Greenwich, as 2000-12-31.
pub fn day() -> String {
    let mut left = SystemTime::now().duration_since(UNIX_EPOCH).map_or(0, |since| since.as_secs()) / 86_400;
    let leap = |year: u64| year % 4 == 0 && (year % 100 != 0 || year % 400 == 0);
    let mut year = 1970;
    while left >= 365 + u64::from(leap(year)) {
        left -= 365 + u64::from(leap(year));
        year += 1;
    }
    let months = [31, 28 + u64::from(leap(year)), 31, 30, 31, 30, 31, 31, 30, 31, 30, 31];
    let mut month = 0;
    while left >= months[month] {
        left -= months[month];
        month += 1;
    }
    format!("{year}-{:02}-{:02}", month + 1, left + 1)
}
