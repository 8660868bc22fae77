//! The machine that the benchmark runs on, as the kernel describes it.

use std::fs::read_to_string;

/// Processor, caches, memory and kernel in one line; what cannot be read is left out.
pub fn machine() -> String {
    let read = |path: String| read_to_string(path).unwrap_or_default();
    let caches: Vec<[String; 3]> = (0..8)
        .map(|k| {
            ["level", "type", "size"].map(|name| read(format!("/sys/devices/system/cpu/cpu0/cache/index{k}/{name}")))
        })
        .take_while(|cache| !cache[0].is_empty())
        .collect();
    let [processors, memory, kernel] =
        ["cpuinfo", "meminfo", "sys/kernel/osrelease"].map(|name| read(format!("/proc/{name}")));
    described(&processors, &caches, &memory, kernel.trim())
}

/// The value of the first line of that name, in a text of lines such as `name : value`.
fn field<'a>(text: &'a str, name: &str) -> Option<&'a str> {
    text.lines().find_map(|line| {
        let (before, value) = line.split_once(':')?;
        (before.trim() == name).then_some(value.trim())
    })
}

/// A size that the kernel gives in units of 1,024 bytes.
fn size(kib: &str) -> String {
    match kib.trim_end_matches([' ', 'k', 'B', 'K']).parse::<u64>() {
        Ok(kib) if kib >= 1 << 20 => format!("{:.1} GiB", kib as f64 / (1 << 20) as f64),
        Ok(kib) if kib >= 1 << 10 => format!("{} MiB", kib >> 10),
        Ok(kib) => format!("{kib} KiB"),
        Err(_) => kib.to_string(),
    }
}

fn described(processors: &str, caches: &[[String; 3]], memory: &str, kernel: &str) -> String {
    let count = processors.lines().filter(|line| line.starts_with("processor")).count();
    let virtual_machine = field(processors, "flags").is_some_and(|flags| flags.split(' ').any(|f| f == "hypervisor"));
    let mut parts = vec![format!(
        "{}, {count} processor{}{}",
        field(processors, "model name").unwrap_or("a processor without a name"),
        if count == 1 { "" } else { "s" },
        if virtual_machine { " of a virtual machine" } else { "" }
    )];
    let caches: Vec<String> = caches
        .iter()
        .map(|[level, kind, bytes]| {
            let kind = kind.trim().to_lowercase().replace("unified", "");
            format!("L{} {kind} {}", level.trim(), size(bytes.trim())).replace("  ", " ")
        })
        .collect();
    if !caches.is_empty() {
        parts.push(format!("caches {}", caches.join(", ")));
    }
    if let Some(memory) = field(memory, "MemTotal") {
        parts.push(format!("memory {}", size(memory)));
    }
    if !kernel.is_empty() {
        parts.push(format!("Linux {kernel}"));
    }
    parts.join("; ")
}

#[cfg(test)]
mod tests {
    use super::described;

    #[test]
    fn described_by_what_can_be_read() {
        let processors = "processor\t: 0\nmodel name\t: Some Processor\nflags\t\t: fpu hypervisor\n\nprocessor\t: 1\n";
        let caches = [["1\n", "Data\n", "32K\n"], ["2\n", "Unified\n", "1024K\n"]].map(|cache| cache.map(String::from));
        assert_eq!(
            described(processors, &caches, "MemTotal:       3145728 kB\n", "6.1"),
            "Some Processor, 2 processors of a virtual machine; caches L1 data 32 KiB, L2 1 MiB; memory 3.0 GiB; Linux 6.1"
        );
        assert_eq!(described("processor: 0\n", &[], "", ""), "a processor without a name, 1 processor");
    }
}
