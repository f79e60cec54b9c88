//! Answers `step` requests as `mpdbg run` does, with a number in the place of a debugger: what lines, JSON and writes take alone.
use serde_json::{json, Value};
use std::fs::File;
use std::io::{stdin, BufRead, BufReader, Result, Write};
use std::os::fd::FromRawFd;

fn main() -> Result<()> {
    let mut input = BufReader::with_capacity(4096, stdin());
    let mut output = unsafe { File::from_raw_fd(1) };
    let mut line = Vec::new();
    let mut depth = 0_u64;
    while input.read_until(b'\n', &mut line)? > 0 {
        let reply = match serde_json::from_slice::<Value>(&line) {
            Ok(request) if request["cmd"] == "step" && request["step"] == "local 0" => {
                depth += 1;
                json!({"depth": depth, "ok": true, "version": depth})
            }
            _ => json!({"error": "bad-field", "ok": false}),
        };
        let mut text = reply.to_string();
        text.push('\n');
        output.write_all(text.as_bytes())?;
        line.clear();
    }
    Ok(())
}
