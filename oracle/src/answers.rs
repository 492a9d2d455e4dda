// The answer that the port must give to a line of a script: what the Rust gives, with document 01's differences.

use crate::config::{parse_config, Config, DirectionConfig, Ge, KillStyle};
use crate::{differences, refusals, script};

const MOST_BYTES: usize = 16_384;

pub fn answer(line: &[u8]) -> String {
    match script::text_of(line) {
        None => "bad line".to_string(),
        Some(text) => match settings_of(&text) {
            Ok(settings) => taken(&settings),
            Err(number) => format!("refused {number}"),
        },
    }
}

// The settings of a text, or the number of its refusal.
pub fn settings_of(text: &[u8]) -> Result<Config, u32> {
    if text.len() > MOST_BYTES {
        return Err(1);
    }
    if text.last().is_some_and(|last| *last != 0) {
        return Err(2);
    }
    if !text.is_ascii() {
        return Err(3);
    }
    let text = std::str::from_utf8(text).unwrap();
    let arguments: Vec<String> = text.split_terminator('\0').map(str::to_string).collect();
    parse_config(&differences::applied(&arguments)).map_err(|sentence| refusals::number(&sentence))
}

// The answer to a text that is taken.
pub fn taken(c: &Config) -> String {
    format!(
        "taken mode={} seed={} duration={} verbose={} cap={} [{}] [{}]",
        c.mode.as_str(),
        c.seed,
        c.duration_ms,
        c.verbose as u8,
        c.queue_cap,
        direction(&c.c2s),
        direction(&c.s2c),
    )
}

fn direction(d: &DirectionConfig) -> String {
    let mut line = format!(
        "loss={} ge={} delay={} jitter={} reorder={} rdelay={} dup={} rate={} burst={} mtu={} nat={}",
        bits(d.loss),
        burst_loss(d.ge),
        bits(d.delay_ms),
        bits(d.jitter_ms),
        bits(d.reorder_p),
        bits(d.reorder_delay_ms),
        bits(d.duplicate_p),
        or_none(d.rate_bps),
        d.rate_burst_bytes,
        or_none(d.mtu.map(|mtu| mtu as u64)),
        d.nat_change_every_ms,
    );
    for window in &d.blackouts {
        line += &format!(" b{}:{}", window.start_ms, window.end_ms);
    }
    for kill in &d.tcp_kills {
        let style = match kill.style {
            KillStyle::Rst => "rst",
            KillStyle::Hold => "hold",
        };
        line += &format!(" k{}:{}:{style}", kill.window.start_ms, kill.window.end_ms);
    }
    line
}

fn bits(x: f64) -> String {
    format!("{:016x}", x.to_bits())
}

fn burst_loss(ge: Option<Ge>) -> String {
    ge.map_or("none".to_string(), |ge| [ge.p, ge.r, ge.h].map(bits).join(":"))
}

fn or_none(number: Option<u64>) -> String {
    number.map_or("none".to_string(), |number| number.to_string())
}
