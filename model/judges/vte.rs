//! Prints what the crate `vte` hands out: for each line of hexadecimal bytes a line.

use std::io::{self, BufRead, Write};
use vte::{Params, Parser, Perform};

#[derive(Default)]
struct Log {
    all: Vec<String>,
    device: Option<(String, bool)>,
}

fn hex(bytes: &[u8]) -> String {
    bytes.iter().map(|byte| format!("{byte:02x}")).collect()
}

fn numbers(params: &Params) -> String {
    let all: Vec<String> = params.iter().flatten().map(u16::to_string).collect();
    all.join(";")
}

impl Perform for Log {
    fn execute(&mut self, byte: u8) {
        if byte < 0x80 {
            self.all.push(format!("C/{byte:02x}"));
        }
    }

    fn hook(&mut self, params: &Params, intermediates: &[u8], ignore: bool, action: char) {
        let front = format!("D/{}/{}/{}/{:02x}", hex(intermediates), u8::from(ignore), numbers(params), action as u32);
        self.device = Some((front, false));
    }

    fn put(&mut self, byte: u8) {
        if let Some((_, asks)) = &mut self.device {
            *asks |= byte == b'?';
        }
    }

    fn unhook(&mut self) {
        if let Some((front, asks)) = self.device.take() {
            self.all.push(format!("{front}/{}", u8::from(asks)));
        }
    }

    fn osc_dispatch(&mut self, params: &[&[u8]], _bell_terminated: bool) {
        self.all.push(format!("O/{}", hex(&params.join(&b';'))));
    }

    fn csi_dispatch(&mut self, params: &Params, intermediates: &[u8], ignore: bool, action: char) {
        self.all.push(format!("S/{}/{}/{}/{:02x}", hex(intermediates), u8::from(ignore), numbers(params), action as u32));
    }

    fn esc_dispatch(&mut self, intermediates: &[u8], ignore: bool, byte: u8) {
        self.all.push(format!("E/{}/{}/{byte:02x}", hex(intermediates), u8::from(ignore)));
    }
}

fn main() -> io::Result<()> {
    let mut out = io::BufWriter::new(io::stdout());
    for line in io::stdin().lock().lines() {
        let line = line?;
        let (mut parser, mut log) = (Parser::new(), Log::default());
        for pair in line.as_bytes().chunks(2) {
            parser.advance(&mut log, u8::from_str_radix(std::str::from_utf8(pair).unwrap(), 16).unwrap());
        }
        writeln!(out, "{}", log.all.join(" "))?;
    }
    Ok(())
}
