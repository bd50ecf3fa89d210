//! Prints values and deviations of the certificates of a PEM file: `cargo run --example inspect --
//! cert.pem`.

use std::error::Error;
use std::process::ExitCode;

use cimaroly::Kind;

fn inspect(text: &[u8]) -> Result<(), Box<dyn Error>> {
    let is_certificate = |it: &cimaroly::PemBlock<'_>| it.kind() == Some(Kind::Certificate);
    for block in cimaroly::pem_blocks(text).filter(is_certificate) {
        println!("line           {}", block.first_line());
        show(&block.to_vec()?)?;
    }
    Ok(())
}

fn show(der: &[u8]) -> Result<(), cimaroly::Error> {
    let certificate = cimaroly::certificate(der)?;
    println!("serial number  {:02x?}", certificate.serial_number());
    for attribute in certificate.subject().attributes() {
        println!("subject        {} {:?}", attribute.oid, attribute.text().unwrap_or("..."));
    }
    println!("valid          {} to {}", certificate.not_before(), certificate.not_after());
    for name in certificate.alternative_names() {
        println!("name           {name:?}");
    }
    for extension in cimaroly::extensions(Kind::Certificate, der)? {
        let critical = if extension.is_critical() { ", critical" } else { "" };
        println!("extension      {}{critical}", extension.oid());
    }
    for place in cimaroly::places(Kind::Certificate, der)? {
        let name = place.deviation().map_or("", cimaroly::Deviation::name);
        println!("deviation      {name}, at {}..{}", place.start, place.end);
    }
    Ok(())
}

fn main() -> ExitCode {
    let Some(path) = std::env::args_os().nth(1) else {
        eprintln!("usage: inspect FILE");
        return ExitCode::from(2);
    };
    let text = match std::fs::read(&path) {
        Ok(text) => text,
        Err(error) => {
            eprintln!("{}: {error}", path.to_string_lossy().escape_debug());
            return ExitCode::from(2);
        }
    };
    match inspect(&text) {
        Ok(()) => ExitCode::SUCCESS,
        Err(error) => {
            eprintln!("{error}");
            ExitCode::FAILURE
        }
    }
}
