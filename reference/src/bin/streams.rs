//! `streams`: prints the starts of the 512 streams, one number to a line.

fn main() {
    print!("{}", reference::streams::starts_text());
}
