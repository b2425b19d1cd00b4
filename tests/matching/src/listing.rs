//! The program `lister`, run on an index, against the reference's text and known ones.

use std::io::Write;
use std::process::{Command, Stdio};

use crate::known::index_of;
use crate::lent::RULES;
use crate::limits::CARD_A;
use crate::parties::{every_kind, Party};
use reference::card::links_file;

/// What the program prints for the bytes on its standard input.
fn printed(index: &[u8]) -> std::io::Result<String> {
    let program = std::env::var_os("LISTER").unwrap_or("crates/lister/out/lister".into());
    let mut lister = Command::new(program)
        .stdin(Stdio::piped())
        .stdout(Stdio::piped())
        .spawn()?;
    let mut stdin = lister.stdin.take().expect("a pipe");
    stdin.write_all(index)?;
    drop(stdin);
    let output = lister.wait_with_output()?;
    Ok(String::from_utf8_lossy(&output.stdout).into_owned())
}

pub fn compare(index: &[u8]) -> Result<(), String> {
    prints(index, &reference::lister::text(RULES, index))
}

/// The groups of `every_kind` of parties: by their numbers, though larger ones have higher ones.
const EVERY_KIND: &str = "groups 13
0 5 8 10 5 19 20
1 4 - 6 4 0 4
2 4 - 9 5 0 24
3 4 - 12 6 0 36
4 3 - 3 3 0 2
5 3 - 7 5 0 7
6 3 - 5 4 0 11
7 3 - 8 5 0 15
8 3 - 12 6 0 19
9 3 - 11 7 0 28
10 3 - 3 3 0 34
11 2 - 1 2 0 1
12 2 - 1 2 0 14
";

/// A card by its name, its index, and whether the program prints the text that is known without the reference.
pub type Listed = (&'static str, Vec<u8>, Result<(), String>);

pub fn known() -> Vec<Listed> {
    let Party { accounts, links } = every_kind();
    let yesterday = [&[1], &index_of(&links_file(5, &CARD_A))[1..]].concat();
    let listed = |name, index: Vec<u8>, text: &str| (name, index.clone(), prints(&index, text));
    let all_of = |n, links: &[(u16, u16)]| index_of(&links_file(n, links));
    vec![
        listed("every-kind-listed", all_of(accounts, &links), EVERY_KIND),
        listed(
            "card-a-listed",
            all_of(5, &CARD_A),
            "groups 2\n0 3 - 5 4 0 1\n1 2 - 1 2 3 4\n",
        ),
        listed(
            "three-lone-listed",
            all_of(5, &[(4, 3), (1, 2), (0, 1)]),
            "groups 3\n0 2 - 1 2 0 1\n1 2 - 1 2 1 2\n2 2 - 1 2 3 4\n",
        ),
        listed("kind-1-listed", yesterday, "refused 7\n"),
    ]
}

/// Whether the program prints just this.
fn prints(index: &[u8], said: &str) -> Result<(), String> {
    let printed = printed(index).map_err(|error| format!("lister: {error}"))?;
    if printed == said {
        Ok(())
    } else {
        Err(format!("listed\n{printed}not\n{said}"))
    }
}
