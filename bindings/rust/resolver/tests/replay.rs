//! The worked scripts of the repository, played by the archive's machines: each line prints what
//! `resolver-replay` prints for it, of which the repository has the transcripts.

#[path = "common/script.rs"]
mod script;

use resolver::{Name, Width};
use script::Player;
use std::collections::HashMap;
use std::fs::read_to_string;

const TOP: &str = concat!(env!("CARGO_MANIFEST_DIR"), "/../../../");

const TRANSCRIPTS: &str = "crates/tests_scripts/src/replayed";

/// The files with transcripts.
const FILES: [&str; 5] = ["actors.rt", "peers.rt", "scans.rt", "limits.rt", "plans.rt"];

/// Cases that the archive can't play, each with the reason.
const LACKING: [(&str, &str); 1] = [(
    "a limit that never ends, and numbers of what isn't open",
    "a moment is below 2^94 in the archive's inputs, and this one has a limit until 2^128 - 1",
)];

/// What else stands beside the transcripts, and isn't played.
const APART: [(&str, &str); 2] = [
    ("unreadable.rt", "of how lines are read, which no machine is told"),
    ("unplanned", "of how lines are read"),
];

/// The texts that constants of a file are, by their names.
fn constants(code: &str) -> HashMap<&str, String> {
    let mut found = HashMap::new();
    let mut rest = code;
    while let Some((before, after)) = rest.split_once(": &str = \"") {
        let name = before.rsplit(' ').next().unwrap_or_default();
        let (text, after) = after.split_once("\";").expect("the end of a text");
        assert!(!text.contains('\\'), "{name} is spelled as it stands");
        found.insert(name, text.to_owned());
        rest = after;
    }
    found
}

/// The pairs of a beginning and the scripts behind it, as the file's tests name them.
fn played(code: &str) -> impl Iterator<Item = (&str, &str)> {
    let calls = code.lines().filter_map(|line| line.trim().strip_prefix("print_as_worked("));
    calls.map(|call| {
        let words = call.strip_suffix(");").expect("a call on one line");
        let (rest, scripts) = words.rsplit_once(", ").expect("scripts");
        let (_, before) = rest.rsplit_once(", ").expect("a beginning");
        (before, scripts)
    })
}

/// All cases, each with its beginning.
fn cases() -> Vec<String> {
    let read = |name: &str| {
        let path = format!("{TOP}{TRANSCRIPTS}/{name}");
        read_to_string(&path).unwrap_or_else(|error| panic!("{path}: {error}"))
    };
    let shared = read("worked.rt");
    let shared = constants(&shared);
    let mut cases = Vec::new();
    for file in FILES {
        let code = read(file);
        let own = constants(&code);
        let text = |name: &str| match name {
            "\"\"" => String::new(),
            name => own.get(name).or_else(|| shared.get(name)).expect(name).clone(),
        };
        for (before, scripts) in played(&code) {
            let before = text(before);
            let scripts = text(scripts);
            cases.extend(scripts.split("\n\n").map(|case| format!("{before}\n{case}")));
        }
    }
    cases
}

fn name_of(case: &str) -> &str {
    let first = case.lines().find_map(|line| line.strip_prefix("# "));
    first.expect("a case has a name")
}

/// Of a line that is wanted, what the archive tells: of a row the key and its subscribers.
fn told_of(line: &str) -> &str {
    if !line.starts_with("key ") {
        return line;
    }
    let cut = line.find(" targets ").or_else(|| line.find(" phase "));
    &line[..cut.unwrap_or(line.len())]
}

/// Plays a case, and answers how many lines it has.
fn play<const N: usize>(case: &str) -> usize
where
    Name<N>: Width,
{
    let mut player = Player::<N>::default();
    let mut lines = case.lines().enumerate().peekable();
    let mut count = 0;
    while let Some((number, line)) = lines.next() {
        if line.is_empty() || line.starts_with("# ") {
            continue;
        }
        let came = player.play(line);
        let mut wanted = Vec::new();
        while let Some((_, line)) = lines.next_if(|(_, line)| line.starts_with("> ")) {
            wanted.push(told_of(&line[2..]));
        }
        let (name, number) = (name_of(case), number + 1);
        assert_eq!(wanted, came, "case {name:?}, line {number}: {line}\nwanted, came");
        count += 1;
    }
    count
}

fn play_all<const N: usize>()
where
    Name<N>: Width,
{
    let (mut played, mut lines) = (0, 0);
    for case in cases() {
        match LACKING.iter().find(|(name, _)| *name == name_of(&case)) {
            Some((name, why)) => println!("not played: {name:?}: {why}"),
            None => {
                lines += play::<N>(&case);
                played += 1;
            }
        }
    }
    APART.iter().for_each(|(name, why)| println!("not played: {name}: {why}"));
    println!("{played} scripts of {lines} lines, with names of {N} bytes");
    assert!(played >= 96, "the transcripts are found: {played}");
}

#[test]
fn transcripts() {
    play_all::<32>();
}

#[test]
fn transcripts_with_names_of_eight_bytes() {
    play_all::<8>();
}

// The script of README.md, which `resolver-replay` is run with.
#[test]
fn the_script_of_the_program() {
    let read = |name| read_to_string(format!("{TOP}crates/resolver_replay/{name}")).unwrap();
    let mut player = Player::<32>::default();
    let came: Vec<String> = read("stdin").lines().flat_map(|line| player.play(line)).collect();
    assert_eq!(came, read("stdout").lines().collect::<Vec<_>>());
}

/// Plays lines, which print this.
fn assert_prints(player: &mut Player<32>, lines: &str, printed: &str) {
    let came: Vec<String> = lines.lines().flat_map(|line| player.play(line)).collect();
    assert_eq!(came, printed.lines().collect::<Vec<_>>(), "{lines}");
}

// A peer that asks ten thousand times has ten thousand open serves, and the last of them is answered.
#[test]
fn ten_thousand_requests() {
    let mut player = Player::default();
    assert_prints(&mut player, "p2p 9 50 10", "");
    for serve in 0..10_000 {
        let printed = format!("produce {serve} 123");
        assert_prints(&mut player, "net 3 x0000000000000007007b", &printed);
    }
    assert_prints(&mut player, "served 9999 dropped", "reply 3 x000000000000000702");
}

/// What asks for a key under its own number as the id, where so many peers are free: the lines behind those
/// that began the scan, and what they print with it.
fn asked(key: usize, peer: u8, free: u8) -> (String, String) {
    let (id, draw) = match key {
        0 => ("drawn 0\n", "draw 18446744073709551616\n"),
        _ => ("", ""),
    };
    let lines = format!("drawn 0\ndrawn 0\nchecked clear\n{id}sent accepted\n");
    let printed = format!("draw 4\ndraw {free}\ncheck {peer}\n{draw}request {peer} {key} {key}\n");
    (lines, printed)
}

/// Ten keys of the peers 3, 4 and 5, of which these are asked, and so many are free when each key is fetched.
fn ten_keys(limit: usize, peers: [u8; 10], free: [u8; 10]) {
    let mut player = Player::default();
    assert_prints(&mut player, &format!("p2p - 50 10 {limit}\npeers 1 3,4,5"), "");
    for key in 0..10 {
        let (lines, printed) = match free[key] {
            0 => (String::new(), String::new()),
            free => asked(key, peers[key], free),
        };
        assert_prints(&mut player, &format!("fetch {key} 10 7\n{lines}"), &printed);
    }
    for (key, peer) in peers.iter().enumerate() {
        let next = key + 3 * limit;
        let (lines, printed) =
            if next < 10 { asked(next, peers[next], 1) } else { (String::new(), String::new()) };
        let lines = format!("net {peer} x{key:016x}01026869\n{lines}");
        assert_prints(&mut player, &lines, &format!("deliver {key} {key} 10 x6869\n{printed}"));
    }
    for (key, peer) in peers.iter().enumerate() {
        let printed = format!("credit {key} {peer} 0 2");
        assert_prints(&mut player, &format!("verdict {key} complete"), &printed);
    }
    assert_prints(&mut player, "show", "wake none");
}

// A peer that answers is free at once, so it is the one that is asked for the next key.
#[test]
fn ten_keys_of_three_peers() {
    ten_keys(1, [3, 4, 5, 3, 4, 5, 3, 4, 5, 3], [3, 2, 1, 0, 0, 0, 0, 0, 0, 0]);
    ten_keys(2, [3, 3, 4, 4, 5, 5, 3, 3, 4, 4], [3, 3, 2, 2, 1, 1, 0, 0, 0, 0]);
    ten_keys(3, [3, 3, 3, 4, 4, 4, 5, 5, 5, 3], [3, 3, 3, 2, 2, 2, 1, 1, 1, 0]);
}
