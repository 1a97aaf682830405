//! The samples: texts with what `modes` prints, and encoded programs with their tables.

use crate::reference::{analyse, modes, Reply};
use std::fs;
use std::path::Path;

/// Holds the reference against a folder of samples, the texts in it or in its `texts/`, and `words.txt` if it is there; how many differ.
pub fn check(folder: &Path) -> usize {
    let below = folder.join("texts");
    let texts = check_texts(if below.is_dir() { &below } else { folder });
    println!("texts: {} agree, {} differ", texts.0, texts.1);
    let Ok(cases) = fs::read_to_string(folder.join("words.txt")) else {
        println!("words: no words.txt");
        return texts.1;
    };
    let words = check_words(&cases);
    println!("words: {} agree, {} differ", words.0, words.1);
    texts.1 + words.1
}

fn check_texts(folder: &Path) -> (usize, usize) {
    let entries = fs::read_dir(folder).expect("the folder of the texts");
    let mut inputs: Vec<_> = entries.map(|e| e.expect("an entry").path()).collect();
    inputs.retain(|path| path.extension().is_some_and(|e| e == "in"));
    inputs.sort();
    assert!(!inputs.is_empty(), "no NAME.in in {}", folder.display());
    let (mut agree, mut differ) = (0, 0);
    for path in inputs {
        let printed = modes(&fs::read(&path).expect("a text"));
        let expected = fs::read(path.with_extension("out")).expect("its output");
        if printed == expected {
            agree += 1;
        } else {
            differ += 1;
            println!("{}\nreference:\n{}", path.display(), String::from_utf8_lossy(&printed));
            println!("sample:\n{}", String::from_utf8_lossy(&expected));
        }
    }
    (agree, differ)
}

fn check_words(cases: &str) -> (usize, usize) {
    let (mut agree, mut differ) = (0, 0);
    for (i, case) in cases.split("\n\n").filter(|case| !case.trim().is_empty()).enumerate() {
        let lines: Vec<Vec<usize>> = case.trim().lines().map(numbers).collect();
        let [words, room, reply, rows] = &lines[..] else { panic!("four lines in case {i}") };
        let words: Vec<u16> = words.iter().map(|w| *w as u16).collect();
        let mut expected: Vec<u16> = rows.iter().map(|w| *w as u16).collect();
        expected.resize(room[0], 0);
        let mut table = vec![0xa5a5; room[0]];
        let given = analyse(&words, &mut table);
        let expected_reply = Reply { number: reply[0] as u16, place: reply[1], count: reply[2] };
        if given == expected_reply && table == expected {
            agree += 1;
        } else {
            differ += 1;
            println!("case {i}: reference {given:?}, sample {expected_reply:?}\n{case}");
        }
    }
    (agree, differ)
}

/// The numbers of a line after its first word.
fn numbers(line: &str) -> Vec<usize> {
    line.split_whitespace().skip(1).map(|n| n.parse().expect("a number")).collect()
}
