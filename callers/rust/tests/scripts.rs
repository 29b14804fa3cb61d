//! Scripts of the table, with answers that are worked out elsewhere.

use bits::{run_script, run_script_into, TableError, TableOrder, TableStorage, WordBits};
use std::fs;
use std::path::PathBuf;

fn storages() -> impl Iterator<Item = TableStorage> {
    [
        WordBits::U8,
        WordBits::U16,
        WordBits::U32,
        WordBits::U64,
        WordBits::U128,
    ]
    .into_iter()
    .flat_map(|word_bits| {
        [TableOrder::Lsb0, TableOrder::Msb0, TableOrder::HiLo]
            .map(|order| TableStorage { word_bits, order })
    })
}

#[test]
fn the_examples_have_their_answers_over_each_storage() {
    let folder = PathBuf::from(env!("CARGO_MANIFEST_DIR")).join("../../examples");
    let mut seen = 0;
    for entry in fs::read_dir(folder).unwrap() {
        let path = entry.unwrap().path();
        if path.extension().is_some_and(|it| it == "script") {
            let answer = fs::read(path.with_extension("answer")).unwrap();
            for storage in storages() {
                assert_eq!(
                    run_script(fs::read(&path).unwrap(), storage).as_ref(),
                    Ok(&answer),
                    "{path:?} {storage:?}"
                );
            }
            seen += 1;
        }
    }
    assert!(seen >= 10);
}

#[test]
fn an_answer_longer_than_its_room_is_told() {
    let (script, answer) = (b"low a:u3 b:u5\ninsert 0 5 17\nimage\n", b"ok\nok\n1 8d\n");
    for room in 0..answer.len() + 3 {
        let mut written = [b'?'; 16];
        let result = run_script_into(script, TableStorage::default(), &mut written[..room]);
        let count = room.min(answer.len());
        assert_eq!(
            result,
            if room < answer.len() {
                Err(TableError::NoRoom)
            } else {
                Ok(count)
            }
        );
        assert_eq!(written[..count], answer[..count]);
        assert!(written[count..].iter().all(|&byte| byte == b'?'));
    }
}

#[test]
fn an_answer_longer_than_the_first_room_is_whole() {
    // Each line `get 0` is answered by 20 digits and a sign, several times its own length.
    let mut script = String::from(
        "low a:u64 b:u64 c:u64\ninsert 0 18446744073709551615 18446744073709551615 1\n",
    );
    script.push_str(&"get 0\n".repeat(2000));
    let wanted = format!(
        "ok\nok\n{}",
        "18446744073709551615 18446744073709551615 1\n".repeat(2000)
    );
    let answer = run_script(script, TableStorage::default());
    assert!(answer == Ok(wanted.into_bytes()));
}
