//! Document 01's example with every value, and every name, in every place.
use crate::written::lines;

/// The text of document 01 and what it prints, as they stand there.
pub const TEXT: &str = "components=1\nid=1\nkind=9\ndelay=none\nlocked=0\nx=0\ny=0\nz=0\nconnections=1\nsource=1\nsink=1\ntransfer=1\n";
pub const REPORT: &str = "scope=steady_state_safe\nreasons=0\nretained=1\ncompressed=0\nprojected=1\nsource=1\nsink=1\ninverted=1\nminimum=1\nmaximum=1\npath=1,1\npattern=delayed_path\ncomponent=1\nlabel=unsettled\n";

/// At and beside the limits of every width, sums that wrap at one, and what is no number.
const VALUES: [&str; 104] = [
    "0",
    "1",
    "2",
    "3",
    "5",
    "6",
    "7",
    "8",
    "9",
    "10",
    "11",
    "12",
    "13",
    "19",
    "99",
    "100",
    "127",
    "128",
    "199",
    "200",
    "249",
    "250",
    "254",
    "255",
    "256",
    "257",
    "260",
    "265",
    "300",
    "511",
    "512",
    "513",
    "999",
    "1000",
    "2047",
    "2048",
    "2049",
    "65535",
    "65536",
    "65545",
    "2147483646",
    "2147483647",
    "2147483648",
    "2147483649",
    "4294967295",
    "4294967296",
    "4294967297",
    "9223372036854775807",
    "9223372036854775808",
    "9999999999999999999",
    "10000000000000000000",
    "18446744073709551609",
    "18446744073709551610",
    "18446744073709551614",
    "18446744073709551615",
    "18446744073709551616",
    "18446744073709551617",
    "18446744073709551619",
    "18446744073709551620",
    "18446744073709551625",
    "20000000000000000000",
    "28446744073709551615",
    "99999999999999999999",
    "100000000000000000000",
    "184467440737095516160",
    "340282366920938463463374607431768211456",
    "340282366920938463463374607431768211457",
    "-1",
    "-2",
    "-9",
    "-10",
    "-255",
    "-2147483647",
    "-2147483648",
    "-2147483649",
    "-4294967295",
    "-4294967296",
    "-18446744073709551615",
    "-0",
    "-00",
    "-01",
    "--1",
    "-",
    "+",
    "+0",
    "+1",
    "00",
    "01",
    "000",
    "0x1",
    "1e1",
    "1.0",
    "1,1",
    "1-",
    "1 ",
    " 1",
    "none",
    "None",
    "non",
    "nonee",
    "none ",
    "nan",
    "",
    "\u{ff11}",
];

const NAMES: [&str; 22] = [
    "components=",
    "id=",
    "kind=",
    "delay=",
    "locked=",
    "x=",
    "y=",
    "z=",
    "connections=",
    "source=",
    "sink=",
    "transfer=",
    "",
    "=",
    "id",
    "id =",
    " id=",
    "id==",
    "ID=",
    "component=",
    "connection=",
    "xy=",
];

/// Each value on each line.
pub fn values() -> impl Iterator<Item = Vec<u8>> {
    changed(&VALUES, |name, _, value| format!("{name}{value}\n"))
}

/// Each name on each line.
pub fn names() -> impl Iterator<Item = Vec<u8>> {
    changed(&NAMES, |_, value, name| format!("{name}{value}\n"))
}

fn changed(
    words: &'static [&'static str],
    line: fn(&str, &str, &str) -> String,
) -> impl Iterator<Item = Vec<u8>> {
    let lines = lines(TEXT.as_bytes());
    (0..lines.len()).flat_map(move |at| {
        let lines = lines.clone();
        words.iter().map(move |word| {
            let old = str::from_utf8(lines[at]).expect("plain letters").trim_end();
            let (name, value) = old.split_at(old.find('=').expect("a field") + 1);
            let new = line(name, value, word);
            [
                &lines[..at].concat(),
                new.as_bytes(),
                &lines[at + 1..].concat(),
            ]
            .concat()
        })
    })
}

/// Each start of the text, the empty one too, as it is and with a line feed behind it.
pub fn starts() -> impl Iterator<Item = Vec<u8>> {
    let text = TEXT.as_bytes();
    (0..text.len()).flat_map(|end| [text[..end].to_vec(), [&text[..end], b"\n"].concat()])
}

/// Each byte left out, doubled, and in the place of each a few others.
pub fn bytes() -> impl Iterator<Item = Vec<u8>> {
    let text = TEXT.as_bytes();
    (0..text.len()).flat_map(|at| {
        let (before, byte, behind) = (&text[..at], text[at], &text[at + 1..]);
        let news: [&[u8]; 10] = [
            b"",
            &[byte, byte],
            b"\0",
            b"\n",
            b"\r",
            b" ",
            b"0",
            b"-",
            b"\xff",
            &[byte ^ 0x80],
        ];
        news.map(|new| [before, new, behind].concat())
    })
}
