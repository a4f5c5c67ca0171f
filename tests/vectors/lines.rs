//! Questions about lines: areas, fields, and the field `fletcher`.

use super::{both, bytes_word};
use crate::model::fletcher::{fletcher, Edition};

const FOOTER: &str = "chunk:1,block:2,version:1";
/// The documents' file header line: example (b).
const DOCUMENT_HEADER: &str =
    "H:2,block:2,blockSize:1000,chunk:7,created:1441235ef73,format:1,version:7,fletcher:3044e6cc";
const CHUNK_HEADER: &str =
    "chunk:1,block:2,len:1,map:6,max:1c0,next:3,pages:2,root:4000004f8c,time:1fc,version:1";

pub fn questions() -> Vec<String> {
    [areas(), fields(), rights()].concat()
}

/// Where a line ends: no newline, trailing spaces, several newlines, an area full of spaces.
fn areas() -> Vec<String> {
    let texts = [
        "",
        "\n",
        " \n",
        "  \n",
        "a",
        "a\n",
        "a \n",
        " a\n",
        "a b\n",
        "a\n\n",
        "a \nb \n",
        "a\t\n",
        "a\r\n",
        "   ",
        "a   ",
        "a,  \n",
        "\n\n",
        "a\0 \n",
        "block:2\n\0\0\0",
        "block:2   \n\0\0\0block:3\n",
    ];
    let mut out: Vec<String> = texts.iter().map(|t| question("line", t.as_bytes())).collect();
    // The newline as the last byte of a footer's and of a chunk header's area, one past it, and
    // without it.
    for length in [127, 128, 1023, 1024] {
        let spaced = [vec![b'x'; 3], vec![b' '; length - 3], vec![b'\n']].concat();
        out.push(question("line", &spaced));
        if length != 1023 {
            out.push(question("line", &spaced[..length]));
        }
    }
    out
}

fn fields() -> Vec<String> {
    let mut out: Vec<String> =
        good_texts().into_iter().chain(bad_texts()).map(|t| question("fields", &t)).collect();
    out.extend([FOOTER, DOCUMENT_HEADER, CHUNK_HEADER].map(|t| question("fields", t.as_bytes())));
    out
}

#[rustfmt::skip]
const GOOD_TEXTS: [&str; 14] = [
    "H:2", "block:0", "block:2,chunk:1", "chunk:1,block:2", "Block:2,block:3",
    "blocksize:1,blockSize:1000", "abcdefghijklmnop:1", "ABCDEFGHIJKLMNOP:f,len:1",
    "root:ffffffffffffffff", "version:123456789abcdef", "fletcher:1,version:2",
    "x:1,y:2,z:0", "blocks:1,bloc:2,b:3", "H:2,blockSize:1000,format:1",
];

fn good_texts() -> Vec<Vec<u8>> {
    GOOD_TEXTS.map(|t| t.as_bytes().to_vec()).into()
}

/// One rule of a line broken in each.
#[rustfmt::skip]
const BAD_TEXTS: [&str; 48] = [
    "", ",", "block:02", "block:00", "block:", "block", ":2", ":", "block:2,", ",block:2",
    "block:2,,chunk:1", "block:2,chunk", "block:2,chunk:", "block:2,:1", "block:2,block:2",
    "block:2,block:3", "x:1,x:1", "x:1,block:2,x:2", "abcdefghijklmnopq:1",
    "root:fffffffffffffffff", "root:10000000000000000", "root:0000000000000001", "block:A",
    "block:g", "block:2 ", " block:2", "block: 2", "block :2", "block:2, chunk:1",
    "block:2 ,chunk:1", "block:-2", "block:0x2", "block:2:3", "block::2", "block:\"2\"",
    "bl0ck:2", "bl_ck:2", "bl.ck:2", "@:1", "[:1", "`:1", "{:1", "block:2\n", "block:2\0",
    "block:2;chunk:1", "block:/", "block:`", "block:G",
];

fn bad_texts() -> Vec<Vec<u8>> {
    let mut out: Vec<Vec<u8>> = BAD_TEXTS.map(|t| t.as_bytes().to_vec()).into();
    out.push(b"bl\xc3\xb6ck:2".to_vec());
    out.push(vec![0xff]);
    out
}

/// The field `fletcher`: right in an edition, wrong, in the wrong place, badly written, over odd and
/// even texts.
fn rights() -> Vec<String> {
    let mut texts = vec![
        format!("{FOOTER},fletcher:aed9a4f6"),
        format!("{FOOTER},fletcher:aed9a4f7"),
        format!("{FOOTER},fletcher:0aed9a4f6"),
        format!("{FOOTER},fletcher:AED9A4F6"),
        format!("{FOOTER},fletcher:1aed9a4f6"),
        format!("{FOOTER},fletcher:aed9a4f6,"),
        format!("{FOOTER},fletcher:aed9a4f6 "),
        format!("{FOOTER},fletcher:aed9a4f6,x:1"),
        format!("{FOOTER},fletcher:84d0d5f6"),
        format!("{FOOTER},Fletcher:aed9a4f6"),
        format!("{FOOTER},fletche:aed9a4f6"),
        format!("{FOOTER},fletcher:"),
        format!("{FOOTER},fletcher"),
        format!("{FOOTER}, fletcher:aed9a4f6"),
        format!("{FOOTER}a,fletcher:8531d657"),
        FOOTER.to_string(),
        DOCUMENT_HEADER.to_string(),
        DOCUMENT_HEADER.replace("3044e6cc", "1a2bd87b"),
        DOCUMENT_HEADER.replace("3044e6cc", "29a70f7c"),
        String::new(),
        "fletcher:ffffffff".to_string(),
        ",fletcher:ffffffff".to_string(),
        ",".to_string(),
    ];
    for text in ["x", "xy", "x,", "no line at all", "a:1,,b:2", "a:1,a:1", "fletcher:1"] {
        let mut sums =
            [Edition::First, Edition::Second].map(|e| fletcher(e, text.as_bytes())).to_vec();
        sums.dedup();
        texts.extend(sums.iter().map(|sum| format!("{text},fletcher:{sum:x}")));
    }
    texts.iter().flat_map(|text| both("right", &bytes_word(text.as_bytes()))).collect()
}

fn question(word: &str, bytes: &[u8]) -> String {
    format!("{word} {}", bytes_word(bytes))
}
