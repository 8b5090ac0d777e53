//! Texts to read: each kind fills a size, and ends at the end of a scalar.
use crate::random::Random;

/// Words of several scripts, with the marks that end their sentences.
const SCRIPTS: [(&str, &str); 8] = [
    ("the proof of a sum is short and its reader need not be patient", ". "),
    ("größer über fünf Häuser weiß niemand schöne Wörter für später", ". "),
    ("число строка байты слово проверка длина порядок ответ граница", ". "),
    ("αριθμός λέξη απόδειξη τάξη μήκος κείμενο όριο σειρά", ". "),
    ("מספר מילה הוכחה סדר אורך טקסט גבול תשובה", ". "),
    ("संख्या शब्द प्रमाण क्रम लंबाई पाठ सीमा उत्तर", "। "),
    ("数字 文字 証明 順序 長さ 境界 答え 言葉", "。"),
    ("🌍 🌱 🌿 🍂 🌲 🍀 🌾 🌵", " "),
];

pub type Kind = (&'static str, fn(&mut Random) -> String);

/// A piece of a text for each call.
pub const KINDS: [Kind; 7] = [
    ("ASCII", |random| sentence(random, SCRIPTS[0])),
    ("words of eight scripts", |random| {
        let script = SCRIPTS[random.below(SCRIPTS.len())];
        (0..1 + random.below(4)).map(|_| sentence(random, script)).collect()
    }),
    ("ASCII with an accent in 60", |random| (0..60).map(|at| if at == 37 { 'é' } else { (b'a' + random.below(26) as u8) as char }).collect()),
    ("two bytes each", |random| scalars(random, 0x410, 0x450)),
    ("three bytes each", |random| scalars(random, 0x4e00, 0x9fa0)),
    ("four bytes each", |random| scalars(random, 0x1_2000, 0x1_2360)),
    ("any length at random", |random| {
        let (from, to) = [(0x20, 0x7f), (0x80, 0x800), (0x800, 0xd800), (0x1_0000, 0x11_0000)][random.below(4)];
        scalar(random, from, to).to_string()
    }),
];

fn sentence(random: &mut Random, (words, end): (&str, &str)) -> String {
    let words: Vec<&str> = words.split(' ').collect();
    let chosen: Vec<&str> = (0..3 + random.below(10)).map(|_| words[random.below(words.len())]).collect();
    chosen.join(if end == "。" { "" } else { " " }) + end
}

fn scalar(random: &mut Random, from: u32, to: u32) -> char {
    char::from_u32(from + random.below((to - from) as usize) as u32).unwrap()
}

fn scalars(random: &mut Random, from: u32, to: u32) -> String {
    (0..32).map(|_| scalar(random, from, to)).collect()
}

/// A text of at most so many bytes: a MiB of pieces, again and again.
pub fn text(kind: Kind, size: usize) -> Vec<u8> {
    let mut random = Random::new();
    let mut pieces = String::new();
    while pieces.len() < size.min(1 << 20) {
        pieces += &(kind.1)(&mut random);
    }
    let mut all = pieces.repeat(size / pieces.len() + 1);
    let mut end = size;
    while !all.is_char_boundary(end) {
        end -= 1;
    }
    all.truncate(end);
    all.into_bytes()
}

/// Many texts of 1 to 32 bytes.
pub fn short_texts(kind: Kind) -> Vec<Vec<u8>> {
    let mut random = Random::new();
    let pool = String::from_utf8(text(kind, 1 << 20)).unwrap();
    let mut found = Vec::new();
    while found.len() < 4096 {
        let (from, size) = (random.below(pool.len() - 40), 1 + random.below(32));
        if let Some(short) = pool.get(from..from + size) {
            found.push(short.as_bytes().to_vec());
        }
    }
    found
}
