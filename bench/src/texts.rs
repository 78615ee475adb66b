//! The texts that are converted, and their forms.

/// A text in the forms that conversions read.
pub struct Text {
    pub kind: &'static str,
    pub utf8: Vec<u8>,
    pub utf16: Vec<u16>,
    /// Where every character is up to U+00FF.
    pub latin1: Option<Vec<u8>>,
}

const KINDS: [(&str, &str); 4] = [
    (
        "ASCII",
        "The quick brown fox jumps over the lazy dog, and then it goes home to sleep. ",
    ),
    (
        "Latin-1",
        "Le garçon a mangé à la crêperie où l'été s'achève; Käse, Öl und Brötchen. ",
    ),
    (
        "mixed",
        "Price: 25 € for naïve tests, 東京 and Москва, café ☕ 😀 at 10:30, then more plain text. ",
    ),
    (
        "CJK",
        "世界人権宣言は、すべての人民とすべての国とが達成すべき共通の基準として。",
    ),
];

/// Each kind of text in about so many bytes of UTF-8, and never more.
pub fn texts(bytes: usize) -> Vec<Text> {
    KINDS
        .iter()
        .map(|&(kind, sample)| text(kind, sample, bytes))
        .collect()
}

fn text(kind: &'static str, sample: &str, bytes: usize) -> Text {
    let mut whole = String::with_capacity(bytes);
    for c in sample.chars().cycle() {
        if whole.len() + c.len_utf8() > bytes {
            break;
        }
        whole.push(c);
    }
    let latin1 = whole
        .chars()
        .map(|c| u8::try_from(u32::from(c)).ok())
        .collect();
    Text {
        kind,
        utf16: whole.encode_utf16().collect(),
        latin1,
        utf8: whole.into_bytes(),
    }
}
