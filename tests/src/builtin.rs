//! The built-in font's 764 numbers, made from the drawn shapes.

const SHAPES: &str = include_str!("../data/font-5x7.txt");

/// The shapes as drawn: for each character its number and seven rows of five cells.
pub fn shapes() -> Vec<(u8, Vec<Vec<bool>>)> {
    let mut all = Vec::new();
    let mut lines = SHAPES.lines();
    while let Some(line) = lines.next() {
        if !line.starts_with(|c: char| c.is_ascii_digit()) {
            continue;
        }
        let number: u8 = line.split(' ').next().unwrap().parse().expect("a character's number");
        let mut rows = Vec::new();
        for _ in 0..7 {
            let row = lines.next().expect("seven rows under each heading");
            assert!(row.len() == 5 && row.chars().all(|c| c == '.' || c == '#'), "row {row:?} of {number}");
            rows.push(row.chars().map(|c| c == '#').collect());
        }
        all.push((number, rows));
    }
    all
}

/// Header, then 95 table entries, then 95 glyphs of five bytes.
pub fn built_in_font() -> Vec<u8> {
    let mut table = vec![5, 7, 32, 126];
    let mut glyphs = Vec::new();
    for (k, (_, rows)) in shapes().iter().enumerate() {
        let offset = 289 + 5 * k;
        table.extend([(offset / 256) as u8, (offset % 256) as u8, 5]);
        let mut bits: Vec<bool> = rows.concat();
        bits.resize(40, false);
        for eight in bits.chunks(8) {
            glyphs.push(eight.iter().fold(0u8, |byte, &bit| byte * 2 + bit as u8));
        }
    }
    table.extend(glyphs);
    table
}
