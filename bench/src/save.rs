//! A save of a size by a seed, with what saves of the games are made of: nested objects, quoted names
//! with and without escapes, dates, whole and decimal numbers, headers, lists, mixed containers,
//! operators, parameters and comments.

use compare::rng::Rng;

const WORDS: &[&str] = &[
    "name",
    "owner",
    "controller",
    "culture",
    "religion",
    "history",
    "base_tax",
    "manpower",
    "add_core",
    "discovered_by",
    "advisor",
    "type",
    "skill",
    "location",
    "monarch",
    "id",
    "DIP",
    "ADM",
    "MIL",
    "dynasty",
    "heir",
    "province",
    "army",
    "unit",
    "morale",
    "strength",
    "home",
    "movement_progress",
    "last_conquest_date",
    "is_city",
    "trade_goods",
    "flags",
    "modifier",
    "cached_value",
    "relations",
    "attitude",
    "opinion",
    "variables",
    "faction",
    "leader",
];

const NAMES: &[&str] = &[
    "Stockholm",
    "Kungälv",
    "Gustav Eriksson Vasa",
    "Armée du Nord",
    "von Habsburg",
    "SWE",
    "FRA",
    "1st Regiment",
    "",
    "The Treaty of Kalmar",
    "Provence",
    "infantry_brigade",
];

const ATOMS: &[&str] = &[
    "yes",
    "no",
    "SWE",
    "FRA",
    "catholic",
    "swedish",
    "western",
    "land",
    "rebel_faction",
    "none",
    "grain",
    "naval_supplies",
    "@cost",
    "@[1+cost]",
    "---",
    "capital_scope",
];

pub struct Save {
    text: Vec<u8>,
    rng: Rng,
    parameters: bool,
}

impl Save {
    fn put(&mut self, piece: &str) {
        self.text.extend_from_slice(piece.as_bytes());
    }

    fn line(&mut self, depth: usize) {
        self.put("\n");
        self.text.extend(std::iter::repeat_n(b'\t', depth));
    }

    fn word(&mut self) {
        let word = *self.rng.pick(WORDS);
        self.put(word);
    }

    fn date(&mut self) {
        let (y, m, d) =
            (self.rng.between(1, 1835), self.rng.between(1, 12), self.rng.between(1, 28));
        self.put(&format!("{y}.{m}.{d}"));
    }

    fn number(&mut self) {
        let sign = if self.rng.chance(10) { "-" } else { "" };
        let digits = 10usize.pow(self.rng.between(1, 6) as u32);
        let whole = self.rng.below(digits);
        match self.rng.below(20) {
            0 => self.put("18446744073709551615"),
            1..9 => self.put(&format!("{sign}{whole}")),
            9 => self.put(&format!("{sign}{whole}f")),
            _ => {
                let thousandths = self.rng.below(1000);
                self.put(&format!("{sign}{whole}.{thousandths:03}"));
            }
        }
    }

    fn quoted(&mut self) {
        let name = *self.rng.pick(NAMES);
        self.put("\"");
        self.put(name);
        if self.rng.chance(10) {
            self.put(" \\\"the Old\\\" \\\\ II");
        }
        self.put("\"");
    }

    fn key(&mut self) {
        match self.rng.below(20) {
            0 => self.date(),
            1 => self.quoted(),
            2..5 => {
                let id = self.rng.below(40_000);
                self.put(&id.to_string());
            }
            _ => self.word(),
        }
    }

    fn scalar(&mut self) {
        match self.rng.below(20) {
            0..8 => self.number(),
            8..11 => self.date(),
            11..15 => self.quoted(),
            _ => {
                let atom = *self.rng.pick(ATOMS);
                self.put(atom);
            }
        }
    }

    fn list(&mut self) {
        self.put("{ ");
        for _ in 0..self.rng.between(1, 12) {
            if self.rng.chance(80) {
                self.number()
            } else {
                self.quoted()
            }
            self.put(" ");
        }
        self.put("}");
    }

    fn header(&mut self) {
        let name = *self.rng.pick(&["rgb", "hsv", "hsv360", "LIST"]);
        self.put(name);
        self.put(" ");
        self.list();
    }

    fn mixed(&mut self) {
        self.put("{ ");
        self.scalar();
        self.put(" ");
        self.word();
        self.put("=");
        self.scalar();
        self.put(" ");
        self.word();
        let sign = *self.rng.pick(&["<", ">=", "=", ">"]);
        self.put(sign);
        self.scalar();
        self.put(" }");
    }

    fn object(&mut self, depth: usize) {
        self.put("{");
        for _ in 0..self.rng.between(1, 9) {
            self.line(depth + 1);
            self.pair(depth + 1);
        }
        self.line(depth);
        self.put("}");
    }

    fn operator(&mut self) {
        self.word();
        let sign = *self.rng.pick(&[" < ", " <= ", " > ", " >= ", " != ", " ?= ", " == "]);
        self.put(sign);
        self.number();
    }

    fn parameter(&mut self) {
        self.put("[[");
        self.word();
        self.put("] ");
        self.word();
        self.put("=");
        self.scalar();
        self.put(" ]");
    }

    fn comment(&mut self) {
        self.put("# written by hand, ");
        self.word();
        self.put(" = { of no { matter");
    }

    fn pair(&mut self, depth: usize) {
        match self.rng.below(100) {
            0..2 => self.comment(),
            2..5 => self.operator(),
            5 if self.parameters => self.parameter(),
            6..10 => {
                self.key();
                self.put("=");
                self.header();
            }
            10..16 => {
                self.key();
                self.put("=");
                self.list();
            }
            16..18 => {
                self.key();
                self.put("=");
                self.mixed();
            }
            18..38 if depth < 7 => {
                self.key();
                self.put("=");
                self.object(depth);
            }
            _ => {
                self.key();
                self.put("=");
                self.scalar();
            }
        }
    }
}

/// A save of `size` bytes: pairs as long as one more fits, and a comment over what is left. Parameters cannot
/// be written back: where there are to be none, other pairs stand in their place.
pub fn save(size: usize, seed: u64, parameters: bool) -> Vec<u8> {
    let mut save = Save { text: Vec::with_capacity(size + 4096), rng: Rng::new(seed), parameters };
    let mut end = 0;
    while save.text.len() <= size {
        end = save.text.len();
        save.pair(0);
        save.put("\n");
    }
    save.text.truncate(end);
    save.text.resize(size, b'#');
    save.text
}
