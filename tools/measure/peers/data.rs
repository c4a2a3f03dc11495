// The inputs, drawn from fixed seeds.
use crate::records::Rec;
use std::collections::HashMap;

pub type Map = HashMap<String, i32>;

struct Rng(u64);
impl Rng {
    fn next(&mut self) -> u64 {
        self.0 ^= self.0 << 13;
        self.0 ^= self.0 >> 7;
        self.0 ^= self.0 << 17;
        self.0
    }
    fn below(&mut self, n: u64) -> u64 {
        (self.next() >> 11) % n
    }
    fn text(&mut self) -> String {
        let n = 4 + self.below(36);
        (0..n)
            .map(|_| match self.below(64) {
                0 => '\n',
                1 => '"',
                2 => 'é',
                3 => '\\',
                4..=9 => ' ',
                k => (b'a' + (k % 26) as u8) as char,
            })
            .collect()
    }
    fn int(&mut self) -> u64 {
        let k = self.below(64);
        self.next() >> k
    }
}
pub fn mk_u8(n: usize) -> Vec<u8> {
    let mut r = Rng(88172645463325252);
    (0..n).map(|_| r.next() as u8).collect()
}
pub fn mk_u64(n: usize) -> Vec<u64> {
    let mut r = Rng(88172645463325253);
    (0..n).map(|_| r.int()).collect()
}
pub fn mk_str(n: usize) -> Vec<String> {
    let mut r = Rng(88172645463325254);
    (0..n).map(|_| r.text()).collect()
}
pub fn mk_map(n: usize) -> Map {
    let mut r = Rng(88172645463325255);
    (0..n).map(|k| (format!("key_{}_{}", r.below(1000), k), r.int() as i32)).collect()
}
pub fn mk_rec(n: usize) -> Vec<Rec> {
    let mut r = Rng(88172645463325256);
    (0..n)
        .map(|_| Rec { value: r.int() as i32, note: if r.below(3) > 0 { Some(r.text()) } else { None } })
        .collect()
}
pub fn mk_toml(bytes: usize) -> String {
    let mut r = Rng(88172645463325257);
    let mut s = String::from("title = \"bench\"\n");
    while s.len() < bytes {
        s += &format!("[[record]] # one\nvalue = {}\nname = \"{}\"\nflag = {}\nday = 1979-05-27\nratio = {}.5\nlist = [{}, {}, \"x y\"]\n[record.sub]\nkey-a = 1_000\n\n",
            r.below(1 << 40), r.text().replace(|c| c == '\\' || c == '"' || c == '\n', "-"), r.below(2) == 0, r.below(1000), r.below(99), r.below(9999));
    }
    s
}
