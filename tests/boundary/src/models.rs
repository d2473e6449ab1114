//! The models whose steps are compared.

use independent::generate::{self, Random};

/// Every statement, in the forms in which the order of tests and of stores shows.
pub fn statements() -> String {
    const RUN: [&str; 39] = [
        "new a0 1 a0",
        "new v0 1 a1+2147483647",
        "new a1 0",
        "new v1 2",
        "new a2 3 a0,a1,a2,v0,v1,v2,self,caller",
        "call a0 a0 0 a0",
        "call v0 v0 1",
        "call v1 a1+2147483647 1",
        "call a1 v2 7 a0+1,v0*v0",
        "call a2 self 1 v0,v1,a2,a2",
        "call v2 caller 0 a0<a1",
        "get a0 a0",
        "get v0 a1",
        "get a1 v0",
        "get v2 v2",
        "await wait",
        "await a0?",
        "await v0?&[a1+1]",
        "await wait|[v0*v1]",
        "await [0]|a0?&v1?",
        "await [1]|[a0+a1]",
        "await (wait&[a0<v0])|a2?",
        "if a0",
        "while v0<a1",
        "set v0 v0+1",
        "od",
        "else",
        "if a1=self",
        "set a1 a1*v1",
        "else",
        "set a0 0-a0",
        "fi",
        "return a2",
        "fi",
        "while caller",
        "skip",
        "od",
        "set v2 a0-a1-v0",
        "return a0+v0",
    ];
    let mut text = String::from("creol=1\nclasses=4\n");
    text += "class=0\nattrs=3\ngiven=0\nrun=1\nmethods=2\n";
    text += &method(0, 0, 3, &RUN);
    text += &method(1, 1, 2, &["await [v0<a0]|wait", "return v0*a0"]);
    text += "class=1\nattrs=2\ngiven=1\nrun=1\nmethods=2\n";
    text += &method(0, 0, 0, &["await a1?", "get a1 a0", "return self"]);
    text += &method(1, 4, 4, &["await wait", "return v0+v1+v2+v3"]);
    text += "class=2\nattrs=8\ngiven=0\nrun=0\nmethods=0\n";
    text += "class=3\nattrs=8\ngiven=8\nrun=0\nmethods=0\n";
    text
}

/// As many classes, methods, lines and variables as there may be, and as many arguments.
pub fn fullest() -> Vec<u8> {
    const ARGUMENTS: [&str; 8] = ["a7", "v7", "a6", "v6", "self", "caller", "a1-v1", "a0*v0"];
    let given = |class: usize| class.min(8);
    let mut text = String::from("creol=1\nclasses=16\n");
    for class in 0..16 {
        let (given_here, run) = (given(class), usize::from(class % 3 == 0));
        text += &format!("class={class}\nattrs=8\ngiven={given_here}\nrun={run}\nmethods=8\n");
        for index in 0..8 {
            let params = if index == 0 { 0 } else { index % 5 };
            let made = (class + index) % 16;
            let code = [
                format!("new v7 {made}{}", list(&ARGUMENTS[..given(made)])),
                format!("call a7 v7 {}{}", 7 - index, list(&ARGUMENTS[..index % 5])),
                "await a7?|[a0<v0]".to_string(),
                "return a7".to_string(),
            ];
            text += &method(index, params, 8, &code.each_ref().map(String::as_str));
        }
    }
    text.into_bytes()
}

/// Arguments with the space before them.
fn list(arguments: &[&str]) -> String {
    match arguments.is_empty() {
        true => String::new(),
        false => format!(" {}", arguments.join(",")),
    }
}

fn method(index: usize, params: usize, locals: usize, code: &[&str]) -> String {
    let lines = code.len();
    let mut text = format!("method={index}\nparams={params}\nlocals={locals}\nlines={lines}\n");
    for value in code {
        text += &format!("code={value}\n");
    }
    text
}

/// A generated text that is short, so that many steps can be taken in it.
pub fn short(random: &mut Random) -> Vec<u8> {
    generated(random, 0..700)
}

/// A generated text with a length in this range.
pub fn generated(random: &mut Random, bytes: std::ops::Range<usize>) -> Vec<u8> {
    std::iter::repeat_with(|| generate::text(random))
        .find(|text| bytes.contains(&text.len()))
        .expect("there is no end to them")
}
