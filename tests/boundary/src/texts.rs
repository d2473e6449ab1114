//! Texts that the tests and the benchmark share.

use independent::LINE_BYTES;

/// A model of one class with all variables, whose run has this code.
pub fn alone(code: &[&str]) -> String {
    let mut text = String::from("creol=1\nclasses=1\nclass=0\nattrs=8\ngiven=0\nrun=1\n");
    text += "methods=1\nmethod=0\nparams=0\nlocals=8\n";
    text += &format!("lines={}\n", code.len());
    for value in code {
        text += &format!("code={value}\n");
    }
    text
}

/// A valid text of exactly so many bytes, from about 7,500 up to past the limit.
pub fn of_length(bytes: usize) -> Vec<u8> {
    const FIRST: &str = "code=set a0 ";
    let mut head = vec![
        "creol=1",
        "classes=1",
        "class=0",
        "attrs=1",
        "given=0",
        "run=1",
    ];
    head.push("methods=8");
    let mut lines: Vec<String> = head.iter().map(|line| line.to_string()).collect();
    for method in 0..8 {
        lines.push(format!("method={method}"));
        lines.extend(["params=0", "locals=0", "lines=64"].map(str::to_string));
        lines.extend(vec![format!("{FIRST}1"); 63]);
        lines.push("code=return 0".to_string());
    }
    let length: usize = lines.iter().map(|line| line.len() + 1).sum();
    let mut missing = bytes.checked_sub(length).expect("bytes for all lines");
    for line in lines.iter_mut().filter(|line| line.starts_with(FIRST)) {
        let more = missing.min(LINE_BYTES - line.len());
        missing -= more;
        line.push_str(if more % 2 == 1 { "0" } else { "" });
        line.push_str(&"+1".repeat(more / 2));
    }
    assert_eq!(missing, 0, "{bytes} bytes are too many");
    (lines.join("\n") + "\n").into_bytes()
}

/// About 31 KB: 8 methods of 64 lines, all statements, with deep and long terms.
pub fn dense() -> Vec<u8> {
    const BODY: [&str; 21] = [
        "skip",
        "set a0 ((((((((a1))))))))+v0*v1-self*(caller-2147483647)+(a2-(a3-(a4-a5)))<a7",
        "while a0<(v0+1)*3-(a1=a2)+((a3*v3)-(a4*v4))*2147483647-(self=caller)",
        "new v1 1 a0+1,(a1*v2)-3,self*(v1-((v2+a3)*4)),((a0)),1234567890",
        "call v0 a0+(a1-a1) 7 a0+v0*2,(((v1)))*(((a1))),2147483647-a7,self=caller",
        "if a1*a1-(a2+a3)*(a4-a5)+(a6*v6)-(a7*v7)*(self+caller)<v0-2147483647",
        "await v0?&(v1?|[a0<1])|wait&([a1+v1=a2-v2]|v2?)&(v3?|v4?&[(a3)]&wait)",
        "get v0 a1",
        "else",
        "await ((((([a0+1<v0*(v1-2)]|wait)&v0?)|a0?)&v3?)|v4?&v5?)|[((((a1))))+2]&v6?",
        "get v7 a7",
        "fi",
        "set v7 1+2-3*4+5-6*7+8-9*10+11-12*13+14-15*16+17-18*19+20-21*22+23-24*25+26",
        "od",
        "while 0",
        "od",
        "if 1=1",
        "return a0*(a1+(a2*(a3+(a4*(a5+(a6*(a7+1)))))))-v0*(v1+(v2*(v3+(v4*(v5+v6)))))",
        "else",
        "call a3 (((a1)+v1)*2)-1+(((a2)+v2)*3)-1+(((a3)+v3)*4)-1 0",
        "fi",
    ];
    const FILLING: &str =
        "set a4 (a0+v0)*(a1-v1)+(a2*v2)-(a3+v3)*(0-2147483647)+(a4-v4)*(a5+v5)-(a6*v6)+(a7=v7)-(((self)))";
    let mut text =
        String::from("creol=1\nclasses=2\nclass=0\nattrs=8\ngiven=0\nrun=1\nmethods=8\n");
    for method in 0..8 {
        let lines = if method == 7 { 62 } else { 64 };
        text += &format!("method={method}\nparams=0\nlocals=8\nlines={lines}\n");
        let whole = BODY.iter().cycle().take(2 * BODY.len());
        let rest = vec![FILLING; lines - 1 - 2 * BODY.len()];
        for value in whole.chain(&rest) {
            text += &format!("code={value}\n");
        }
        text += "code=return a0+v0\n";
    }
    text += "class=1\nattrs=8\ngiven=5\nrun=0\nmethods=1\n";
    text += "method=0\nparams=4\nlocals=4\nlines=1\ncode=return v0\n";
    text.into_bytes()
}
