//! Open points of code lines and blocks, each as it is read.

mod common;

use common::*;

fn code(value: &str) -> (u8, u32) {
    let verdict = judge_code(value);
    (verdict.number, verdict.line)
}

const BAD: (u8, u32) = (5, CODE_LINE);

#[test]
fn numbers_and_variables_in_code() {
    for value in [
        "set a0 01",
        "set a0 2147483648",
        "set a0 99999999999999999999",
        "set a0 -1",
        "set a0 +1",
        "set a0 00",
        "call a0 1 8",
        "call a0 1 00",
        "call a0 1 01",
        "new a0 1",
        "new a0 00",
        "new a0 16",
        "new a0 4294967296",
        "set a8 0",
        "set v8 0",
        "set a00 0",
        "set b0 0",
        "set a 0",
        "set A0 0",
        "get a0",
        "get a0 1",
        "get a0 a1 a2",
        "set a0 a8",
        "set a0 a01",
    ] {
        assert_eq!(code(value), BAD, "{value}");
    }
    for value in [
        "call a0 1 7",
        "set a7 v7",
        "new a0 0",
        "set v0 2147483647",
        "get a0 a0",
    ] {
        assert_eq!(code(value), GOOD, "{value}");
    }
    // A class that comes later may be named.
    assert_eq!(verdict(SESSION), GOOD);
    assert_eq!(verdict(&session_with(12, "code=new a0 2 3")), (5, 12));
    // Variables are those of the class and the method.
    assert_eq!(verdict(&session_with(16, "code=return a2")), (5, 16));
    assert_eq!(verdict(&session_with(16, "code=return v1")), (5, 16));
}

#[test]
fn spaces_and_words() {
    for value in [
        "",
        " ",
        "skip ",
        " skip",
        "skip 1",
        "Skip",
        "set  a0 1",
        "set a0  1",
        "set a0 1 ",
        "set a0",
        "set",
        "set a0 1+ 1",
        "new a0",
        "new a0 0 ",
        "new a0 0 1,",
        "new a0 0 ,1",
        "new a0 0 1,,1",
        "new a0 0 1, 1",
        "new  a0 0",
        "call a0 1",
        "call a0 1 0 ",
        "call a0 1 0 1,",
        "call a0 1 0 1,2,3,4,5",
        "await",
        "await ",
        "if",
        "if ",
        "while",
        "return",
        "return ",
        "else ",
        "fi ",
        "od ",
        "return 0;",
        "return selfish",
        "return sel",
        "return callers",
        "return ()",
        "return (1",
        "return 1)",
        "return 1++1",
        "return *1",
        "return 1*",
        "return 1<",
        "return <1",
        "return 1==1",
        "return [1]",
        "return wait",
        "return a0?",
    ] {
        assert_eq!(code(value), BAD, "{value}");
    }
    for value in [
        "call a0 self 0 1,(2<3),v0,caller",
        "return self*caller-a0+v7<3",
        "skip",
    ] {
        assert_eq!(code(value), GOOD, "{value}");
    }
}

#[test]
fn arguments_of_new_are_counted_last() {
    // Class 1 has given 1; line 12 is its `new`.
    let none = session_with(12, "code=new a0 1");
    let two = session_with(12, "code=new a0 1 3,3");
    let many = session_with(12, &format!("code=new a0 1 0{}", ",0".repeat(50)));
    for text in [&none, &two, &many] {
        assert_eq!(verdict(text), (5, 12));
        assert_eq!(verdict(&format!("{text}\n")), (3, 28));
        assert_eq!(verdict(&format!("{text}x")), (2, 28));
        assert_eq!(verdict(&text.replace("attrs=1", "attrs=9")), (4, 18));
    }
    // The first of two such lines.
    assert_eq!(
        verdict(&two.replace("call v0 a0 0 4", "new a1 1 ")),
        (5, 13)
    );
    assert_eq!(verdict(&two.replace("call v0 a0 0 4", "new a1 1")), (5, 12));
    // Another fault of a `new` is met at once.
    assert_eq!(
        verdict(&session_with(12, "code=new a0 1 3,").replace("attrs=1", "attrs=9")),
        (5, 12)
    );
}

#[test]
fn brackets() {
    let open =
        |count: usize, inner: &str| format!("{}{inner}{}", "(".repeat(count), ")".repeat(count));
    assert_eq!(code(&format!("set a0 {}", open(8, "1"))), GOOD);
    assert_eq!(code(&format!("set a0 {}", open(9, "1"))), BAD);
    assert_eq!(code(&format!("await {}", open(8, "wait"))), GOOD);
    assert_eq!(code(&format!("await {}", open(9, "wait"))), BAD);
    assert_eq!(code(&format!("await {}", open(7, "[1]"))), GOOD);
    assert_eq!(code(&format!("await {}", open(8, "[1]"))), BAD);
    assert_eq!(
        code(&format!(
            "await {}",
            open(3, &format!("[{}]", open(4, "1")))
        )),
        GOOD
    );
    assert_eq!(
        code(&format!(
            "await {}",
            open(3, &format!("[{}]", open(5, "1")))
        )),
        BAD
    );
    // One after the other they do not count together, and each argument starts at none.
    assert_eq!(code(&format!("set a0 {0}+{0}", open(8, "1"))), GOOD);
    assert_eq!(code(&format!("call a0 {0} 0 {0},{0}", open(8, "1"))), GOOD);
    assert_eq!(
        code(&format!(
            "call a0 {0} 0 {0},{1}",
            open(8, "1"),
            open(9, "1")
        )),
        BAD
    );
    assert_eq!(code("await (1)"), BAD);
    assert_eq!(code("await ([1])"), GOOD);
    for value in [
        "await [1",
        "await 1",
        "await [wait]",
        "await a0",
        "await v0??",
        "await wait&",
        "await |wait",
        "await [1]|[0]&&wait",
        "await ()",
        "await []",
        "await waits",
        "await [1)",
        "await (wait]",
        "await wait wait",
        "await self?",
        "await a8?",
        "await [(1])",
    ] {
        assert_eq!(code(value), BAD, "{value}");
    }
    for value in [
        "await wait|v0?&[a0<3]",
        "await (wait|a0?)&([1]|[(0)])",
        "await [((1<2)=1)]",
    ] {
        assert_eq!(code(value), GOOD, "{value}");
    }
}

#[test]
fn one_comparison_for_each_bracket_level() {
    for value in ["1<2<3", "1<2=3", "1=2<3", "1=2=3", "(1<2<3)", "1+(2<3)<4=5"] {
        assert_eq!(code(&format!("set a0 {value}")), BAD, "{value}");
    }
    for value in ["(1<2)<3", "1<(2<3)", "((1<2)<3)=(4=5)", "1+(2<3)<4"] {
        assert_eq!(code(&format!("set a0 {value}")), GOOD, "{value}");
    }
}

#[test]
fn blocks() {
    let at = |line: u32| (6, CODE_LINE + line);
    let judged = |code: &[&str]| verdict(&alone(code));
    assert_eq!(judged(&["if 1", "else", "fi", "return 0"]), GOOD);
    assert_eq!(judged(&["while 1", "od", "return 0"]), GOOD);
    assert_eq!(
        judged(&["if 1", "return 1", "else", "return 2", "fi", "return 0"]),
        GOOD
    );
    assert_eq!(judged(&["if 1", "else", "else", "fi", "return 0"]), at(2));
    assert_eq!(judged(&["if 1", "fi", "return 0"]), at(1));
    assert_eq!(judged(&["else", "return 0"]), at(0));
    assert_eq!(judged(&["fi", "return 0"]), at(0));
    assert_eq!(judged(&["od", "return 0"]), at(0));
    assert_eq!(judged(&["if 1", "od", "return 0"]), at(1));
    assert_eq!(judged(&["if 1", "else", "od", "return 0"]), at(2));
    assert_eq!(judged(&["while 1", "fi", "return 0"]), at(1));
    assert_eq!(judged(&["while 1", "else", "return 0"]), at(1));
    assert_eq!(
        judged(&["if 1", "while 1", "else", "od", "fi", "return 0"]),
        at(2)
    );
    assert_eq!(judged(&["if 1", "skip", "return 0"]), at(2));
    assert_eq!(judged(&["while 1", "return 0"]), at(1));
    assert_eq!(judged(&["skip"]), at(0));
    assert_eq!(judged(&["return 0", "skip"]), at(1));
    assert_eq!(judged(&["while 1", "od"]), at(1));
    // The ninth open block is one too many, ifs and whiles together.
    let mut code = vec!["while 1"; 5];
    code.extend(["if 1"; 3]);
    let mut closed = code.clone();
    closed.extend(["else", "fi"].repeat(3));
    closed.extend(["od"; 5]);
    closed.push("return 0");
    assert_eq!(judged(&closed), GOOD);
    for ninth in ["if 1", "while 1"] {
        let mut code = code.clone();
        code.extend([ninth, "skip", "return 0"]);
        assert_eq!(judged(&code), at(8));
    }
    // An else keeps its block open.
    let mut code = vec!["if 1", "else"];
    code.extend(["while 1"; 8]);
    code.push("return 0");
    assert_eq!(judged(&code), at(9));
    // Each method starts with no open block, and each is judged by itself.
    let text = text_of(&[Class {
        attrs: 0,
        given: 0,
        run: 1,
        methods: &[
            (0, 0, &["while 1", "return 0"]),
            (0, 0, &["od", "return 0"]),
        ],
    }]);
    assert_eq!(verdict(&text), (6, 13));
}
