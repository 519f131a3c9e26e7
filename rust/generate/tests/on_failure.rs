//! What is printed of a case is Rust that gives the case back.

use generate::on_failure::OnFailure;

#[test]
fn inputs_are_lines_of_rust() {
    let register = b"\x00\x7f\x80\xff";
    let text = b"if \"'\\'\": \t\r\n";
    let failing = OnFailure::new(register).bytes("text", text);
    let printed = failing.number("record", u64::MAX).to_string();
    let lines = [
        r#"let register = b"\x00\x7f\x80\xff";"#,
        r#"let text = b"if \"\'\\\'\": \t\r\n";"#,
        "let record = 18446744073709551615;",
    ];
    assert_eq!(printed.lines().collect::<Vec<_>>(), lines);
}
