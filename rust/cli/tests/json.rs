//! JSON written and read back, and the bar of long work.

use std::time::Duration;

use cli::json::Json;
use cli::progress::bar;

#[test]
fn written_and_read_back() {
    let value = Json::object([
        ("text", Json::text("a \"quoted\" \\ line\n\u{1}é")),
        ("number", Json::number(-7)),
        ("list", Json::list([Json::Null, Json::Bool(true), Json::Bool(false), Json::list([])])),
        ("object", Json::object([])),
    ]);
    let text = r#"{"text":"a \"quoted\" \\ line\n\u0001é","number":-7,"list":[null,true,false,[]],"object":{}}"#;
    assert_eq!(value.to_string(), text);
    assert_eq!(Json::read(text), Some(value));
    assert_eq!(Json::read(" [ 1 , \"\\t\\u0041\" ] "), Some(Json::list([Json::number(1), Json::text("\tA")])));
}

#[test]
fn what_is_no_result() {
    let deep = "[".repeat(40) + &"]".repeat(40);
    for text in ["", "{", "{\"a\"}", "{\"a\":1,}", "[1 2]", "\"a", "nul", "1.5", "1 2", "{a:1}", "--1", deep.as_str()] {
        assert_eq!(Json::read(text), None, "{text}");
    }
}

#[test]
fn how_far_work_has_come() {
    let drawn = bar("cases", 5, 10, Duration::from_secs(10));
    assert_eq!(drawn.trim_end(), format!("[{}{}] 5 of 10 cases, 10 s left", "#".repeat(15), ".".repeat(15)));
    assert_eq!(bar("cases", 0, 10, Duration::ZERO).trim_end(), format!("[{}] 0 of 10 cases", ".".repeat(30)));
    assert!(bar("cases", 0, 0, Duration::ZERO).starts_with(&format!("[{}]", "#".repeat(30))));
}
