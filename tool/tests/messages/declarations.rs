//! What is said of refused declarations.

use sailmortar::meaning;

use super::said::of_declarations;
use crate::report::Value;

/// Each text with what its message says between the number and the meaning.
fn say(number: u64, cases: &[(&str, &str)]) {
    for (fields, words) in cases {
        let report = of_declarations(fields.as_bytes());
        assert_eq!(report.lines[0], format!("fields: refusal {number}{words}: {}", meaning(number).expect("a meaning")));
        assert_eq!(report.lines[1], format!("no row was read and nothing is written; 'sailmortar explain {number}' says more"));
    }
}

#[test]
fn values_that_are_not_carried_are_shown() {
    say(
        2,
        &[
            ("<FIELD datatype='int'/>\n<FIELD name='mag' datatype='float'/>", " in line 2, the 2nd FIELD (mag): datatype 'float'"),
            ("<FIELD datatype=''/>", " in line 1, the 1st FIELD: datatype ''"),
            ("<FIELD name='\x1b[2J' datatype='\x07'/>", " in line 1, the 1st FIELD (\\u{1b}[2J): datatype '\\u{7}'"),
        ],
    );
    say(3, &[("\n<FIELD datatype='int' name='x' arraysize='3x2'/>", " in line 2, the 1st FIELD (x): arraysize '3x2'")]);
    say(4, &[("<FIELD datatype='short'><VALUES null='32768'/></FIELD>", " in line 1, the 1st FIELD: datatype 'short', null '32768'")]);
}

#[test]
fn the_rule_that_an_element_breaks_is_said() {
    let cases = [
        ("<FIELD name='mag'/>", "the 1st FIELD (mag): '<FIELD name='mag'/>' has no datatype"),
        ("<FIELD name='a>b'></FIELD>", "the 1st FIELD (a>b): '<FIELD name='a>b'>' has no datatype"),
        ("<FIELD datatype='int' datatype='int'/>", "the 1st FIELD: '<FIELD datatype='int' datatype='int'/>' has datatype twice"),
        (
            "<FIELD datatype='int' arraysize='1' arraysize='1'/>",
            "the 1st FIELD: '<FIELD datatype='int' arraysize='1' arra..' has arraysize twice",
        ),
        (
            "<FIELD datatype='int'><VALUES null='1' null='1'/></FIELD>",
            "the 1st FIELD: '<FIELD datatype='int'>' has null twice in its VALUES",
        ),
        ("<FIELD datatype='int'", "the 1st FIELD: '<FIELD datatype='int'' is not ended"),
        ("<FIELD datatype='int'>", "the 1st FIELD: '<FIELD datatype='int'>' is not ended"),
        ("<FIELD datatype='int'><VALUES/>", "the 1st FIELD: '<FIELD datatype='int'>' is not ended"),
        (
            "<FIELD datatype='int'><DESCRIPTION>sky</DESCRIPTION></FIELD>",
            "the 1st FIELD: '<FIELD datatype='int'>' has '<DESCRIPTION>' where </FIELD> should stand",
        ),
        (
            "<FIELD datatype='int'><VALUES null='1'></VALUES></FIELD>",
            "the 1st FIELD: '<FIELD datatype='int'>' has '>' where the /> of VALUES should stand",
        ),
        (
            "<FIELD datatype=int/>",
            "the 1st FIELD: '<FIELD datatype=int/>' has 'datatype=int/>' where an attribute or the end of the tag should stand",
        ),
        ("<PARAM datatype='int'/>", "where the 1st FIELD should stand: '<PARAM datatype='int'/>' is PARAM and not FIELD"),
        ("<FIELDref ref='a'/>", "where the 1st FIELD should stand: '<FIELDref ref='a'/>' is FIELDref and not FIELD"),
        ("<!-- the night -->", "where the 1st FIELD should stand: '<!-- the night -->' is a comment and no FIELD"),
        ("</FIELD>", "where the 1st FIELD should stand: '</FIELD>' is an end tag with no FIELD before it"),
        ("sky int", "where the 1st FIELD should stand: 'sky int' is no FIELD"),
    ];
    say(
        1,
        &cases.map(|(fields, words)| (fields, format!(" in line 1, {words}"))).each_ref().map(|(fields, words)| (*fields, words.as_str())),
    );
}

#[test]
fn the_number_of_columns_is_said() {
    say(5, &[("", ": there is no FIELD"), (" \n", ": there is no FIELD")]);
    let many = "<FIELD datatype='int'/>\n".repeat(64) + "<FIELD name='last' datatype='int'/>";
    say(5, &[(&many, " in line 65, the 65th FIELD (last): '<FIELD name='last' datatype='int'/>'")]);
}

#[test]
fn declarations_over_their_size_are_said_with_it() {
    let report = of_declarations(&vec![b' '; 65_537]);
    assert_eq!(report.lines[0], "fields: refusal 6: the declarations are over 65,536 bytes");
    assert_eq!(report.lines[1], "no row was read and nothing is written; 'sailmortar explain 6' says more");
}

#[test]
fn programs_are_told_the_facts_in_order() {
    let number = |name, value| (name, Value::Number(value));
    let text = |name, value: &str| (name, Value::Text(value.to_string()));
    let report = of_declarations(b"<FIELD datatype='int'/>\n<FIELD name='mag' arraysize='2' datatype='float'/>");
    let facts = [
        text("file", "fields"),
        number("number", 2),
        text("meaning", meaning(2).expect("a meaning")),
        number("column", 1),
        text("name", "mag"),
        text("datatype", "float"),
        text("arraysize", "2"),
        text("shown", "float"),
        number("byte", 24),
        number("line", 2),
        text("element", "<FIELD name='mag' arraysize='2' datatype.."),
    ];
    assert_eq!(report.facts, facts);
}
