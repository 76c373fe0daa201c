//! Texts that pass one limit by one, or break one rule, with a valid text before or
//! after.

use super::limits::{instructions, methods, nesting, parameters, slots};
use super::program::program;
use super::words::{split, DOUBLE, SINGLE};
use crate::random::Random;

/// The tokens of such a text.
pub fn passed(random: &mut Random) -> Vec<String> {
    match random.below(22) {
        0 => methods(33, random),
        1 => parameters(9, random),
        2 => slots(17, random),
        3 => instructions(4_097, random),
        4 | 5 => nesting(33, random),
        6 => number(random),
        7 => main(random),
        8 => no_main(random),
        9 => beside(&method_twice(random), random),
        10 => beside(&brackets(random), random),
        11 | 12 => beside(&withends(random), random),
        13 | 14 => beside(&gates(random), random),
        15 | 16 => beside(&types(random), random),
        17 | 18 => beside(&names(random), random),
        19 => beside(&counts(random), random),
        _ => beside(&allocations(random), random),
    }
}

/// A method at fault, before or after a valid text.
fn beside(method: &str, random: &mut Random) -> Vec<String> {
    let valid = program(random);
    match random.chance(50) {
        true => [split(method), valid].concat(),
        false => [valid, split(method)].concat(),
    }
}

/// A valid text with a number changed.
fn number(random: &mut Random) -> Vec<String> {
    let mut tokens = program(random);
    let is_number = |token: &String| token.as_bytes()[0].is_ascii_digit();
    let places: Vec<usize> = (0..tokens.len()).filter(|place| is_number(&tokens[*place])).collect();
    let large = random.pick(&["32768", "032768", "65536", "99999999999999999999"]);
    match random.pick_any(&places) {
        Some(place) => tokens[place] = large.to_string(),
        None => tokens.extend(split(&format!("int extra ( ) {{ return {large} ; }}"))),
    }
    tokens
}

fn main(random: &mut Random) -> Vec<String> {
    split(random.pick(&[
        "void f ( ) { } void main ( int a ) { }",
        "int main ( ) { return 1 ; } void f ( ) { }",
        "void f ( ) { main ( 1 ) ; } void main ( int a ) { }",
        "qbit main ( qbit q , int a ) { return q ; }",
    ]))
}

fn no_main(random: &mut Random) -> Vec<String> {
    let mut tokens = program(random);
    let name = tokens.windows(2).position(|two| two[0] == "main" && two[1] == "(");
    if let Some(place) = name {
        tokens[place] = random.pick(&["Main", "main_", "mainn"]).to_string();
    }
    tokens
}

fn method_twice(random: &mut Random) -> String {
    let second = random.pick(&["void extra ( ) { }", "int extra ( int a ) { return a ; }"]);
    format!("void extra ( ) {{ }} {second}")
}

/// Many brackets, one of them missing or too many.
fn brackets(random: &mut Random) -> String {
    let depth = random.pick(&[1, 5, 60]);
    let (less, more) = random.pick(&[(1, 0), (0, 1), (0, 0)]);
    let open = "( ".repeat(depth - less);
    let close = ") ".repeat(depth - more);
    format!("int extra ( ) {{ return {open} 1 {close} ; }}")
}

/// A withends channel inside an expression, or what comes close to it.
fn withends(random: &mut Random) -> String {
    let statement = random.pick(&[
        "d = c = new channel [ int ] ( ) ;",
        "d = ( c = new channel [ int ] ( ) ) ;",
        "extra ( c = new channel [ int ] ( ) ) ;",
        "fork extra ( c = c ) ;",
        "d = c = ) ;",
        "{ channel [ int ] c ; d = c = new channel [ int ] ( ) ; }",
        "{ int c ; } d = c = d ;",
        "X ( c = d ) ;",
        "while ( c = d ) ;",
        "send ( a , c = d ) ;",
        "return c = d ;",
        "d = a = c = d ;",
        "d = c == c ;",
    ]);
    format!("void extra ( channel [ int ] d ) {{ channel [ int ] c withends [ a , b ] ; {statement} }}")
}

/// Gates where none are meant, or with a wrong count.
fn gates(random: &mut Random) -> String {
    let single = random.pick(&SINGLE);
    let double = random.pick(&DOUBLE);
    let statement = match random.below(8) {
        0 => format!("a = {single} ( q ) ;"),
        1 => format!("fork {double} ( q , q ) ;"),
        2 => format!("{single} ( q , q ) ;"),
        3 => format!("{double} ( q ) ;"),
        4 => format!("{single} ( ) ;"),
        5 => "T ( q ) ;".to_string(),
        6 => format!("{single} ( a ) ;"),
        _ => format!("{double} ( q , a ) ;"),
    };
    format!("void extra ( qbit q , int a ) {{ {statement} }}")
}

/// A type error.
fn types(random: &mut Random) -> String {
    let statement = random.pick(&[
        "a = b ;",
        "b = a ;",
        "q = e ;",
        "a = 1 + 2 == 3 ;",
        "b = b == b ;",
        "a = b + 1 ;",
        "if ( a ) ;",
        "while ( q ) ;",
        "send ( e , b ) ;",
        "send ( c , a ) ;",
        "send ( a , e ) ;",
        "a = recv ( c ) ;",
        "b = recv ( e ) ;",
        "measure ( StdBasis , a ) ;",
        "return a ;",
        "a = extra ( a , b , q , c , e ) ;",
        "extra ( b , b , q , c , e ) ;",
        "fork extra ( a , b , q , c , c ) ;",
        "c = new channel [ boolean ] ( ) ;",
        "a = 1 + 1 + 1 + 1 + 1 + 1 + 1 + 1 + 1 ;",
        "if ( extra ( a , b , q , c , e ) ) ;",
    ]);
    format!("void extra ( int a , boolean b , qbit q , channel [ int ] c , channelEnd [ int ] e ) {{ {statement} }}")
}

/// Names undeclared, or declared twice.
fn names(random: &mut Random) -> String {
    let body = random.pick(&[
        "nobody = 1 ;",
        "a = nobody ;",
        "a = 1 + ( nobody = 2 ) ;",
        "measure ( StdBasis , nobody ) ;",
        "nothing ( a ) ;",
        "a = nothing ( ) ;",
        "fork nothing ( nobody ) ;",
        "{ int b ; } b = 1 ;",
        "if ( true ) { int b ; } else b = 1 ;",
        "return nobody ;",
        "{ int b ; { int b , b ; } }",
        "{ channel [ int ] c withends [ c , d ] ; }",
        "{ channel [ int ] c withends [ d , d ] ; }",
    ]);
    let declaration =
        random.pick(&["", "", "", "qbit a ;", "int b ; boolean b ;", "channel [ int ] c withends [ a , b ] ;"]);
    format!("void extra ( int a ) {{ {declaration} {body} }}")
}

fn counts(random: &mut Random) -> String {
    let statement = random.pick(&[
        "extra ( ) ;",
        "extra ( a , a ) ;",
        "fork extra ( ) ;",
        "a = 1 + extra ( a , a , a ) ;",
        "a = extra ( extra ( ) ) ;",
        "main ( a ) ;",
    ]);
    format!("int extra ( int a ) {{ {statement} }}")
}

/// What is made new where it cannot be used, or cannot be made.
fn allocations(random: &mut Random) -> String {
    let statement = random.pick(&[
        "e = new channelEnd [ int ] ( ) ;",
        "a = q = new qbit ( ) + 1 ;",
        "a = b = q = new qbit ( ) - 1 ;",
        "q = new qbit ( ) + 1 ;",
        "a = 1 + new qbit ( ) ;",
        "a = 1 + new qbit ( ) + 1 ;",
        "a = ( new qbit ( ) ) + 1 ;",
        "a = b = 1 + new qbit ( ) < 2 ;",
        "new qbit ( ) ;",
        "a = new int ( ) ;",
        "c = new channel [ channel [ int ] ] ( ) ;",
        "X ( new channel [ qbit ] ( ) ) ;",
    ]);
    format!("void extra ( channelEnd [ int ] e , qbit q , int a , int b ) {{ {statement} }}")
}
