//! Valid texts that reach a limit, of the table or of a run.

use super::words::split;
use crate::random::Random;

/// The tokens of such a text.
pub fn limits(random: &mut Random) -> Vec<String> {
    match random.below(14) {
        0 => methods(32, random),
        1 => parameters(8, random),
        2 => slots(16, random),
        3 => instructions(4_096, random),
        4 => split("void main ( ) { int a ; a = 32767 + 00032767 ; }"),
        5 => nesting(32, random),
        6 => brackets(random),
        _ => faults(random),
    }
}

/// Texts whose runs go on until a fault stops them.
fn faults(random: &mut Random) -> Vec<String> {
    split(random.pick(&[
        "void main ( ) { qbit q ; while ( true ) q = new qbit ( ) ; }",
        "void main ( ) { channel [ int ] c ; while ( true ) c = new channel [ int ] ( ) ; }",
        "void main ( ) { channel [ qbit ] c withends [ a , b ] ; while ( true ) c = new channel [ qbit ] ( ) ; }",
        "void f ( ) { } void main ( ) { while ( true ) fork f ( ) ; }",
        "void main ( ) { fork main ( ) ; main ( ) ; }",
        "int f ( int a ) { return f ( a + 1 ) ; } void main ( ) { f ( 0 ) ; }",
        "void main ( ) { int a ; a = 32767 ; while ( true ) a = a + a ; }",
        "void main ( ) { int a ; a = 0 - 32767 ; while ( true ) a = a + a ; }",
        "void main ( ) { int a ; a = 1 ; while ( true ) a = a - ( 0 - a ) ; }",
        "void main ( ) { qbit p , q ; p = q = new qbit ( ) ; CX ( p , q ) ; }",
        "void main ( ) { qbit q ; q = new qbit ( ) ; while ( true ) measure ( StdBasis , q ) ; }",
        "int f ( ) { } void main ( ) { int a ; a = f ( ) ; }",
        "void main ( ) { int a ; a = a ; }",
        "void main ( ) { channel [ int ] c withends [ a , b ] ; c = new channel [ int ] ( ) ; recv ( a ) ; }",
    ]))
}

/// So many methods. With one more it is [`super::passed`]'s, as are those below.
pub fn methods(count: usize, random: &mut Random) -> Vec<String> {
    let main = random.below(count);
    let method = |index| match index == main {
        true => "void main ( ) { } ".to_string(),
        false => format!("void f{index} ( ) {{ }} "),
    };
    split(&(0..count).map(method).collect::<String>())
}

/// A method with so many parameters, called or not.
pub fn parameters(count: usize, random: &mut Random) -> Vec<String> {
    let parameters: Vec<String> = (0..count).map(|index| format!("int p{index}")).collect();
    let arguments: Vec<String> = (0..count).map(|index| index.to_string()).collect();
    let method = format!("void f ( {} ) {{ }}", parameters.join(" , "));
    let call = match random.chance(50) {
        true => format!("f ( {} ) ;", arguments.join(" , ")),
        false => String::new(),
    };
    either_order(&method, &format!("void main ( ) {{ {call} }}"), random)
}

fn either_order(one: &str, other: &str, random: &mut Random) -> Vec<String> {
    match random.chance(50) {
        true => split(&format!("{one} {other}")),
        false => split(&format!("{other} {one}")),
    }
}

/// A method with so many slots: parameters, variables, ends, inner blocks' and the
/// hole.
pub fn slots(count: usize, random: &mut Random) -> Vec<String> {
    let hole = random.below(2);
    let parameters = random.between(0, 3);
    let ends = 3 * random.below(2);
    let inner = random.between(0, 4);
    let plain = count - hole - parameters - ends - inner;
    let names =
        |letter: &str, count: usize| -> Vec<String> { (0..count).map(|index| format!("{letter}{index}")).collect() };
    let declared: Vec<String> = names("int p", parameters);
    let withends = if ends > 0 { "channel [ int ] c withends [ d , e ] ;" } else { "" };
    let blocks: String = (0..inner).map(|index| format!("{{ boolean b{} ; }} ", index % 2)).collect();
    let returns = if hole > 0 { "int" } else { "void" };
    let method = format!(
        "{returns} f ( {} ) {{ int {} ; {withends} {blocks} }}",
        declared.join(" , "),
        names("a", plain).join(" , ")
    );
    either_order(&method, "void main ( ) { }", random)
}

/// So many instructions in all, in one method or two.
pub fn instructions(count: usize, random: &mut Random) -> Vec<String> {
    let other = "void f ( ) { }";
    let main = |body: &str| format!("void main ( ) {{ int a ; {body} }}");
    let in_two = random.chance(50);
    let left = count - 1 - usize::from(in_two);
    // Three for each plain assignment, one more for each name before.
    let body = format!("{}{}", "a = 1 ; ".repeat(left / 3 - 1), rest(left % 3));
    match in_two {
        true => either_order(other, &main(&body), random),
        false => split(&main(&body)),
    }
}

fn rest(more: usize) -> &'static str {
    ["a = 1 ;", "a = a = 1 ;", "a = a = a = 1 ;"][more]
}

/// Bodies and blocks nested to a depth, the method's body among them.
pub fn nesting(depth: usize, random: &mut Random) -> Vec<String> {
    let bodies = ["if ( true )", "while ( false )", "if ( true ) { } else", "if ( true ) ; else"];
    let mut open = vec!["void main ( ) {"];
    let mut close = vec!["}"];
    for _ in 1..depth {
        let in_block = open.last().is_some_and(|last| last.ends_with('{'));
        match random.below(3) {
            // A block is a body of its own only in a block.
            0 if in_block => {
                open.push("{");
                close.push("}");
            }
            1 => {
                open.extend([random.pick(&bodies), "{"]);
                close.push("}");
            }
            _ => open.push(random.pick(&bodies)),
        }
    }
    close.reverse();
    split(&format!("{} ; {}", open.join(" "), close.join(" ")))
}

/// An expression in many brackets.
fn brackets(random: &mut Random) -> Vec<String> {
    let depth = random.pick(&[1, 40, 400]);
    let (open, close) = random.pick(&[("( ", ") "), ("f ( ", ") "), ("( a = ", ") ")]);
    let value = format!("{}1 {}", open.repeat(depth), close.repeat(depth));
    split(&format!("int f ( int a ) {{ return a ; }} void main ( ) {{ int a ; a = {value} ; }}"))
}
