//! Texts of stations that meet: main makes a channel for each station, forks it with
//! one end, and both go through the same exchanges from their two sides.

use data::SLOTS;

use super::words::{split, type_tokens};
use crate::random::Random;

/// What a station has beside its end `a`; main has the same.
const LOCALS: &str = "int x ; boolean y ; qbit q , r ;";
const LOCAL_SLOTS: usize = 4;

/// Methods that statements below call.
const HELPERS: [&str; 6] = [
    "qbit away ( channelEnd [ qbit ] e , qbit old ) { send ( e , old ) ; return new qbit ( ) ; }",
    "void keep ( qbit q ) { X ( q ) ; measure ( StdBasis , q ) ; }",
    "int sum ( int a , int b ) { return a + b ; }",
    "void held ( channel [ int ] c , channelEnd [ int ] e ) { ; }",
    "int lend ( channelEnd [ int ] e ) { fork lent ( e ) ; return 2 ; }",
    "void lent ( channelEnd [ int ] e ) { }",
];

/// The tokens of such a text.
pub fn stations(random: &mut Random) -> Vec<String> {
    let count = random.between(1, 3);
    let links: Vec<Link> = (1..=count).map(|number| link(number, random)).collect();
    let mut methods: Vec<Vec<String>> = links.iter().map(|link| station(link, random)).collect();
    methods.push(main(&links, random));
    methods.extend(HELPERS.iter().map(|helper| split(helper)));
    for last in (1..methods.len()).rev() {
        methods.swap(last, random.below(last + 1));
    }
    methods.concat()
}

/// A station and its exchanges with main.
struct Link {
    number: usize,
    carried: u16,
    /// Whether main sends, exchange by exchange.
    main_sends: Vec<bool>,
}

fn link(number: usize, random: &mut Random) -> Link {
    let count = random.between(1, 3);
    let main_sends = (0..count).map(|_| random.chance(50)).collect();
    Link { number, carried: random.word_between(1, 3), main_sends }
}

/// A station; at times it leaves before its last exchange.
fn station(link: &Link, random: &mut Random) -> Vec<String> {
    let returns = random.pick(&["void", "void", "int"]);
    let mut tokens = split(&format!("{returns} s{} (", link.number));
    tokens.extend(type_tokens(32 + link.carried));
    tokens.extend(split(&format!("a ) {{ {LOCALS}")));
    tokens.extend(start(random));
    let mut slots = SLOTS - LOCAL_SLOTS - 2;
    let leaves = random.chance(20);
    let stays = link.main_sends.len() - usize::from(leaves);
    for main_sends in &link.main_sends[..stays] {
        tokens.extend(local(&mut slots, random));
        // Now and then both send, or both wait.
        let sends = main_sends == &random.chance(6);
        tokens.extend(exchange(sends, link.carried, "a", random));
    }
    if returns == "int" {
        tokens.extend(split("return x ;"));
    }
    tokens.push("}".to_string());
    tokens
}

/// Main: all channels, then all forks, then the exchanges of all stations mixed.
fn main(links: &[Link], random: &mut Random) -> Vec<String> {
    let mut tokens = split(&format!("void main ( ) {{ {LOCALS}"));
    for Link { number, carried, .. } in links {
        tokens.extend(type_tokens(16 + carried));
        tokens.extend(split(&format!("c{number} withends [ a{number} , b{number} ] ;")));
    }
    tokens.extend(start(random));
    let mut slots = SLOTS - LOCAL_SLOTS - 3 * links.len();
    for Link { number, carried, .. } in links {
        // At times in a block that has another variable of the end's name.
        let hidden = slots > 0 && random.chance(20);
        slots -= usize::from(hidden);
        let open = if hidden { format!("{{ int a{number} ;") } else { String::new() };
        tokens.extend(split(&format!("{open} c{number} = new")));
        tokens.extend(type_tokens(16 + carried));
        let close = if hidden { "}" } else { "" };
        tokens.extend(split(&format!("( ) ; {close} fork s{number} ( b{number} ) ;")));
    }
    let mut left: Vec<(usize, usize)> = links.iter().enumerate().map(|(index, _)| (index, 0)).collect();
    while !left.is_empty() {
        let turn = random.below(left.len());
        let (index, step) = left[turn];
        let Link { number, carried, main_sends } = &links[index];
        tokens.extend(local(&mut slots, random));
        tokens.extend(exchange(main_sends[step], *carried, &format!("a{number}"), random));
        match step + 1 < main_sends.len() {
            true => left[turn].1 += 1,
            false => drop(left.remove(turn)),
        }
    }
    tokens.push("}".to_string());
    tokens
}

fn start(random: &mut Random) -> Vec<String> {
    split(random.pick(&[
        "x = 1 ; y = true ; q = new qbit ( ) ;",
        "x = 0 ; y = x == 0 ; q = r = new qbit ( ) ;",
        "y = false ; x = sum ( 32767 , 2 ) ; q = new qbit ( ) ; r = q ;",
    ]))
}

/// What a process does by itself between two exchanges, within the slots that are
/// left.
fn local(slots: &mut usize, random: &mut Random) -> Vec<String> {
    let (taken, text) = random.pick(&[
        (0, ""),
        (0, ""),
        (0, "H ( q ) ;"),
        (0, "x = x + 1 ;"),
        (0, "x = 0 - x ;"),
        (0, "x = measure ( StdBasis , q ) ;"),
        (1, "{ qbit q ; q = new qbit ( ) ; Z ( q ) ; }"),
        (1, "while ( x < 3 ) { int y ; y = x ; x = y + 1 ; }"),
        (0, "if ( y ) S ( q ) ; else if ( x == 1 ) Y ( q ) ; else Z ( q ) ;"),
        (0, "fork keep ( q ) ; q = new qbit ( ) ;"),
        (0, "fork keep ( new qbit ( ) ) ;"),
        (0, "keep ( q ) ;"),
        (0, "SWAP ( q , r = new qbit ( ) ) ;"),
        (3, "{ channel [ int ] c withends [ d , e ] ; c = new channel [ int ] ( ) ; fork held ( c , e ) ; }"),
        (3, "{ channel [ int ] c withends [ d , e ] ; c = new channel [ int ] ( ) ; send ( d , 1 ) ; }"),
        (1, "{ channel [ boolean ] c ; c = new channel [ boolean ] ( ) ; }"),
    ]);
    if taken > *slots {
        return vec![];
    }
    *slots -= taken;
    split(text)
}

/// One side of an exchange over an end.
fn exchange(sends: bool, carried: u16, end: &str, random: &mut Random) -> Vec<String> {
    let text = match (sends, carried) {
        (true, 1) => random.pick(&[
            "send ( a , x ) ;",
            "send ( a , x + 1 ) ;",
            "send ( a , measure ( StdBasis , q ) ) ;",
            "send ( a , x = sum ( x , 0 - 40 ) ) ;",
            "send ( a , sum ( x , measure ( StdBasis , q ) ) ) ;",
            "send ( a , lend ( a ) ) ;",
        ]),
        (true, 2) => random.pick(&["send ( a , y ) ;", "send ( a , x < 2 ) ;", "send ( ( a ) , y = 1 == x ) ;"]),
        (true, _) => random.pick(&[
            "send ( a , q ) ; q = new qbit ( ) ;",
            "send ( a , new qbit ( ) ) ;",
            "r = q ; send ( a , q ) ; Z ( r ) ;",
            "send ( a , q ) ;",
            "CX ( q , away ( a , q ) ) ;",
            "q = away ( a , q ) ;",
        ]),
        (false, 1) => random.pick(&[
            "x = recv ( a ) ;",
            "x = recv ( a ) + 1 ;",
            "recv ( a ) ;",
            "if ( recv ( a ) == 1 ) X ( q ) ;",
            "x = sum ( 1 , recv ( a ) ) ;",
        ]),
        (false, 2) => random.pick(&["y = recv ( a ) ;", "if ( recv ( a ) ) X ( q ) ; else Z ( q ) ;"]),
        (false, _) => random.pick(&[
            "r = recv ( a ) ;",
            "H ( recv ( a ) ) ;",
            "CX ( q , recv ( a ) ) ;",
            "CZ ( recv ( a ) , q ) ;",
            "q = r = recv ( a ) ; measure ( StdBasis , r ) ;",
        ]),
    };
    split(text).into_iter().map(|token| if token == "a" { end.to_string() } else { token }).collect()
}
