//! Random well-typed texts: signatures first, then each method's body.

use super::body::Body;
use super::words::{type_tokens, DOUBLE, KINDS, SINGLE};
use crate::random::Random;

/// What a caller sees of a method.
#[derive(Clone, Debug)]
pub struct Signature {
    pub name: String,
    pub returns: u16,
    pub parameters: Vec<u16>,
}

/// The tokens of a random well-typed text.
pub fn program(random: &mut Random) -> Vec<String> {
    let signatures = signatures(random);
    let longest = (1_500 / signatures.len()).min(90);
    let write = |own| Body::new(own, &signatures, longest, random).write();
    let methods: Vec<Vec<String>> = (0..signatures.len()).map(write).collect();
    methods.concat()
}

/// Main stands anywhere among the methods. At times one is called like a gate.
fn signatures(random: &mut Random) -> Vec<Signature> {
    let count = match random.below(20) {
        0 => random.between(10, 32),
        _ => random.between(1, 5),
    };
    let main = random.below(count);
    let gates = random.chance(25);
    let signature = |own| match own == main {
        true => Signature { name: "main".to_string(), returns: 0, parameters: vec![] },
        false => other(own, gates, random),
    };
    (0..count).map(signature).collect()
}

fn other(own: usize, gates: bool, random: &mut Random) -> Signature {
    let gate = SINGLE.iter().chain(&DOUBLE).nth(own).filter(|_| gates && random.chance(60));
    let name = gate.map_or_else(|| format!("f{own}"), |gate| gate.to_string());
    let returns = match random.below(3) {
        0 => 0,
        _ => random.pick(&KINDS),
    };
    let count = random.pick(&[0, 0, 1, 1, 1, 2, 2, 3, 5, 8]);
    let parameters = (0..count).map(|_| random.pick(&KINDS)).collect();
    Signature { name, returns, parameters }
}

/// `type name ( parameters )`
pub fn header(signature: &Signature, names: &[String]) -> Vec<String> {
    let mut tokens = type_tokens(signature.returns);
    tokens.extend([signature.name.clone(), "(".to_string()]);
    for (index, (kind, name)) in signature.parameters.iter().zip(names).enumerate() {
        if index > 0 {
            tokens.push(",".to_string());
        }
        tokens.extend(type_tokens(*kind));
        tokens.push(name.clone());
    }
    tokens.push(")".to_string());
    tokens
}
