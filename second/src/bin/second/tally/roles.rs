//! The roles in which an instruction names a register.

use second::program::Instruction;
use second::syllable::Register;

/// Every role in which the instruction reads or writes the register.
pub fn roles(instruction: &Instruction, register: Register) -> Vec<&'static str> {
    let mut roles = Vec::new();
    for placed in &instruction.syllables {
        let (syllable, cluster) = (placed.syllable, placed.cluster);
        let is = |named: Option<Register>| named == Some(register);
        let opcode = syllable.opcode();
        if syllable.is_call() {
            roles.push("call");
        }
        if syllable.is_return() {
            roles.push("return");
        }
        if is(syllable.s1(cluster)) {
            roles.push(match opcode {
                52..=59 => "base",
                60 => "copy's source",
                _ => "s1",
            });
        }
        if is(syllable.s2(cluster)) {
            roles.push(if matches!(opcode, 23 | 50 | 51) { "s2 of addcg, slct, slctf" } else { "s2" });
        }
        if is(syllable.b(cluster)) {
            roles.push(if opcode >= 62 { "condition of br, brf" } else { "b" });
        }
        if is(syllable.stored(cluster)) {
            roles.push("stored register");
        }
        if syllable.destinations(cluster).contains(&register) {
            roles.push(match (opcode, register) {
                (23, Register::General { .. }) => "destination of addcg",
                (23, Register::Branch { .. }) => "branch destination of addcg",
                (52..=56, _) => "destination of a load",
                (60, _) => "destination of a copy",
                (_, Register::Branch { .. }) => "branch destination",
                _ => "destination",
            });
        }
    }
    roles
}
