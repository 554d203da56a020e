//! Lines that ask for a label's exact value: with any other they are 20, before whatever is refused further down.

use super::super::random::Random;
use second::assemble::instructions::Text;
use second::assemble::lines;

/// The text with such lines before it, for labels that it gives, those of lines with 18 too.
pub fn probed(random: &mut Random, text: Vec<u8>) -> Vec<u8> {
    let names: Vec<Vec<u8>> =
        lines::lines(&text).filter_map(|(_, line)| lines::read(line).label.map(<[u8]>::to_vec)).collect();
    if names.is_empty() {
        return text;
    }
    let mut shapes: Vec<(usize, usize)> = Vec::new();
    for _ in 0..random.weighted(&[(70, 1), (20, 2), (10, 4)]) {
        shapes.push((random.index(names.len()), random.index(4)));
    }
    let with_values = |values: &[i64]| {
        let probes = shapes.iter().zip(values).map(|((name, shape), value)| {
            let x = format!("({}-{value})", String::from_utf8_lossy(&names[*name]));
            match shape {
                0 => format!("c0 add $r0.1 = $r0.0, {x}*2000;;\n"),
                1 => format!("c0 ldw $r0.1 = {x}*5000[$r0.0];;\n"),
                2 => format!("c0 goto {x}*16777216;;\n"),
                _ => format!("c0 sub $r0.1 = 1023-1024*{x}*2*{x},$r0.0\n;;\n"),
            }
        });
        [probes.collect::<String>().as_bytes(), &text].concat()
    };
    // No value changes what a label's value is.
    let first = with_values(&vec![0; shapes.len()]);
    let read = Text::read(&first);
    let mut values: Vec<i64> = shapes.iter().map(|(name, _)| read.value(&names[*name]).unwrap_or(0)).collect();
    if random.percent(5) {
        values[0] += 1;
    }
    with_values(&values)
}
